/* A node that a timer drives. */
#ifndef NODE_H
#define NODE_H

#include <stdint.h>

/* Begins a cycle by the table that is linked to the program. The next tick is that of time 0. */
void node_begin(void);

/* The handler of the timer interrupt, once in each time unit. */
void node_tick(void);

/* So many ticks are left out, since nothing arrives, ends or is due in them. */
void node_skip(uint32_t ticks);

#endif
