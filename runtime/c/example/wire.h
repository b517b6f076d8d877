/*
 * A board whose bus and processes are elsewhere, at the other end of a wire that carries lines. That end is tools/run-nodes.
 *
 * From the node: `done` when it is there. Then to it, for each tick: `wait TICKS` for those that were left out, `frame ITEM COLUMN VALUE`
 * and `end PROCESS FAULTS VALUE`, then `tick`; or `stop`. And from it: `start PROCESS`, `send ITEM COLUMN VALUE`, `overrun PROCESS`, `missing ITEM COLUMN` and
 * `strange ITEM`, then `done`.
 */
#ifndef WIRE_H
#define WIRE_H

#include <stdbool.h>

/* Which the hardware provides: the next character, or -1 where there is none any more; and one to be written. */
int wire_read(void);
void wire_write(char character);

/* Waits for the next tick. Answers false where the wire says `stop`. */
bool wire_wait(void);

/* Says that the node is there, or that all of this tick is done. */
void wire_done(void);

#endif
