/* What the node of this example wants of the board that it runs on: a bus and processes. */
#ifndef BOARD_H
#define BOARD_H

#include "cpg_node.h"

typedef struct {
    uint16_t item;
    uint16_t column;
    uint8_t value;
} board_frame;

typedef struct {
    uint16_t process;
    uint16_t faults;        /* how often it had to be done again */
    uint8_t value;          /* of its condition, 0 where it has none */
} board_end;

/* The next frame that has arrived, or process that has ended, since the last tick. Answers whether there is one. */
bool board_received(board_frame *frame);
bool board_finished(board_end *end);

/* Puts a frame into the node's slot that begins now. */
void board_send(const board_frame *frame);

/* Starts a process. */
void board_start(uint16_t process);

/* A premise is broken: an event of the watch, or an item that came or ended as it can't. */
void board_alarm(const cpg_event *event);
void board_strange(uint16_t item);

#endif
