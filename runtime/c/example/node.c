#include "node.h"

#include "board.h"
#include "cpg_table.h"

#ifndef NODE_CYCLE
#define NODE_CYCLE 0U                   /* how long a cycle is, as tools/cycle says; 0 where there is one alone */
#endif

static cpg_node node;
static uint64_t now;

void node_begin(void)
{
    now = 0U;
    cpg_begin(&node, &cpg_node_table);
}

static void take_ends(void)
{
    board_end end;
    while (board_finished(&end)) {
        if (cpg_ended(&node, now, end.process, end.faults, end.value) != CPG_OK) {
            board_strange(end.process);
        }
    }
}

static void take_frames(void)
{
    board_frame frame;
    while (board_received(&frame)) {
        if (cpg_hear(&node, now, frame.item, frame.column, frame.value) != CPG_OK) {
            board_strange(frame.item);
        }
    }
}

static void act(const cpg_event *event)
{
    board_frame frame = { event->item, event->column, event->value };
    switch (event->kind) {
    case CPG_START:
        board_start(event->item);
        break;
    case CPG_SEND:
        board_send(&frame);
        break;
    default:
        board_alarm(event);
        break;
    }
}

static void take_turn(void)
{
    cpg_event event;
    take_ends();
    take_frames();
    while (cpg_poll(&node, now, &event)) {
        act(&event);
    }
}

void node_skip(uint32_t ticks)
{
    now += ticks;
}

void node_tick(void)
{
    take_turn();
#if NODE_CYCLE > 0U
    if (now >= NODE_CYCLE) {            /* what ends or arrives at this instant was still of the cycle that is over */
        node_begin();
        take_turn();
    }
#endif
    now++;
}
