/*
 * A node of a time-triggered cluster that acts by its table.
 *
 * C99 for microcontrollers: no heap, no recursion, no function pointers, no library. The table stays where it is: in flash, if
 * tools/c-table has written it as constants, or in a cpg_opened, if cpg_open.h has made it of a pack. All that changes is in one
 * cpg_node that the caller supplies. README.md beside this file says how to use it, docs/MODEL.md what a node does, and
 * docs/FORMATS.md what a pack is. Each call may be made in one context at a time.
 */
#ifndef CPG_NODE_H
#define CPG_NODE_H

#include <stdbool.h>
#include <stdint.h>

#ifdef __cplusplus
extern "C" {
#endif

/* How large a table a node may have. The defaults but for the columns are the greatest that a pack may ask for. */
#ifndef CPG_MAX_PROCESSES
#define CPG_MAX_PROCESSES 128U              /* processes of the graph */
#endif
#ifndef CPG_MAX_CONDITIONS
#define CPG_MAX_CONDITIONS 32U              /* conditions of the graph */
#endif
#ifndef CPG_MAX_OWN
#define CPG_MAX_OWN CPG_MAX_PROCESSES       /* processes that run on the node */
#endif
#ifndef CPG_MAX_ROWS
#define CPG_MAX_ROWS 416U                   /* rows of the node: what it starts, sends and hears */
#endif
#ifndef CPG_MAX_COLUMNS
#define CPG_MAX_COLUMNS 1024U               /* columns of these rows, for cpg_open alone */
#endif

#define CPG_VARIABLES (CPG_MAX_PROCESSES + CPG_MAX_CONDITIONS)
#define CPG_MAX_SIZE 268435456U             /* bytes of a pack */
#define CPG_NEVER UINT64_MAX                /* an instant that doesn't come */
#define CPG_NONE 255U                       /* no node and no condition has this number */

typedef char cpg_processes_are_in_range[(CPG_MAX_PROCESSES >= 1U && CPG_MAX_PROCESSES <= 128U) ? 1 : -1];
typedef char cpg_conditions_are_in_range[(CPG_MAX_CONDITIONS >= 1U && CPG_MAX_CONDITIONS <= 32U) ? 1 : -1];
typedef char cpg_own_are_in_range[(CPG_MAX_OWN >= 1U && CPG_MAX_OWN <= CPG_MAX_PROCESSES) ? 1 : -1];
typedef char cpg_rows_are_in_range[(CPG_MAX_ROWS >= CPG_MAX_OWN && CPG_MAX_ROWS <= 416U) ? 1 : -1];
typedef char cpg_columns_are_in_range[(CPG_MAX_COLUMNS >= 1U && CPG_MAX_COLUMNS <= 524288U) ? 1 : -1];

typedef enum {
    CPG_OK,
    CPG_PACK,       /* no pack: `bad` of cpg_open.h is the N of cpgc's `10 pack N` */
    CPG_LONG,       /* more than CPG_MAX_SIZE bytes, as cpgc's `16 long pack` */
    CPG_NODE,       /* no node of the pack has the name, as cpgc's `19 node` */
    CPG_FULL,       /* a macro above is too small; the bytes before place `bad` are how some pack begins */
    CPG_FRAME,      /* no such frame arrives at this time, or it contradicts what has been heard; nothing has changed */
    CPG_END,        /* no such execution can end so at this time; nothing has changed */
    CPG_ORDER       /* turns before this time are still to be taken, or its own has been; nothing has changed */
} cpg_status;

typedef enum {
    CPG_START,      /* start process `item` now */
    CPG_SEND,       /* send now the frame (item, column, value), and with a message its data */
    CPG_OVERRUN,    /* process `item` still runs at its end with k faults: a premise is broken */
    CPG_MISSING     /* the frame (item, column) had to be here by now, and isn't: a premise is broken */
} cpg_kind;

typedef struct {
    uint64_t time;      /* the instant of the turn, in time units of the graph file */
    cpg_kind kind;
    uint16_t item;      /* numbers as in the pack: starts are below `processes`, broadcasts `broadcast` or above */
    uint16_t column;    /* the place of the column in the item's row; 0 in an overrun */
    uint8_t value;      /* of a broadcast that is sent the value, else 0 */
} cpg_event;

typedef struct {
    uint8_t low;
    uint8_t high;
} cpg_range;

/* A column, in the order in which a node comes to them. */
typedef struct {
    uint32_t at;        /* the place of the column in the pack */
    uint16_t row;
    uint16_t column;    /* its number in the row */
} cpg_due;

/* A process of the node. */
typedef struct {
    uint32_t durations; /* the place of its durations in the pack */
    uint8_t condition;  /* CPG_NONE where it has none */
} cpg_process;

/* The table of a node. It doesn't change. */
typedef struct {
    const uint8_t *pack;            /* the bytes in which columns and durations stand */
    const uint16_t *item;           /* of each row the item */
    const cpg_process *process;     /* by the row of the start */
    const cpg_due *due;             /* by time; of one time what is heard, then sends, then starts */
    uint32_t size;                  /* of the pack */
    uint32_t dues;
    uint16_t own;                   /* rows below it are starts, those of its processes */
    uint16_t acting;                /* rows from `own` to below it are sends, the others are heard */
    uint16_t rows;
    uint16_t broadcast;             /* the item number of the first broadcast */
    uint8_t k;                      /* the most faults in a cycle */
    uint8_t processes;              /* of the graph, as the conditions */
    uint8_t conditions;
} cpg_table;

typedef enum {
    CPG_IDLE,           /* not started in this cycle */
    CPG_RUNNING,        /* since `start`; `until` is its end with k faults */
    CPG_OVERRUNNING,    /* the same, past that end, which has been told */
    CPG_NOTED,          /* it has ended; `until` is its planned end */
    CPG_ENDED           /* its planned end is over */
} cpg_state;

typedef struct {
    uint64_t start;
    uint64_t until;
    uint8_t faults;
    uint8_t value;
    cpg_state state;
} cpg_execution;

/* All that a node knows in a cycle. */
typedef struct {
    const cpg_table *table;
    uint64_t from;                              /* the turns of instants before it are over, or under way */
    uint32_t next;                              /* the first column that is still to come */
    cpg_range heard[CPG_VARIABLES];             /* which numbers each variable may have, by what was heard */
    cpg_range sure[CPG_VARIABLES];              /* the same by what didn't come too: for the watch alone */
    bool came[CPG_MAX_ROWS];                    /* whether a frame of the row has come */
    cpg_execution execution[CPG_MAX_OWN];       /* by the row of the start */
} cpg_node;

/* Comments that begin with @ are contracts in ACSL, for tools/prove-runtime. What they require are the duties of the caller: call
 * cpg_begin first; leave the table where it is; give pointers to what is there, each apart from the others. Tables of
 * tools/c-table, and those of cpg_open.h whatever that answers, are as cpg_is_table says. */
/*@ predicate cpg_fits(cpg_table *table) =
        table->k <= 8 && table->own <= CPG_MAX_OWN && table->rows <= CPG_MAX_ROWS;
    predicate cpg_is_table(cpg_table *table) =
        \valid_read(table) && cpg_fits(table) && \valid_read(table->pack + (0 .. table->size - 1))
        && \valid_read(table->item + (0 .. table->rows - 1)) && \valid_read(table->item + (0 .. table->own - 1))
        && \valid_read(table->process + (0 .. table->own - 1)) && \valid_read(table->due + (0 .. table->dues - 1));
    predicate cpg_is_apart(cpg_table *table, cpg_node *node) =
        \separated(node, table) && \separated(node, table->pack + (0 .. table->size - 1))
        && \separated(node, table->item + (0 .. table->rows - 1)) && \separated(node, table->process + (0 .. table->own - 1))
        && \separated(node, table->due + (0 .. table->dues - 1));
    predicate cpg_is_aside(cpg_table *table, cpg_event *event) =
        \separated(event, table) && \separated(event, table->pack + (0 .. table->size - 1))
        && \separated(event, table->item + (0 .. table->rows - 1)) && \separated(event, table->process + (0 .. table->own - 1))
        && \separated(event, table->due + (0 .. table->dues - 1));
    predicate cpg_is_event(cpg_node *node, cpg_event *event) =
        \valid(event) && \separated(node, event) && cpg_is_aside(node->table, event);
    predicate cpg_is_open(cpg_node *node) =
        \valid(node) && cpg_is_table(node->table) && cpg_is_apart(node->table, node);
    predicate cpg_is_node(cpg_node *node) =
        cpg_is_open(node) && (\forall integer i; 0 <= i < node->table->rows ==> node->came[i] == 0 || node->came[i] == 1); */

/* Begins a cycle by a table, which has to stay: time is 0, nothing runs, and nothing has been heard. */
/*@ requires \valid(node) && cpg_is_table(table) && cpg_is_apart(table, node);
    terminates \true;
    assigns *node;
    ensures cpg_is_node(node) && node->table == table; */
void cpg_begin(cpg_node *node, const cpg_table *table);

/* The next instant at which the node has something to do: CPG_NEVER where there is none, unless something is heard or ends. */
/*@ requires cpg_is_node(node);
    terminates \true;
    assigns \nothing; */
uint64_t cpg_next(const cpg_node *node);

/* Takes turns up to and at `until`, as far as the next event. Answers whether there is one; where there is none, all these turns
 * are over. Frames that arrive at an instant and executions that end then are told before the turn of that instant. */
/*@ requires cpg_is_node(node);
    requires cpg_is_event(node, event);
    terminates \true;
    assigns node->from, node->next, node->heard[0 .. CPG_VARIABLES - 1], node->sure[0 .. CPG_VARIABLES - 1],
        node->execution[0 .. CPG_MAX_OWN - 1], event->time, event->kind, event->item, event->column, event->value;
    ensures cpg_is_node(node); */
bool cpg_poll(cpg_node *node, uint64_t until, cpg_event *event);

/* A frame has arrived at a time. The value is looked at where the item is a broadcast. */
/*@ requires cpg_is_node(node);
    terminates \true;
    assigns node->heard[0 .. CPG_VARIABLES - 1], node->sure[0 .. CPG_VARIABLES - 1], node->came[0 .. CPG_MAX_ROWS - 1];
    ensures cpg_is_node(node); */
cpg_status cpg_hear(cpg_node *node, uint64_t time, uint16_t item, uint16_t column, uint8_t value);

/* The execution of a process has ended by a time, with so many faults; `value` is that of its condition, 0 where it has none. */
/*@ requires cpg_is_node(node);
    terminates \true;
    assigns node->execution[0 .. CPG_MAX_OWN - 1];
    ensures cpg_is_node(node); */
cpg_status cpg_ended(cpg_node *node, uint64_t time, uint16_t process, uint16_t faults, uint8_t value);

#ifdef __cplusplus
}
#endif

#endif
