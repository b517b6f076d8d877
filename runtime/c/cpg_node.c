/* See cpg_node.h. Every byte of the pack is read by byte_at, which asks whether it is there. */
#include "cpg_node.h"
#ifdef __FRAMAC__
#include "cpg_spec.h"
#endif

#define FIRST_VALUE 128U            /* the variable of condition 0 */
#define TIME_BYTES 8U
#define CUBE_AT 8U                  /* in a column: the count of its literals, after the time */
#define LITERALS_AT 9U
#define LITERAL_BYTES 3U

/* ---- Bytes ---- */

/*@ requires cpg_is_open(node);
    terminates \true;
    assigns \nothing;
    behavior table:
      assumes d_holds(node);
      ensures \result == t_byte(at); */
static uint8_t byte_at(const cpg_node *node, uint32_t at)
{
    return (at < node->table->size) ? node->table->pack[at] : (uint8_t)0U;
}

/*@ requires cpg_is_open(node);
    terminates \true;
    assigns \nothing;
    behavior table:
      assumes d_holds(node);
      assumes at <= 4294967292;
      ensures \result == d_word(at); */
static uint32_t word_at(const cpg_node *node, uint32_t at)
{
    uint32_t high = ((uint32_t)byte_at(node, at) * 256U) + byte_at(node, at + 1U);
    uint32_t low = ((uint32_t)byte_at(node, at + 2U) * 256U) + byte_at(node, at + 3U);
    return (high * 65536U) + low;
}

/*@ requires cpg_is_open(node);
    terminates \true;
    assigns \nothing;
    behavior table:
      assumes d_holds(node);
      assumes at <= 4294967288;
      ensures \result == d_big_number(at); */
static uint64_t time_at(const cpg_node *node, uint32_t at)
{
    return ((uint64_t)word_at(node, at) * 4294967296U) + word_at(node, at + 4U);
}

/* ---- Rows ---- */

/*@ requires cpg_is_open(node);
    terminates \true;
    assigns \nothing;
    ensures \result <==> row < node->table->own; */
static bool is_start(const cpg_node *node, uint16_t row)
{
    return row < node->table->own;
}

/*@ requires cpg_is_open(node);
    terminates \true;
    assigns \nothing;
    ensures heard: \result <==> row >= node->table->acting; */
static bool is_heard(const cpg_node *node, uint16_t row)
{
    return row >= node->table->acting;
}

/*@ behavior table:
      assumes d_is_table(node, table);
      ensures holds: d_holds(node);
      ensures opening: d_opening(node);
      ensures sound: d_is_sound(node); */
void cpg_begin(cpg_node *node, const cpg_table *table)
{
    node->table = table;
    node->from = 0U;
    node->next = 0U;
    //@ for table: assert apart: d_is_apart(node, node->table);
    //@ for table: assert sizes: d_has_sizes(node->table);
    //@ for table: assert bytes: d_has_bytes(node->table);
    //@ for table: assert items: d_has_items(node->table);
    //@ for table: assert own: d_has_own(node->table);
    //@ for table: assert dues: d_has_dues(node->table);
    //@ for table: assert holds: d_holds(node);
    /*@ loop invariant 0 <= i <= CPG_VARIABLES && cpg_is_open(node);
        for table: loop invariant holds: d_holds(node);
        for table: loop invariant whole: \forall integer p; 0 <= p < i ==> d_whole_range(node, p);
        loop assigns i, node->heard[0 .. CPG_VARIABLES - 1], node->sure[0 .. CPG_VARIABLES - 1];
        loop variant CPG_VARIABLES - i; */
    for (uint32_t i = 0U; i < CPG_VARIABLES; i++) {
        const uint8_t high = (i < CPG_MAX_PROCESSES) ? node->table->k : (uint8_t)1U;
        node->heard[i].low = 0U;
        node->heard[i].high = high;
        node->sure[i].low = 0U;
        node->sure[i].high = high;
        //@ for table: assert sizes: d_has_sizes(node->table);
        //@ for table: assert bytes: d_has_bytes(node->table);
        //@ for table: assert own: d_has_own(node->table);
        //@ for table: assert this: d_whole_range(node, i);
    }
    //@ for table: assert whole: \forall integer p; 0 <= p < CPG_VARIABLES ==> d_whole_range(node, p);
    //@ ghost Whole: ;
    /*@ loop invariant 0 <= row <= node->table->rows;
        for table: loop invariant holds: d_holds(node);
        for table: loop invariant same: d_same_ranges{Whole,Here}(node);
        loop invariant \forall integer i; 0 <= i < row ==> node->came[i] == 0;
        loop assigns row, node->came[0 .. CPG_MAX_ROWS - 1];
        loop variant node->table->rows - row; */
    for (uint16_t row = 0U; row < node->table->rows; row++) {
        node->came[row] = false;
    }
    //@ ghost Came: ;
    /*@ loop invariant 0 <= row <= node->table->own && cpg_is_node(node);
        for table: loop invariant holds: d_holds(node);
        for table: loop invariant same: d_same_ranges{Whole,Here}(node);
        for table: loop invariant same: d_same_flags{Came,Here}(node);
        for table: loop invariant at: d_is_at(node, 0, 0);
        for table: loop invariant idle: \forall integer r; 0 <= r < row ==> node->execution[r].state == CPG_IDLE;
        loop assigns row, node->execution[0 .. CPG_MAX_OWN - 1];
        loop variant node->table->own - row; */
    for (uint16_t row = 0U; row < node->table->own; row++) {
        //@ for table: assert own: d_has_own(node->table);
        node->execution[row].state = CPG_IDLE;
        //@ for table: assert sizes: d_has_sizes(node->table);
        //@ for table: assert own: \forall integer r; 0 <= r < t_own ==> node->table->process[r].durations == t_durations(r);
        //@ for table: assert own: \forall integer r; 0 <= r < t_own ==> node->table->process[r].condition == t_condition(r);
        //@ for table: assert own: d_has_own(node->table);
        //@ for table: assert dues: d_has_dues(node->table);
    }
    //@ for table: assert idle: \forall integer r; 0 <= r < t_own ==> node->execution[r].state == CPG_IDLE;
    //@ for table: assert whole: \forall integer p; 0 <= p < CPG_VARIABLES ==> d_whole_range(node, p);
    //@ for table: assert numbers: d_has_numbers(node);
    //@ for table: assert timed: d_are_timed(node);
    //@ for table: assert flags: d_are_flags(node);
    //@ for table: assert kept: d_is_kept(node);
    //@ for table: assert before: d_nothing_before(node, node->from - 1);
    //@ for table: assert over: d_columns_over(node);
    //@ for table: assert ahead: d_reports_ahead(node);
    //@ for table: assert starts: d_starts_over(node);
}

/* ---- What has been heard ---- */

/* Where a variable stands among the ranges: CPG_VARIABLES where it doesn't. */
/*@ terminates \true;
    assigns \nothing;
    ensures \result <= CPG_VARIABLES;
    ensures variable < CPG_MAX_PROCESSES || 128 <= variable < 128 + CPG_MAX_CONDITIONS ==> \result == d_place(variable);
    ensures \result < CPG_VARIABLES ==> \result == d_place(variable); */
static uint32_t place_of(uint8_t variable)
{
    uint32_t place = variable;
    if (variable >= FIRST_VALUE) {
        place = CPG_MAX_PROCESSES + ((uint32_t)variable - FIRST_VALUE);
    } else if (variable >= CPG_MAX_PROCESSES) {
        place = CPG_VARIABLES;
    } else {
        /* it stands at its number */
    }
    return (place < CPG_VARIABLES) ? place : CPG_VARIABLES;
}

/* Where the value of a condition stands. */
/*@ terminates \true;
    assigns \nothing;
    ensures \result == (condition < CPG_MAX_CONDITIONS ? d_value_place(condition) : CPG_VARIABLES); */
static uint32_t place_of_value(uint32_t condition)
{
    return (condition < CPG_MAX_CONDITIONS) ? (CPG_MAX_PROCESSES + condition) : CPG_VARIABLES;
}

/*@ terminates \true;
    assigns \nothing;
    behavior table:
      assumes column <= CPG_MAX_SIZE && literal <= 255;
      ensures \result == d_literal(column, literal); */
static uint32_t literal_at(uint32_t column, uint32_t literal)
{
    return column + LITERALS_AT + (LITERAL_BYTES * literal);
}

/*@ requires cpg_is_open(node);
    terminates \true;
    assigns \nothing;
    behavior table:
      assumes d_holds(node);
      assumes literal <= 4294967293;
      ensures \result.low == d_low(literal) && \result.high == d_high(literal); */
static cpg_range range_at(const cpg_node *node, uint32_t literal)
{
    cpg_range range;
    range.low = byte_at(node, literal + 1U);
    range.high = byte_at(node, literal + 2U);
    return range;
}

/*@ terminates \true;
    assigns \nothing;
    ensures \result.low == \max(one.low, other.low) && \result.high == \min(one.high, other.high); */
static cpg_range common(cpg_range one, cpg_range other)
{
    cpg_range range;
    range.low = (one.low > other.low) ? one.low : other.low;
    range.high = (one.high < other.high) ? one.high : other.high;
    return range;
}

/*@ terminates \true;
    assigns \nothing;
    ensures \result <==> range.high < range.low; */
static bool is_empty(cpg_range range)
{
    return range.low > range.high;
}

/* Whether a number that is in the range `known` is in the other one for sure. */
/*@ terminates \true;
    assigns \nothing;
    ensures \result <==> range.low <= known.low && known.high <= range.high; */
static bool is_within(cpg_range known, cpg_range range)
{
    return (known.low >= range.low) && (known.high <= range.high);
}

/* Whether all literals of a column follow from what has been heard. */
/*@ requires cpg_is_open(node);
    terminates \true;
    assigns \nothing;
    behavior table:
      assumes d_holds(node);
      assumes t_is_column(column);
      ensures \result ==> d_all_heard(node, column);
      ensures !\result ==> !d_all_heard(node, column); */
static bool follows(const cpg_node *node, uint32_t column)
{
    uint32_t literals = byte_at(node, column + CUBE_AT);
    /*@ loop invariant 0 <= i <= literals;
        for table: loop invariant \forall integer j; 0 <= j < i ==> d_has_heard(node, d_literal(column, j));
        loop assigns i;
        loop variant literals - i; */
    for (uint32_t i = 0U; i < literals; i++) {
        uint32_t literal = literal_at(column, i);
        uint32_t place = place_of(byte_at(node, literal));
        //@ for table: assert place == d_place(d_variable(d_literal(column, i)));
        if ((place >= CPG_VARIABLES) || !is_within(node->heard[place], range_at(node, literal))) {
            //@ for table: assert !d_has_heard(node, d_literal(column, i));
            //@ for table: assert !d_all_heard(node, column);
            return false;
        }
    }
    //@ for table: assert d_all_heard(node, column);
    return true;
}

/* A variable's number is in a range. Where the watch has ruled that out, by a frame that was lost, it begins anew. */
/*@ requires cpg_is_node(node);
    terminates \true;
    assigns node->heard[0 .. CPG_VARIABLES - 1], node->sure[0 .. CPG_VARIABLES - 1];
    ensures cpg_is_node(node);
    behavior table:
      assumes d_holds(node);
      assumes place <= CPG_VARIABLES;
      ensures holds: d_holds(node);
      ensures same: d_same_executions{Pre,Post}(node);
      ensures same: d_same_flags{Pre,Post}(node);
      ensures low: place < CPG_VARIABLES ==> node->heard[place].low == \max(\old(node->heard[place].low), range.low);
      ensures high: place < CPG_VARIABLES ==> node->heard[place].high == \min(\old(node->heard[place].high), range.high);
      ensures \forall integer p; 0 <= p < CPG_VARIABLES && p != place ==> d_same_range{Pre,Post}(node, p); */
static void learn(cpg_node *node, uint32_t place, cpg_range range)
{
    if (place < CPG_VARIABLES) {
        cpg_range heard = common(node->heard[place], range);
        cpg_range sure = common(node->sure[place], range);
        if (is_empty(sure)) {
            sure = heard;
        }
        node->heard[place].low = heard.low;
        node->heard[place].high = heard.high;
        node->sure[place].low = sure.low;
        node->sure[place].high = sure.high;
    }
}

/* A variable has this number, whatever was heard before. */
/*@ requires cpg_is_node(node);
    terminates \true;
    assigns node->heard[0 .. CPG_VARIABLES - 1], node->sure[0 .. CPG_VARIABLES - 1];
    ensures cpg_is_node(node);
    behavior table:
      assumes d_holds(node);
      assumes place <= CPG_VARIABLES;
      ensures holds: d_holds(node);
      ensures same: d_same_executions{Pre,Post}(node);
      ensures same: d_same_flags{Pre,Post}(node);
      ensures place < CPG_VARIABLES ==> d_know(node, place, number);
      ensures \forall integer p; 0 <= p < CPG_VARIABLES && p != place ==> d_same_range{Pre,Post}(node, p); */
static void know(cpg_node *node, uint32_t place, uint8_t number)
{
    if (place < CPG_VARIABLES) {
        node->heard[place].low = number;
        node->heard[place].high = number;
        node->sure[place].low = number;
        node->sure[place].high = number;
    }
}

/* ---- Turns ---- */

/*@ requires cpg_is_open(node);
    terminates \true;
    assigns \nothing;
    behavior table:
      assumes d_holds(node);
      ensures \result == (i < t_dues ? d_time(i) : CPG_NEVER); */
static uint64_t due_time(const cpg_node *node, uint32_t i)
{
    return (i < node->table->dues) ? time_at(node, node->table->due[i].at) : CPG_NEVER;
}

/* Whether something happens at `until` of an execution. */
/*@ requires \valid_read(execution);
    terminates \true;
    assigns \nothing;
    ensures \result <==> execution->state == CPG_RUNNING || execution->state == CPG_NOTED; */
static bool is_awaited(const cpg_execution *execution)
{
    return (execution->state == CPG_RUNNING) || (execution->state == CPG_NOTED);
}

/*@ behavior table:
      assumes d_holds(node) && d_is_kept(node);
      ensures before: d_nothing_before(node, \result);
      ensures next: d_next_awaited(node, \result); */
uint64_t cpg_next(const cpg_node *node)
{
    uint64_t next = due_time(node, node->next);
    /*@ loop invariant 0 <= row <= node->table->own;
        for table: loop invariant node->next < t_dues ==> next <= d_time(node->next);
        for table: loop invariant \forall integer r; 0 <= r < row && d_is_awaited(node, r) ==> next <= node->execution[r].until;
        for table: loop invariant next == CPG_NEVER || (node->next < t_dues && next == d_time(node->next))
            || (\exists integer r; 0 <= r < row && d_is_awaited(node, r) && node->execution[r].until == next);
        loop assigns row, next;
        loop variant node->table->own - row; */
    for (uint16_t row = 0U; row < node->table->own; row++) {
        if (is_awaited(&node->execution[row]) && (node->execution[row].until < next)) {
            next = node->execution[row].until;
        }
    }
    return next;
}

/* Executions whose planned end is now tell their faults and values. */
/*@ requires cpg_is_node(node);
    requires row < node->table->own;
    terminates \true;
    assigns node->execution[0 .. CPG_MAX_OWN - 1], node->heard[0 .. CPG_VARIABLES - 1], node->sure[0 .. CPG_VARIABLES - 1];
    ensures cpg_is_node(node);
    behavior table:
      assumes d_holds(node) && d_is_kept(node);
      assumes row < t_own && d_has_reported(node, row);
      ensures holds: d_holds(node);
      ensures where: node->from == \old(node->from) && node->next == \old(node->next);
      ensures same: d_same_flags{Pre,Post}(node);
      ensures d_has_numbers(node);
      ensures d_are_timed(node);
      ensures faults: d_know(node, t_item(row), \old(node->execution[row].faults));
      ensures value: t_condition(row) != 255 ==> d_know(node, d_value_place(t_condition(row)), \old(node->execution[row].value));
      ensures others: \forall integer p; 0 <= p < CPG_VARIABLES && p != t_item(row)
          && (t_condition(row) == 255 || p != d_value_place(t_condition(row))) ==> d_same_range{Pre,Post}(node, p);
      ensures node->execution[row].state == CPG_ENDED;
      ensures d_same_report{Pre,Post}(node, row);
      ensures rows: \forall integer r; 0 <= r < CPG_MAX_OWN && r != row ==> d_same_execution{Pre,Post}(node, r); */
static void tell_end(cpg_node *node, uint16_t row)
{
    know(node, place_of((uint8_t)node->table->item[row]), node->execution[row].faults);
    know(node, place_of_value(node->table->process[row].condition), node->execution[row].value);
    node->execution[row].state = CPG_ENDED;
}

/*@ requires cpg_is_node(node);
    terminates \true;
    assigns node->execution[0 .. CPG_MAX_OWN - 1], node->heard[0 .. CPG_VARIABLES - 1], node->sure[0 .. CPG_VARIABLES - 1];
    ensures cpg_is_node(node);
    behavior table:
      assumes d_holds(node) && d_is_kept(node);
      ensures holds: d_holds(node);
      ensures where: node->from == \old(node->from) && node->next == \old(node->next);
      ensures same: d_same_flags{Pre,Post}(node);
      ensures d_has_numbers(node);
      ensures d_are_timed(node);
      ensures heard: d_heard_after{Pre,Post}(node, now);
      ensures reports: d_end_reports{Pre,Post}(node);
      ensures due: d_end_due{Pre,Post}(node, now, t_own);
      ensures others: d_end_no_more{Pre,Post}(node, now, t_own); */
static void tell_ends(cpg_node *node, uint64_t now)
{
    /*@ loop invariant 0 <= row <= node->table->own && cpg_is_node(node);
        for table: loop invariant holds: d_holds(node);
        for table: loop invariant same: d_same_flags{Pre,Here}(node);
        for table: loop invariant d_has_numbers(node);
        for table: loop invariant d_are_timed(node);
        for table: loop invariant where: node->from == \at(node->from,Pre) && node->next == \at(node->next,Pre);
        for table: loop invariant d_end_reports{Pre,Here}(node);
        for table: loop invariant d_end_due{Pre,Here}(node, now, row);
        for table: loop invariant d_end_no_more{Pre,Here}(node, now, row);
        for table: loop invariant d_hear_faults{Pre,Here}(node, now, row);
        for table: loop invariant d_hear_values{Pre,Here}(node, now, row);
        for table: loop invariant d_hear_no_more{Pre,Here}(node, now, row);
        loop assigns row, node->execution[0 .. CPG_MAX_OWN - 1], node->heard[0 .. CPG_VARIABLES - 1],
            node->sure[0 .. CPG_VARIABLES - 1];
        loop variant node->table->own - row; */
    for (uint16_t row = 0U; row < node->table->own; row++) {
        if ((node->execution[row].state == CPG_NOTED) && (node->execution[row].until <= now)) {
            //@ for table: assert d_due_report{Pre}(node, row, now);
            /*@ for table: assert differ: \forall integer r; 0 <= r < row ==> t_item(r) != t_item(row)
                && (t_condition(r) == 255 || t_condition(r) != t_condition(row)); */
            tell_end(node, row);
            /*@ for table: assert kept: \forall integer r; 0 <= r < row && d_due_report{Pre}(node, r, now) && t_condition(r) != 255 ==>
                d_same_range{LoopCurrent,Here}(node, d_value_place(t_condition(r))); */
            /*@ for table: assert kept: \forall integer r; 0 <= r < row && d_due_report{Pre}(node, r, now) ==>
                d_same_range{LoopCurrent,Here}(node, t_item(r)); */
            //@ for table: assert here: \forall integer r; r == row ==> d_know(node, t_item(r), \at(node->execution[r].faults,Pre));
            /*@ for table: assert here: \forall integer r; r == row && t_condition(r) != 255 ==>
                d_know(node, d_value_place(t_condition(r)), \at(node->execution[r].value,Pre)); */
            //@ for table: assert before: d_hear_faults{Pre,Here}(node, now, row);
            //@ for table: assert before: d_hear_values{Pre,Here}(node, now, row);
        }
    }
}

/* The event of a row at an instant. */
/*@ requires cpg_is_node(node);
    requires cpg_is_event(node, event);
    requires row < node->table->rows || row < node->table->own;
    terminates \true;
    assigns event->time, event->kind, event->item, event->column, event->value;
    ensures cpg_is_node(node);
    behavior table:
      assumes d_holds(node) && row < t_rows;
      assumes d_is_event(node, event);
      ensures holds: d_holds(node);
      ensures same: d_same_executions{Pre,Post}(node);
      ensures same: d_same_ranges{Pre,Post}(node);
      ensures same: d_same_flags{Pre,Post}(node);
      ensures same: node->from == \old(node->from) && node->next == \old(node->next);
      ensures timed: d_are_timed{Pre}(node) ==> d_are_timed{Post}(node);
      ensures event: event->time == now && event->kind == kind && event->item == t_item(row);
      ensures event: event->column == column && event->value == value; */
static void tell(const cpg_node *node, cpg_event *event, cpg_kind kind, uint64_t now, uint16_t row, uint16_t column, uint8_t value)
{
    event->kind = kind;
    event->time = now;
    event->item = node->table->item[row];
    event->column = column;
    event->value = value;
    //@ for table: assert apart: d_is_apart(node, node->table);
    //@ for table: assert sizes: d_has_sizes(node->table);
    //@ for table: assert bytes: d_has_bytes(node->table);
    //@ for table: assert items: d_has_items(node->table);
    //@ for table: assert own: d_has_own(node->table);
    //@ for table: assert dues: \forall integer i; 0 <= i < t_dues ==> node->table->due[i].at == t_at(i);
    //@ for table: assert dues: \forall integer i; 0 <= i < t_dues ==> node->table->due[i].row == t_row(i);
    //@ for table: assert dues: \forall integer i; 0 <= i < t_dues ==> node->table->due[i].column == t_column(i);
    //@ for table: assert dues: d_has_dues(node->table);
}

/* The row of the first execution that still runs at its end with k faults, and wasn't told before: `own` where there is none. */
/*@ requires cpg_is_open(node);
    terminates \true;
    assigns \nothing;
    ensures \result <= node->table->own;
    behavior table:
      assumes d_holds(node);
      ensures \result <= t_own;
      ensures this: \result < t_own ==> d_overruns(node, \result, now);
      ensures first: \forall integer r; 0 <= r < \result ==> !d_overruns(node, r, now);
      ensures none: \result == t_own ==> d_none_overruns(node, now); */
static uint16_t find_overrun(const cpg_node *node, uint64_t now)
{
    /*@ loop invariant 0 <= row <= node->table->own;
        for table: loop invariant \forall integer r; 0 <= r < row ==> !d_overruns(node, r, now);
        loop assigns row;
        loop variant node->table->own - row; */
    for (uint16_t row = 0U; row < node->table->own; row++) {
        if ((node->execution[row].state == CPG_RUNNING) && (node->execution[row].until <= now)) {
            return row;
        }
    }
    return node->table->own;
}

/* An execution still runs at its end with k faults. */
/*@ requires cpg_is_node(node);
    requires cpg_is_event(node, event);
    requires row < node->table->own;
    terminates \true;
    assigns node->execution[0 .. CPG_MAX_OWN - 1], event->time, event->kind, event->item, event->column, event->value;
    ensures cpg_is_node(node);
    behavior table:
      assumes d_holds(node) && d_is_told(node, now);
      assumes d_is_event(node, event);
      assumes row < t_own && d_overruns(node, row, now);
      assumes \forall integer r; 0 <= r < row ==> !d_overruns(node, r, now);
      ensures holds: d_holds(node);
      ensures where: node->from == \old(node->from) && node->next == \old(node->next);
      ensures same: d_same_ranges{Pre,Post}(node);
      ensures same: d_same_flags{Pre,Post}(node);
      ensures told: d_is_told(node, now);
      ensures kind: event->kind == CPG_OVERRUN;
      ensures overrun: d_turn_overrun{Pre,Post}(node, now, 1, event);
      ensures others: d_rest_others{Pre,Post}(node, 1, event); */
static void tell_overrun(cpg_node *node, uint16_t row, uint64_t now, cpg_event *event)
{
    //@ for table: assert kept: d_is_kept(node);
    //@ for table: assert rows: row < t_rows;
    node->execution[row].state = CPG_OVERRUNNING;
    //@ for table: assert this: d_is_timed(node, row);
    //@ for table: assert same: \forall integer r; 0 <= r < CPG_MAX_OWN && r != row ==> d_same_execution{Pre,Here}(node, r);
    //@ for table: assert timed: \forall integer r; 0 <= r < t_own && r != row ==> d_is_timed(node, r);
    //@ for table: assert timed: d_are_timed(node);
    //@ for table: assert holds: d_holds(node);
    //@ ghost Marked: ;
    tell(node, event, CPG_OVERRUN, now, row, 0U, 0U);
    //@ for table: assert at: d_is_at(node, \at(node->from,Pre), \at(node->next,Pre));
    //@ for table: assert same: d_same_executions{Marked,Here}(node);
    //@ for table: assert others: \forall integer r; 0 <= r < CPG_MAX_OWN && r != row ==> d_same_execution{Pre,Here}(node, r);
    //@ for table: assert report: d_same_report{Pre,Here}(node, row);
    //@ for table: assert state: node->execution[row].state == CPG_OVERRUNNING;
    //@ for table: assert overrun: d_turn_overrun{Pre,Here}(node, now, 1, event);
    //@ for table: assert others: d_rest_others{Pre,Here}(node, 1, event);
    //@ for table: assert kept: d_is_kept(node);
    //@ for table: assert before: d_nothing_before(node, now);
    //@ for table: assert over: d_columns_over(node);
    //@ for table: assert ahead: d_reports_ahead(node);
    //@ for table: assert starts: d_starts_over(node);
}

/* A variable's number isn't in a range: where that covers one end of what is left, this end moves. */
/*@ requires cpg_is_node(node);
    terminates \true;
    assigns node->sure[0 .. CPG_VARIABLES - 1];
    ensures cpg_is_node(node);
    behavior table:
      assumes d_holds(node);
      ensures holds: d_holds(node);
      ensures same: d_same_executions{Pre,Post}(node);
      ensures same: d_same_flags{Pre,Post}(node);
      ensures same: d_same_ranges{Pre,Post}(node); */
static void rule_out(cpg_node *node, uint32_t place, cpg_range range)
{
    if (place < CPG_VARIABLES) {
        cpg_range left = node->sure[place];
        if ((range.low <= left.low) && (range.high >= left.low) && (range.high < left.high)) {
            left.low = (uint8_t)(range.high + 1U);
        } else if ((range.high >= left.high) && (range.low <= left.high) && (range.low > left.low)) {
            left.high = (uint8_t)(range.low - 1U);
        } else {
            /* nothing can be ruled out by a range */
        }
        node->sure[place].low = left.low;
        node->sure[place].high = left.high;
    }
}

/* No frame of a column has come at its time. Answers whether one had to come, since all literals are sure to hold. Where all but
 * one are, that one can't hold. */
/*@ requires cpg_is_node(node);
    terminates \true;
    assigns node->sure[0 .. CPG_VARIABLES - 1];
    ensures cpg_is_node(node);
    behavior table:
      assumes d_holds(node);
      assumes t_is_column(column);
      ensures holds: d_holds(node);
      ensures same: d_same_executions{Pre,Post}(node);
      ensures same: d_same_flags{Pre,Post}(node);
      ensures same: d_same_ranges{Pre,Post}(node); */
static bool had_to_come(cpg_node *node, uint32_t column)
{
    uint32_t literals = byte_at(node, column + CUBE_AT);
    uint32_t open = 0U;
    uint32_t which = 0U;
    /*@ loop invariant 0 <= i <= literals && open <= i;
        for table: loop invariant which <= CPG_MAX_SIZE;
        loop assigns i, open, which;
        loop variant literals - i; */
    for (uint32_t i = 0U; i < literals; i++) {
        uint32_t literal = literal_at(column, i);
        uint32_t place = place_of(byte_at(node, literal));
        if ((place >= CPG_VARIABLES) || !is_within(node->sure[place], range_at(node, literal))) {
            open++;
            which = literal;
        }
    }
    if (open == 1U) {
        rule_out(node, place_of(byte_at(node, which)), range_at(node, which));
    }
    return open == 0U;
}

/* When an execution that started at `start` ends with so many faults. */
/*@ requires cpg_is_open(node);
    requires row < node->table->own;
    terminates \true;
    assigns \nothing;
    behavior table:
      assumes d_holds(node);
      assumes row < t_own && faults <= t_k && node->execution[row].start < 1152921504606846976;
      ensures \result == node->execution[row].start + d_time_of(row, faults); */
static uint64_t end_of(const cpg_node *node, uint16_t row, uint32_t faults)
{
    return node->execution[row].start + time_at(node, node->table->process[row].durations + (TIME_BYTES * faults));
}

/*@ requires cpg_is_node(node);
    requires row < node->table->own;
    terminates \true;
    assigns node->execution[0 .. CPG_MAX_OWN - 1];
    ensures cpg_is_node(node);
    behavior table:
      assumes d_holds(node) && d_is_kept(node);
      assumes row < t_own && now < 1152921504606846976;
      ensures holds: d_holds(node);
      ensures where: node->from == \old(node->from) && node->next == \old(node->next);
      ensures same: d_same_ranges{Pre,Post}(node);
      ensures same: d_same_flags{Pre,Post}(node);
      ensures d_are_timed(node);
      ensures d_is_started(node, row, now);
      ensures \forall integer r; 0 <= r < CPG_MAX_OWN && r != row ==> d_same_execution{Pre,Post}(node, r); */
static void start(cpg_node *node, uint16_t row, uint64_t now)
{
    //@ for table: assert own: node->table->process[row].durations == t_durations(row);
    //@ for table: assert k: node->table->k == t_k;
    //@ for table: assert place: t_durations(row) + 8 * t_k <= 4294967288;
    const uint64_t until = now + time_at(node, node->table->process[row].durations + (TIME_BYTES * node->table->k));
    //@ for table: assert until: until == now + d_time_of(row, t_k);
    node->execution[row].state = CPG_RUNNING;
    node->execution[row].start = now;
    node->execution[row].until = until;
    //@ for table: assert this: d_is_timed(node, row);
    //@ for table: assert same: \forall integer r; 0 <= r < CPG_MAX_OWN && r != row ==> d_same_execution{Pre,Here}(node, r);
    //@ for table: assert timed: \forall integer r; 0 <= r < t_own && r != row ==> d_is_timed(node, r);
}

/* Where the value stands that a frame of an item tells: CPG_VARIABLES where it tells none. */
/*@ requires cpg_is_open(node);
    terminates \true;
    assigns \nothing;
    ensures \result <= CPG_VARIABLES;
    behavior table:
      assumes d_holds(node);
      ensures \result == d_told_place(item); */
static uint32_t told_place(const cpg_node *node, uint16_t item)
{
    return (item >= node->table->broadcast) ? place_of_value((uint32_t)item - node->table->broadcast) : CPG_VARIABLES;
}

/* The value that a broadcast carries: that of a condition whose process has ended. */
/*@ requires cpg_is_open(node);
    terminates \true;
    assigns \nothing;
    behavior table:
      assumes d_holds(node);
      assumes item < t_broadcast + t_conditions;
      ensures \result == d_value_of(node, item); */
static uint8_t value_of(const cpg_node *node, uint16_t item)
{
    const uint32_t place = told_place(node, item);
    return (place < CPG_VARIABLES) ? node->heard[place].low : (uint8_t)0U;
}

/* A frame that should have come by now: the watch. Answers whether it had to. */
/*@ requires cpg_is_node(node);
    requires cpg_is_event(node, event);
    requires i < node->table->dues && node->table->due[i].row < node->table->rows;
    terminates \true;
    assigns node->sure[0 .. CPG_VARIABLES - 1], event->time, event->kind, event->item, event->column, event->value;
    ensures cpg_is_node(node);
    behavior table:
      assumes d_holds(node) && d_is_kept(node);
      assumes d_is_event(node, event);
      assumes i < t_dues && now == d_time(i) && t_row(i) >= t_acting;
      ensures holds: d_holds(node);
      ensures where: node->from == \old(node->from) && node->next == \old(node->next);
      ensures same: d_same_ranges{Pre,Post}(node);
      ensures same: d_same_flags{Pre,Post}(node);
      ensures same: d_same_executions{Pre,Post}(node);
      ensures \result ==> d_is_missing(node, i, now, event); */
static bool take_heard(cpg_node *node, uint32_t i, uint64_t now, cpg_event *event)
{
    uint16_t row = node->table->due[i].row;
    if (node->came[row] || !had_to_come(node, node->table->due[i].at)) {
        return false;
    }
    tell(node, event, CPG_MISSING, now, row, node->table->due[i].column, 0U);
    return true;
}

/* An act of a column that stands at this instant: a start or a send. */
/*@ requires cpg_is_node(node);
    requires cpg_is_event(node, event);
    requires i < node->table->dues && node->table->due[i].row < node->table->rows;
    terminates \true;
    assigns node->execution[0 .. CPG_MAX_OWN - 1], event->time, event->kind, event->item, event->column, event->value;
    ensures cpg_is_node(node);
    behavior table:
      assumes d_holds(node) && d_is_kept(node);
      assumes d_is_event(node, event);
      assumes i < t_dues && now == d_time(i) && t_row(i) < t_acting;
      ensures holds: d_holds(node);
      ensures where: node->from == \old(node->from) && node->next == \old(node->next);
      ensures same: d_same_ranges{Pre,Post}(node);
      ensures same: d_same_flags{Pre,Post}(node);
      ensures d_are_timed(node);
      ensures acts: \result ==> d_acts{Pre}(node, i);
      ensures acts: !\result ==> !d_acts{Pre}(node, i);
      ensures event: \result ==> d_is_act(node, i, now, event);
      ensures started: \result && t_row(i) < t_own ==> d_is_started(node, t_row(i), now);
      ensures others: \forall integer row; 0 <= row < CPG_MAX_OWN && !(\result && row == t_row(i)) ==>
          d_same_execution{Pre,Post}(node, row); */
static bool take_act(cpg_node *node, uint32_t i, uint64_t now, cpg_event *event)
{
    uint16_t row = node->table->due[i].row;
    //@ for table: assert row == t_row(i);
    //@ for table: assert t_is_column(t_at(i));
    //@ for table: assert rows: row < t_rows;
    //@ for table: assert now: now < 1152921504606846976;
    if (!follows(node, node->table->due[i].at)) {
        return false;
    }
    if (is_start(node, row)) {
        //@ for table: assert own: row < t_own;
        start(node, row, now);
        //@ for table: assert holds: d_holds(node);
        //@ for table: assert ranges: d_same_ranges{Pre,Here}(node);
        //@ for table: assert others: \forall integer r; 0 <= r < CPG_MAX_OWN && r != row ==> d_same_execution{Pre,Here}(node, r);
        //@ for table: assert begun: d_is_started(node, row, now);
        //@ ghost Started: ;
        tell(node, event, CPG_START, now, row, node->table->due[i].column, 0U);
        //@ for table: assert same: d_same_executions{Started,Here}(node);
        //@ for table: assert others: \forall integer r; 0 <= r < CPG_MAX_OWN && r != row ==> d_same_execution{Pre,Here}(node, r);
        //@ for table: assert ranges: d_same_ranges{Started,Here}(node);
        //@ for table: assert ranges: d_same_ranges{Pre,Here}(node);
        //@ for table: assert timed: d_are_timed(node);
        //@ for table: assert begun: d_same_execution{Started,Here}(node, row);
        //@ for table: assert started: d_is_started(node, row, now);
    } else {
        tell(node, event, CPG_SEND, now, row, node->table->due[i].column, value_of(node, node->table->item[row]));
    }
    return true;
}

/* What a column that stands at this instant leads to. Answers whether that is an event. */
/*@ requires cpg_is_node(node);
    requires cpg_is_event(node, event);
    requires i < node->table->dues;
    terminates \true;
    assigns node->sure[0 .. CPG_VARIABLES - 1], node->execution[0 .. CPG_MAX_OWN - 1], event->time, event->kind, event->item,
        event->column, event->value;
    ensures cpg_is_node(node);
    behavior table:
      assumes d_holds(node) && d_is_kept(node);
      assumes d_is_event(node, event);
      assumes i < t_dues && now == d_time(i);
      ensures holds: d_holds(node);
      ensures where: node->from == \old(node->from) && node->next == \old(node->next);
      ensures same: d_same_ranges{Pre,Post}(node);
      ensures same: d_same_flags{Pre,Post}(node);
      ensures d_are_timed(node);
      ensures t_row(i) < t_acting && \result ==> d_acts{Pre}(node, i);
      ensures t_row(i) < t_acting && !\result ==> !d_acts{Pre}(node, i);
      ensures \result && t_row(i) < t_acting ==> d_is_act(node, i, now, event);
      ensures \result && t_row(i) >= t_acting ==> d_is_missing(node, i, now, event);
      ensures \result && t_row(i) < t_own ==> d_is_started(node, t_row(i), now);
      ensures others: \forall integer row; 0 <= row < CPG_MAX_OWN && !(\result && row == t_row(i)) ==>
          d_same_execution{Pre,Post}(node, row); */
static bool take_due(cpg_node *node, uint32_t i, uint64_t now, cpg_event *event)
{
    uint16_t row = node->table->due[i].row;
    if (row >= node->table->rows) {
        return false;
    }
    return is_heard(node, row) ? take_heard(node, i, now, event) : take_act(node, i, now, event);
}

/* What a column leads to that has just been passed, in the turn of its instant. Answers whether that is an event. */
/*@ requires cpg_is_node(node);
    requires cpg_is_event(node, event);
    requires i < node->table->dues;
    terminates \true;
    assigns node->sure[0 .. CPG_VARIABLES - 1], node->execution[0 .. CPG_MAX_OWN - 1], event->time, event->kind, event->item,
        event->column, event->value;
    ensures cpg_is_node(node);
    behavior table:
      assumes d_holds(node) && d_is_told(node, now);
      assumes d_is_event(node, event);
      assumes node->next == i + 1 && d_time(i) == now;
      ensures holds: d_holds(node);
      ensures where: node->from == \old(node->from) && node->next == \old(node->next);
      ensures same: d_same_ranges{Pre,Post}(node);
      ensures same: d_same_flags{Pre,Post}(node);
      ensures told: d_is_told(node, now);
      ensures past: !\result ==> !d_acts(node, node->next - 1);
      ensures kind: \result ==> event->kind != CPG_OVERRUN;
      ensures act: \result ==> d_tells_last(node, now, event);
      ensures start: d_turn_start(node, now, \result ? 1 : 0, event);
      ensures others: d_dues_others{Pre,Post}(node, \result ? 1 : 0, event); */
static bool take_column(cpg_node *node, uint32_t i, uint64_t now, cpg_event *event)
{
    bool found;
    //@ for table: assert kept: d_is_kept(node);
    //@ for table: assert numbers: d_has_numbers(node);
    //@ for table: assert dues: i < t_dues;
    found = take_due(node, i, now, event);
    //@ for table: assert at: d_is_at(node, now + 1, i + 1);
    //@ for table: assert last: d_is_last(node, i);
    //@ for table: assert started: found && t_row(i) < t_own ==> d_is_started(node, t_row(i), now);
    //@ for table: assert kind: found && t_row(i) < t_own ==> event->kind == CPG_START;
    //@ for table: assert start: d_turn_start(node, now, found ? 1 : 0, event);
    /*@ for table: assert rows: \forall integer row; 0 <= row < CPG_MAX_OWN && !(found && row == t_row(i)) ==>
        d_same_execution{Pre,Here}(node, row); */
    /*@ for table: assert rows: \forall integer row; 0 <= row < t_own && !(found && event->kind == CPG_START && row == t_row(i)) ==>
        d_same_execution{Pre,Here}(node, row); */
    //@ for table: assert others: d_dues_others{Pre,Here}(node, found ? 1 : 0, event);
    /*@ for table: assert heard: \forall integer j; 0 <= j < d_literals(t_at(i)) ==>
        d_same_range{Pre,Here}(node, d_place(d_variable(d_literal(t_at(i), j)))); */
    //@ for table: assert heard: d_all_heard{Pre}(node, t_at(i)) ==> d_all_heard(node, t_at(i));
    //@ for table: assert heard: d_all_heard(node, t_at(i)) ==> d_all_heard{Pre}(node, t_at(i));
    //@ for table: assert acts: found && t_row(i) < t_acting ==> d_acts(node, i);
    //@ for table: assert act: found ==> d_tells_last(node, now, event);
    //@ for table: assert ranges: \forall integer p; 0 <= p < CPG_VARIABLES ==> d_same_range{Pre,Here}(node, p);
    //@ for table: assert numbers: \forall integer p; 0 <= p < CPG_VARIABLES ==> node->heard[p].low <= node->heard[p].high;
    //@ for table: assert numbers: \forall integer p; CPG_MAX_PROCESSES <= p < CPG_VARIABLES ==> node->heard[p].high <= 1;
    //@ for table: assert numbers: d_has_numbers(node);
    //@ for table: assert kept: d_is_kept(node);
    //@ for table: assert columns: \forall integer c; node->next <= c < t_dues ==> now <= d_time(c);
    //@ for table: assert this: found && t_row(i) < t_own ==> now <= node->execution[t_row(i)].until;
    /*@ for table: assert others: \forall integer row; 0 <= row < t_own && !(found && row == t_row(i)) && d_is_awaited(node, row) ==>
        now <= node->execution[row].until; */
    //@ for table: assert before: d_nothing_before(node, now);
    //@ for table: assert over: d_columns_over(node);
    //@ for table: assert ahead: d_reports_ahead(node);
    //@ for table: assert starts: d_starts_over(node);
    return found;
}

/* Takes the next column, which stands at this instant. Answers whether that is an event. */
/*@ requires cpg_is_node(node);
    requires cpg_is_event(node, event);
    requires node->next < node->table->dues;
    terminates \true;
    assigns node->next, node->sure[0 .. CPG_VARIABLES - 1], node->execution[0 .. CPG_MAX_OWN - 1], event->time, event->kind,
        event->item, event->column, event->value;
    ensures cpg_is_node(node);
    ensures node->next == \old(node->next) + 1;
    behavior table:
      assumes d_holds(node) && d_is_told(node, now);
      assumes d_is_event(node, event);
      assumes d_time(node->next) == now;
      ensures holds: d_holds(node);
      ensures same: d_same_ranges{Pre,Post}(node);
      ensures same: d_same_flags{Pre,Post}(node);
      ensures from: node->from == \old(node->from);
      ensures kept: d_is_kept(node);
      ensures before: d_nothing_before(node, now);
      ensures over: d_columns_over(node);
      ensures ahead: d_reports_ahead(node);
      ensures starts: d_starts_over(node);
      ensures past: !\result ==> !d_acts(node, node->next - 1);
      ensures kind: \result ==> event->kind != CPG_OVERRUN;
      ensures act: d_turn_act{Pre,Post}(node, now, \result ? 1 : 0, event);
      ensures start: d_turn_start(node, now, \result ? 1 : 0, event);
      ensures others: d_dues_others{Pre,Post}(node, \result ? 1 : 0, event); */
static bool take_next(cpg_node *node, uint64_t now, cpg_event *event)
{
    const uint32_t i = node->next;
    bool found;
    node->next = i + 1U;
    //@ for table: assert holds: d_holds(node);
    //@ for table: assert same: d_same_executions{Pre,Here}(node);
    //@ for table: assert kept: d_is_kept(node);
    //@ for table: assert before: d_nothing_before(node, now);
    //@ for table: assert over: d_columns_over(node);
    //@ for table: assert ahead: d_reports_ahead(node);
    //@ for table: assert starts: d_starts_over(node);
    //@ for table: assert told: d_is_told(node, now);
    //@ for table: assert next: node->next == i + 1;
    //@ for table: assert time: d_time(i) == now;
    //@ ghost Passed: ;
    found = take_column(node, i, now, event);
    //@ for table: assert at: d_is_at(node, now + 1, i + 1);
    //@ for table: assert act: d_turn_act{Pre,Here}(node, now, found ? 1 : 0, event);
    //@ for table: assert others: d_dues_others{Passed,Here}(node, found ? 1 : 0, event);
    //@ for table: assert others: d_dues_others{Pre,Here}(node, found ? 1 : 0, event);
    return found;
}

/* What the columns of an instant lead to, as far as the next event. */
/*@ requires cpg_is_node(node);
    requires cpg_is_event(node, event);
    terminates \true;
    assigns node->next, node->sure[0 .. CPG_VARIABLES - 1], node->execution[0 .. CPG_MAX_OWN - 1], event->time, event->kind,
        event->item, event->column, event->value;
    ensures cpg_is_node(node);
    behavior table:
      assumes d_holds(node) && d_is_told(node, now);
      assumes d_is_event(node, event);
      ensures holds: d_holds(node);
      ensures same: d_same_ranges{Pre,Post}(node);
      ensures same: d_same_flags{Pre,Post}(node);
      ensures from: node->from == \old(node->from);
      ensures told: d_is_told(node, now);
      ensures columns: d_turn_columns{Pre,Post}(node, now);
      ensures past: d_turn_past{Pre,Post}(node, \result ? 1 : 0);
      ensures kind: \result ==> event->kind != CPG_OVERRUN;
      ensures act: d_turn_act{Pre,Post}(node, now, \result ? 1 : 0, event);
      ensures done: !\result ==> d_nothing_at(node, now);
      ensures start: d_turn_start(node, now, \result ? 1 : 0, event);
      ensures others: d_dues_others{Pre,Post}(node, \result ? 1 : 0, event); */
static bool take_dues(cpg_node *node, uint64_t now, cpg_event *event)
{
    /*@ loop invariant cpg_is_node(node);
        for table: loop invariant holds: d_holds(node);
        for table: loop invariant same: d_same_ranges{Pre,Here}(node);
        for table: loop invariant same: d_same_flags{Pre,Here}(node);
        for table: loop invariant same: d_dues_others{Pre,Here}(node, 0, event);
        for table: loop invariant from: node->from == \at(node->from,Pre);
        for table: loop invariant told: d_is_told(node, now);
        for table: loop invariant columns: d_turn_columns{Pre,Here}(node, now);
        for table: loop invariant past: d_turn_past{Pre,Here}(node, 0);
        loop assigns node->next, node->sure[0 .. CPG_VARIABLES - 1], node->execution[0 .. CPG_MAX_OWN - 1], event->time,
            event->kind, event->item, event->column, event->value;
        loop variant node->table->dues - node->next; */
    while ((node->next < node->table->dues) && (due_time(node, node->next) <= now)) {
        //@ for table: assert now: d_time(node->next) == now;
        //@ for table: assert dues: d_dues{Pre,Here}(node, now, 0, event);
        //@ for table: assert from: node->from == now + 1 && now < 2305843009213693952;
        if (take_next(node, now, event)) {
            //@ for table: assert told: d_is_told(node, now);
            //@ for table: assert due: d_due{LoopCurrent,Here}(node, now, 1, event);
            //@ for table: assert dues: d_dues{Pre,Here}(node, now, 1, event);
            return true;
        }
        //@ for table: assert told: d_is_told(node, now);
        //@ for table: assert due: d_due{LoopCurrent,Here}(node, now, 0, event);
        //@ for table: assert dues: d_dues{Pre,Here}(node, now, 0, event);
    }
    //@ for table: assert done: d_nothing_at(node, now);
    return false;
}

/* What is left of the turn of an instant whose ends are told, as far as the next event. */
/*@ requires cpg_is_node(node);
    requires cpg_is_event(node, event);
    terminates \true;
    assigns node->next, node->sure[0 .. CPG_VARIABLES - 1], node->execution[0 .. CPG_MAX_OWN - 1], event->time, event->kind,
        event->item, event->column, event->value;
    ensures cpg_is_node(node);
    behavior table:
      assumes d_holds(node) && d_is_told(node, now);
      assumes d_is_event(node, event);
      ensures holds: d_holds(node);
      ensures same: d_same_ranges{Pre,Post}(node);
      ensures same: d_same_flags{Pre,Post}(node);
      ensures from: node->from == \old(node->from);
      ensures told: d_is_told(node, now);
      ensures columns: d_turn_columns{Pre,Post}(node, now);
      ensures past: d_turn_past{Pre,Post}(node, \result ? 1 : 0);
      ensures act: d_turn_act{Pre,Post}(node, now, \result ? 1 : 0, event);
      ensures overrun: d_turn_overrun{Pre,Post}(node, now, \result ? 1 : 0, event);
      ensures done: d_turn_over(node, now, \result ? 1 : 0);
      ensures start: d_turn_start(node, now, \result ? 1 : 0, event);
      ensures others: d_rest_others{Pre,Post}(node, \result ? 1 : 0, event); */
static bool take_rest(cpg_node *node, uint64_t now, cpg_event *event)
{
    const uint16_t row = find_overrun(node, now);
    bool found;
    if (row < node->table->own) {
        //@ for table: assert row: row < t_own;
        tell_overrun(node, row, now, event);
        return true;
    }
    //@ for table: assert none: row == t_own;
    found = take_dues(node, now, event);
    //@ for table: assert same: !found ==> (\forall integer r; 0 <= r < t_own ==> d_same_execution{Pre,Here}(node, r));
    /*@ for table: assert states: !found ==> (\forall integer r; 0 <= r < t_own ==>
        \at(node->execution[r].state,Pre) == node->execution[r].state); */
    /*@ for table: assert untils: !found ==> (\forall integer r; 0 <= r < t_own ==>
        \at(node->execution[r].until,Pre) == node->execution[r].until); */
    /*@ for table: assert running: !found ==> (\forall integer r; 0 <= r < t_own && d_overruns(node, r, now) ==>
        d_overruns{Pre}(node, r, now)); */
    //@ for table: assert none: !found ==> d_none_overruns(node, now);
    return found;
}

/* The turn of an instant, or what is left of it, as far as the next event. */
/*@ requires cpg_is_node(node);
    requires cpg_is_event(node, event);
    terminates \true;
    assigns node->next, node->heard[0 .. CPG_VARIABLES - 1], node->sure[0 .. CPG_VARIABLES - 1],
        node->execution[0 .. CPG_MAX_OWN - 1], event->time, event->kind, event->item, event->column, event->value;
    ensures cpg_is_node(node);
    behavior table:
      assumes d_holds(node) && d_is_turning(node, now);
      assumes d_is_event(node, event);
      ensures holds: d_holds(node);
      ensures same: d_same_flags{Pre,Post}(node);
      ensures from: node->from == \old(node->from);
      ensures told: d_is_told(node, now);
      ensures turn: d_turn{Pre,Post}(node, now, \result ? 1 : 0, event); */
static bool take_turn(cpg_node *node, uint64_t now, cpg_event *event)
{
    bool found;
    //@ for table: assert kept: d_is_kept(node);
    tell_ends(node, now);
    //@ for table: assert ends: d_ends{Pre,Here}(node, now);
    //@ for table: assert kept: d_is_kept(node);
    //@ for table: assert ahead: d_reports_ahead(node);
    //@ for table: assert before: d_nothing_before(node, now);
    //@ for table: assert over: d_columns_over(node);
    //@ for table: assert starts: d_starts_over(node);
    //@ for table: assert told: d_is_told(node, now);
    //@ ghost Told: ;
    found = take_rest(node, now, event);
    //@ for table: assert rest: d_rest{Told,Here}(node, now, found ? 1 : 0, event);
    //@ for table: assert turn: d_turn{Pre,Here}(node, now, found ? 1 : 0, event);
    return found;
}

/* The turn of the next instant. */
/*@ requires cpg_is_node(node);
    requires cpg_is_event(node, event);
    terminates \true;
    assigns node->from, node->next, node->heard[0 .. CPG_VARIABLES - 1], node->sure[0 .. CPG_VARIABLES - 1],
        node->execution[0 .. CPG_MAX_OWN - 1], event->time, event->kind, event->item, event->column, event->value;
    ensures cpg_is_node(node);
    behavior table:
      assumes d_holds(node) && d_is_sound(node);
      assumes d_is_event(node, event);
      assumes d_next_awaited(node, now) && now != CPG_NEVER;
      ensures holds: d_holds(node);
      ensures sound: d_is_sound(node);
      ensures same: d_same_flags{Pre,Post}(node);
      ensures from: node->from == now + 1;
      ensures turned: d_turn{Pre,Post}(node, now, \result ? 1 : 0, event);
      ensures time: \result ==> event->time == now;
      ensures over: !\result ==> d_nothing_before(node, now + 1); */
static bool take_instant(cpg_node *node, uint64_t now, cpg_event *event)
{
    bool found;
    //@ for table: assert now: now < 2305843009213693952;
    //@ for table: assert from: node->from - 1 <= now;
    node->from = now + 1U;
    //@ for table: assert holds: d_holds(node);
    //@ for table: assert same: d_same_executions{Pre,Here}(node);
    //@ for table: assert kept: d_is_kept(node);
    //@ for table: assert turning: d_is_turning(node, now);
    //@ for table: assert same: d_same{Pre,Here}(node);
    //@ ghost Turning: ;
    found = take_turn(node, now, event);
    //@ for table: assert turn: d_turn{Turning,Here}(node, now, found ? 1 : 0, event);
    //@ for table: assert turned: d_turn{Pre,Here}(node, now, found ? 1 : 0, event);
    /*@ for table: assert rows: \forall integer row; !found && 0 <= row < t_own && d_is_awaited(node, row) ==>
        now + 1 <= node->execution[row].until; */
    //@ for table: assert columns: \forall integer i; !found && node->next <= i < t_dues ==> now + 1 <= d_time(i);
    //@ for table: assert over: !found ==> d_nothing_before(node, now + 1);
    return found;
}

/*@ behavior table:
      assumes d_holds(node) && d_is_sound(node);
      assumes d_is_event(node, event);
      ensures holds: d_holds(node);
      ensures sound: d_is_sound(node);
      ensures same: d_same_flags{Pre,Post}(node);
      ensures found: \result ==> d_turned_to{Pre,Post}(node, event);
      ensures time: \result ==> event->time == node->from - 1 && event->time <= until;
      ensures quiet: !\result ==> d_turned{Pre,Post}(node, event);
      ensures waits: !\result ==> (\exists integer now; d_next_awaited(node, now) && (now == CPG_NEVER || until < now)); */
bool cpg_poll(cpg_node *node, uint64_t until, cpg_event *event)
{
    /* Time grows from turn to turn. With columns in their order that goes without saying. */
    uint64_t least = (node->from > 0U) ? (node->from - 1U) : 0U;
    uint64_t now = cpg_next(node);
    /*@ loop invariant cpg_is_node(node);
        for table: loop invariant holds: d_holds(node);
        for table: loop invariant sound: d_is_sound(node);
        for table: loop invariant same: d_same_flags{Pre,Here}(node);
        for table: loop invariant least: d_nothing_before(node, least);
        for table: loop invariant next: d_next_awaited(node, now);
        for table: loop invariant quiet: d_turned{Pre,Here}(node, event);
        loop assigns least, now, node->from, node->next, node->heard[0 .. CPG_VARIABLES - 1], node->sure[0 .. CPG_VARIABLES - 1],
            node->execution[0 .. CPG_MAX_OWN - 1], event->time, event->kind, event->item, event->column, event->value;
        loop variant CPG_NEVER - least; */
    while ((now >= least) && (now <= until) && (now < CPG_NEVER)) {
        if (take_instant(node, now, event)) {
            //@ for table: assert turn: d_next_turn{LoopCurrent,Here}(node, 1, event);
            return true;
        }
        //@ for table: assert turn: d_next_turn{LoopCurrent,Here}(node, 0, event);
        least = now + 1U;
        now = cpg_next(node);
    }
    //@ for table: assert least: now >= least;
    return false;
}

/* ---- Frames and ends ---- */

/* The place in the index of a column of an item that is heard at a time, of which all turns before are taken: `dues` where there
 * is none. */
/*@ requires cpg_is_node(node);
    terminates \true;
    assigns \nothing;
    ensures \result <= node->table->dues;
    ensures \result < node->table->dues ==> node->table->due[\result].row < node->table->rows;
    behavior table:
      assumes d_holds(node) && d_is_kept(node) && d_nothing_before(node, time);
      assumes \forall integer i; 0 <= i < node->next ==> d_time(i) < time;
      ensures \result <= t_dues;
      ensures \result < t_dues ==> d_arrives(node, \result, time, item, column);
      ensures \result == t_dues ==> (\forall integer i; !d_arrives(node, i, time, item, column)); */
static uint32_t find_heard(const cpg_node *node, uint64_t time, uint16_t item, uint16_t column)
{
    /*@ for table: loop invariant node->next <= i <= t_dues;
        for table: loop invariant \forall integer j; 0 <= j < i ==> !d_arrives(node, j, time, item, column);
        loop assigns i;
        loop variant node->table->dues - i; */
    for (uint32_t i = node->next; (i < node->table->dues) && (due_time(node, i) == time); i++) {
        cpg_due due = node->table->due[i];
        if ((due.row < node->table->rows) && is_heard(node, due.row) && (node->table->item[due.row] == item) && (due.column == column)) {
            return i;
        }
    }
    return node->table->dues;
}

/* Whether what a frame tells leaves some variable no number; `place` is that of the value that it tells. */
/*@ requires cpg_is_open(node);
    terminates \true;
    assigns \nothing;
    behavior table:
      assumes d_holds(node) && d_is_kept(node);
      assumes t_is_column(column) && place <= CPG_VARIABLES;
      ensures \result ==> d_is_contradicted(node, column, place, value);
      ensures !\result ==> !d_is_contradicted(node, column, place, value); */
static bool contradicts(const cpg_node *node, uint32_t column, uint32_t place, uint8_t value)
{
    cpg_range told = { value, value };
    uint32_t literals = byte_at(node, column + CUBE_AT);
    /*@ loop invariant 0 <= i <= literals;
        for table: loop invariant \forall integer j; 0 <= j < i ==> !d_excludes(node, d_literal(column, j), place, value);
        loop assigns i;
        loop variant literals - i; */
    for (uint32_t i = 0U; i < literals; i++) {
        uint32_t literal = literal_at(column, i);
        uint32_t other = place_of(byte_at(node, literal));
        cpg_range range = range_at(node, literal);
        if ((other >= CPG_VARIABLES) || is_empty(common(node->heard[other], range))) {
            return true;
        }
        if ((other == place) && is_empty(common(told, range))) {
            return true;
        }
    }
    return (place < CPG_VARIABLES) && is_empty(common(node->heard[place], told));
}

/*@ requires cpg_is_node(node);
    terminates \true;
    assigns node->heard[0 .. CPG_VARIABLES - 1], node->sure[0 .. CPG_VARIABLES - 1];
    ensures cpg_is_node(node);
    behavior table:
      assumes d_holds(node) && d_is_kept(node);
      assumes t_is_column(column) && !d_is_contradicted(node, column, CPG_VARIABLES, 0);
      ensures holds: d_holds(node);
      ensures same: d_same_executions{Pre,Post}(node);
      ensures same: d_same_flags{Pre,Post}(node);
      ensures d_has_numbers(node);
      ensures cut: d_cut_all{Pre,Post}(node, column); */
static void learn_column(cpg_node *node, uint32_t column)
{
    uint32_t literals = byte_at(node, column + CUBE_AT);
    /*@ loop invariant 0 <= i <= literals && cpg_is_node(node);
        for table: loop invariant holds: d_holds(node);
        for table: loop invariant same: d_same_executions{Pre,Here}(node);
        for table: loop invariant same: d_same_flags{Pre,Here}(node);
        for table: loop invariant t_is_column(column);
        for table: loop invariant d_has_numbers(node);
        for table: loop invariant d_cut_literals{Pre,Here}(node, column, i);
        for table: loop invariant d_cut_no_more{Pre,Here}(node, column, i);
        loop assigns i, node->heard[0 .. CPG_VARIABLES - 1], node->sure[0 .. CPG_VARIABLES - 1];
        loop variant literals - i; */
    for (uint32_t i = 0U; i < literals; i++) {
        uint32_t literal = literal_at(column, i);
        //@ for table: assert fresh: d_same_range{Pre,Here}(node, d_place(d_variable(d_literal(column, i))));
        learn(node, place_of(byte_at(node, literal)), range_at(node, literal));
    }
}

/* Hears a frame by a column of the index: its literals and, where it tells a value, that. */
/*@ requires cpg_is_node(node);
    requires i < node->table->dues && node->table->due[i].row < node->table->rows;
    terminates \true;
    assigns node->heard[0 .. CPG_VARIABLES - 1], node->sure[0 .. CPG_VARIABLES - 1], node->came[0 .. CPG_MAX_ROWS - 1];
    ensures cpg_is_node(node);
    behavior table:
      assumes d_holds(node) && d_is_kept(node);
      assumes CPG_MAX_PROCESSES <= place <= CPG_VARIABLES;
      assumes !d_is_contradicted(node, t_at(i), place, value);
      ensures holds: d_holds(node);
      ensures same: d_same_executions{Pre,Post}(node);
      ensures kept: d_is_kept(node);
      ensures hears: d_hear_frame{Pre,Post}(node, t_at(i), place, value); */
static void hear_due(cpg_node *node, uint32_t i, uint32_t place, uint8_t value)
{
    cpg_range told = { value, value };
    //@ for table: assert column: t_is_column(t_at(i));
    //@ for table: assert free: !d_is_contradicted(node, t_at(i), CPG_VARIABLES, 0);
    //@ for table: assert had: place < CPG_VARIABLES ==> node->heard[place].low <= value <= node->heard[place].high;
    /*@ for table: assert had: \forall integer j; 0 <= j < d_literals(t_at(i)) && d_place(d_variable(d_literal(t_at(i), j))) == place ==>
        d_low(d_literal(t_at(i), j)) <= value <= d_high(d_literal(t_at(i), j)); */
    learn_column(node, node->table->due[i].at);
    //@ for table: assert cuts: d_cut_all{Pre,Here}(node, t_at(i));
    //@ for table: assert has: place < CPG_VARIABLES ==> node->heard[place].low <= value <= node->heard[place].high;
    //@ for table: assert small: place < CPG_VARIABLES ==> value <= 1;
    //@ for table: assert same: d_same_executions{Pre,Here}(node);
    //@ for table: assert numbers: d_has_numbers(node);
    //@ ghost Cut: ;
    learn(node, place, told);
    //@ for table: assert rest: \forall integer p; 0 <= p < CPG_VARIABLES && p != place ==> d_same_range{Cut,Here}(node, p);
    //@ for table: assert same: d_same_executions{Cut,Here}(node);
    //@ for table: assert same: d_same_executions{Pre,Here}(node);
    //@ for table: assert told: place < CPG_VARIABLES ==> d_know(node, place, value);
    //@ for table: assert cut: \forall integer p; 0 <= p < CPG_VARIABLES ==> \at(node->heard[p].low,Cut) <= \at(node->heard[p].high,Cut);
    //@ for table: assert numbers: \forall integer p; 0 <= p < CPG_VARIABLES && p != place ==> node->heard[p].low <= node->heard[p].high;
    //@ for table: assert numbers: \forall integer p; CPG_MAX_PROCESSES <= p < CPG_VARIABLES && p != place ==> node->heard[p].high <= 1;
    //@ for table: assert numbers: \forall integer p; 0 <= p < CPG_VARIABLES ==> node->heard[p].low <= node->heard[p].high;
    //@ for table: assert numbers: \forall integer p; CPG_MAX_PROCESSES <= p < CPG_VARIABLES ==> node->heard[p].high <= 1;
    //@ for table: assert numbers: d_has_numbers(node);
    //@ for table: assert hears: d_hear_frame{Pre,Here}(node, t_at(i), place, value);
    //@ for table: assert timed: d_are_timed(node);
    //@ ghost Learnt: ;
    node->came[node->table->due[i].row] = true;
    //@ for table: assert same: d_same_ranges{Learnt,Here}(node);
    //@ for table: assert same: d_same_executions{Pre,Here}(node);
}

/*@ behavior table:
      assumes d_holds(node) && d_is_sound(node);
      ensures holds: d_holds(node);
      ensures same: d_same_executions{Pre,Post}(node);
      ensures sound: d_is_sound(node);
      ensures order: \result == CPG_ORDER ==> time < \old(node->from) || !d_nothing_before{Pre}(node, time);
      ensures order: \result != CPG_ORDER ==> time >= \old(node->from) && d_nothing_before{Pre}(node, time);
      ensures frame: \result == CPG_FRAME ==> d_is_strange{Pre}(node, time, item, column, value);
      ensures taken: \result == CPG_OK ==> (\exists integer i; d_arrives{Pre}(node, i, time, item, column)
          && !d_is_contradicted{Pre}(node, t_at(i), d_told_place(item), value)
          && d_hear_frame{Pre,Post}(node, t_at(i), d_told_place(item), value));
      ensures refused: \result != CPG_OK ==> d_same_ranges{Pre,Post}(node);
      ensures refused: \result != CPG_OK ==> d_same_flags{Pre,Post}(node);
      ensures \result == CPG_OK || \result == CPG_FRAME || \result == CPG_ORDER; */
cpg_status cpg_hear(cpg_node *node, uint64_t time, uint16_t item, uint16_t column, uint8_t value)
{
    const uint32_t place = told_place(node, item);
    uint32_t i;
    if ((time < node->from) || (cpg_next(node) < time)) {
        return CPG_ORDER;
    }
    //@ for table: assert nothing: d_nothing_before(node, time);
    i = find_heard(node, time, item, column);
    //@ for table: assert column: i < t_dues ==> t_is_column(node->table->due[i].at) && node->table->due[i].at == t_at(i);
    //@ for table: assert place: CPG_MAX_PROCESSES <= place <= CPG_VARIABLES && place == d_told_place(item);
    //@ for table: assert only: \forall integer l; i < t_dues && d_arrives(node, l, time, item, column) ==> l == i;
    if ((i >= node->table->dues) || contradicts(node, node->table->due[i].at, place, value)) {
        return CPG_FRAME;
    }
    //@ for table: assert free: !d_is_contradicted(node, t_at(i), place, value);
    hear_due(node, i, place, value);
    //@ for table: assert holds: d_holds(node);
    //@ for table: assert same: d_same_executions{Pre,Here}(node);
    //@ for table: assert hears: d_hear_frame{Pre,Here}(node, t_at(i), place, value);
    //@ for table: assert before: d_nothing_before(node, node->from - 1);
    //@ for table: assert over: d_columns_over(node);
    //@ for table: assert ahead: d_reports_ahead(node);
    //@ for table: assert starts: d_starts_over(node);
    return CPG_OK;
}

/* The row of the start of a process of the node: `own` where it doesn't run here. */
/*@ requires cpg_is_open(node);
    terminates \true;
    assigns \nothing;
    ensures \result <= node->table->own;
    behavior table:
      assumes d_holds(node) && d_is_kept(node);
      ensures \result <= t_own;
      ensures \result < t_own ==> t_item(\result) == process;
      ensures \result == t_own ==> (\forall integer row; 0 <= row < t_own ==> t_item(row) != process); */
static uint16_t find_own(const cpg_node *node, uint16_t process)
{
    /*@ loop invariant 0 <= row <= node->table->own;
        for table: loop invariant \forall integer r; 0 <= r < row ==> node->table->item[r] != process;
        loop assigns row;
        loop variant node->table->own - row; */
    for (uint16_t row = 0U; row < node->table->own; row++) {
        if (node->table->item[row] == process) {
            return row;
        }
    }
    return node->table->own;
}

/* Whether the execution of a process runs, and may tell this of its end. */
/*@ requires cpg_is_open(node);
    requires row < node->table->own;
    terminates \true;
    assigns \nothing;
    behavior table:
      assumes d_holds(node) && d_is_kept(node) && row < t_own;
      ensures \result <==> d_runs_unreported(node, row) && d_may_tell(node, row, faults, value); */
static bool may_tell(const cpg_node *node, uint16_t row, uint16_t faults, uint8_t value)
{
    bool runs = (node->execution[row].state == CPG_RUNNING) || (node->execution[row].state == CPG_OVERRUNNING);
    bool lawful = (value == 0U) || ((value == 1U) && (node->table->process[row].condition != CPG_NONE));
    return runs && lawful && (faults <= node->table->k);
}

/*@ behavior table:
      assumes d_holds(node) && d_is_sound(node);
      ensures holds: d_holds(node);
      ensures sound: d_is_sound(node);
      ensures taken: \result == CPG_OK ==> (\exists integer row; 0 <= row < t_own && t_item(row) == process
          && d_may_end{Pre}(node, row, time, faults, value) && \old(node->from) <= node->execution[row].until
          && d_finished{Pre,Post}(node, row, faults, value));
      ensures end: \result == CPG_END ==> (\forall integer row; 0 <= row < t_own && t_item(row) == process ==>
          !d_may_end{Pre}(node, row, time, faults, value));
      ensures order: \result == CPG_ORDER ==> (\exists integer row; 0 <= row < t_own && t_item(row) == process
          && d_may_end{Pre}(node, row, time, faults, value)
          && \old(node->execution[row].start) + d_time_of(row, faults) < \old(node->from));
      ensures refused: \result != CPG_OK ==> (\forall integer row; 0 <= row < t_own ==> d_same_execution{Pre,Post}(node, row));
      ensures \result == CPG_OK || \result == CPG_END || \result == CPG_ORDER; */
cpg_status cpg_ended(cpg_node *node, uint64_t time, uint16_t process, uint16_t faults, uint8_t value)
{
    uint16_t row = find_own(node, process);
    cpg_execution *execution;
    uint64_t end;
    if ((row >= node->table->own) || !may_tell(node, row, faults, value)) {
        return CPG_END;
    }
    execution = &node->execution[row];
    end = end_of(node, row, faults);
    if ((time <= execution->start) || (time > end)) {
        return CPG_END;
    }
    if (end < node->from) {
        return CPG_ORDER;
    }
    execution->until = end;
    execution->faults = (uint8_t)faults;
    execution->value = value;
    execution->state = CPG_NOTED;
    //@ for table: assert this: d_is_timed(node, row);
    //@ for table: assert others: \forall integer r; 0 <= r < CPG_MAX_OWN && r != row ==> d_same_execution{Pre,Here}(node, r);
    //@ for table: assert timed: d_are_timed(node);
    //@ for table: assert numbers: d_has_numbers(node);
    //@ for table: assert flags: d_are_flags(node);
    //@ for table: assert sizes: d_has_sizes(node->table);
    //@ for table: assert bytes: d_has_bytes(node->table);
    //@ for table: assert own: d_has_own(node->table);
    //@ for table: assert dues: \forall integer i; 0 <= i < t_dues ==> node->table->due[i].at == t_at(i);
    //@ for table: assert dues: \forall integer i; 0 <= i < t_dues ==> node->table->due[i].row == t_row(i);
    //@ for table: assert dues: \forall integer i; 0 <= i < t_dues ==> node->table->due[i].column == t_column(i);
    //@ for table: assert dues: d_has_dues(node->table);
    //@ for table: assert holds: d_holds(node);
    //@ for table: assert kept: d_is_kept(node);
    //@ for table: assert before: d_nothing_before(node, node->from - 1);
    //@ for table: assert over: d_columns_over(node);
    //@ for table: assert ahead: d_reports_ahead(node);
    //@ for table: assert starts: d_starts_over(node);
    return CPG_OK;
}
