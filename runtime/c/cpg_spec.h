/* What a node does, in ACSL: for tools/prove-runtime alone. Each definition stands under the name of the one that it mirrors: D. is
 * crates/cpg_node/specs/Dispatcher.antt, S. State.antt, Q. Quiet.antt and I. Sound.antt beside it, T. crates/cpg_table/specs/Table.antt,
 * L. Lawful.antt beside it, F. crates/cpg_live/specs/Stream.antt. README.md has them side by side.
 *
 * The table is a value without memory, as OwnTable is: all that is called t_ are any numbers that obey the axioms (L. IsTable), and
 * d_is_table says that a cpg_table holds them. So what a call writes leaves the table alone by itself. */
#ifndef CPG_SPEC_H
#define CPG_SPEC_H
#include "cpg_node.h"

/*@ axiomatic Table {
      // the bytes in which columns and durations stand
      logic integer t_size;
      logic integer t_byte(integer at);
      axiom bytes: \forall integer at; 0 <= t_byte(at) <= 255;
      axiom no_byte: \forall integer at; t_size <= at ==> t_byte(at) == 0;
      // byteorder specs/Endian big_number 8
      logic integer d_big_number(integer at);
      logic integer d_word(integer at) = t_byte(at) * 16777216 + t_byte(at + 1) * 65536 + t_byte(at + 2) * 256 + t_byte(at + 3);
      axiom big_number: \forall integer at; d_big_number(at) == d_word(at) * 4294967296 + d_word(at + 4);

      // of a column at a place (T. Column, a time and a cube) the count of its literals, and the place of a literal
      logic integer d_literals(integer at) = t_byte(at + 8);
      logic integer d_literal(integer at, integer j) = at + 9 + 3 * j;
      // of a literal at a place (cpg_cube Literal)
      logic integer d_variable(integer l) = t_byte(l);
      logic integer d_low(integer l) = t_byte(l + 1);
      logic integer d_high(integer l) = t_byte(l + 2);
      // where variables of D. stand in `heard`: counts by process, then values; value_variable c is 128 + c
      logic integer d_place(integer v) = (v >= 128) ? CPG_MAX_PROCESSES + (v - 128) : v;
      logic integer d_value_place(integer c) = CPG_MAX_PROCESSES + c;

      // T. NodeTable: rows below t_own are starts, from there to t_acting sends, then hears; all columns stand in an index
      logic integer t_k;                        // faults
      logic integer t_processes;
      logic integer t_conditions;
      logic integer t_broadcast;                // first_broadcast
      logic integer t_own;
      logic integer t_acting;
      logic integer t_rows;
      logic integer t_dues;
      logic integer t_item(integer row);        // Row.item, and Own.process where the row is a start
      logic integer t_durations(integer row);   // Own.times, at a place
      logic integer t_condition(integer row);   // Own.condition, 255 for None
      logic integer t_at(integer i);            // a column of the index: its place,
      logic integer t_row(integer i);           // its row,
      logic integer t_column(integer i);        // and its number there
      // Column.time, and S. time_of
      logic integer d_time(integer i) = d_big_number(t_at(i));
      logic integer d_time_of(integer row, integer faults) = d_big_number(t_durations(row) + 8 * faults);

      // L. IsTable: lengths
      axiom sizes: 0 <= t_size <= CPG_MAX_SIZE && 0 <= t_k <= 8 && 0 <= t_processes <= CPG_MAX_PROCESSES
        && 0 <= t_conditions <= CPG_MAX_CONDITIONS && t_processes <= t_broadcast <= 384 && 0 <= t_own <= CPG_MAX_OWN
        && t_own <= t_acting <= t_rows <= CPG_MAX_ROWS && 0 <= t_dues <= 524288;
      // starts: items, conditions, and times below 2 ^ 60
      axiom own: \forall integer row; 0 <= row < t_own ==> 0 <= t_item(row) < t_processes
        && (t_condition(row) == 255 || 0 <= t_condition(row) < t_conditions)
        && 0 <= t_durations(row) && t_durations(row) + 8 * (t_k + 1) <= t_size;
      axiom times: \forall integer row, f; 0 <= row < t_own && 0 <= f <= t_k ==> 0 <= d_time_of(row, f) < 1152921504606846976;
      axiom own_differ: \forall integer row, other; 0 <= row < other < t_own ==> t_item(row) != t_item(other)
        && (t_condition(row) == 255 || t_condition(row) != t_condition(other));
      // sends and hears: items, of which those that are heard differ
      axiom others: \forall integer row; t_own <= row < t_rows ==> t_processes <= t_item(row) < t_broadcast + t_conditions;
      axiom hears_differ: \forall integer row, other; t_acting <= row < other < t_rows ==> t_item(row) != t_item(other);
      // L. IsLawfulColumn, IsLawfulLiteral
      predicate t_is_column(integer at) = \exists integer i; 0 <= i < t_dues && at == t_at(i);
      axiom columns: \forall integer i; 0 <= i < t_dues ==> 0 <= t_row(i) < t_rows && 0 <= t_column(i) <= 65535
        && 0 <= t_at(i) && d_literal(t_at(i), d_literals(t_at(i))) <= t_size && 0 <= d_time(i) < 1152921504606846976;
      axiom literals: \forall integer i, j; 0 <= i < t_dues && 0 <= j < d_literals(t_at(i)) ==>
        (0 <= d_variable(d_literal(t_at(i), j)) < t_processes
         || 128 <= d_variable(d_literal(t_at(i), j)) < 128 + t_conditions)
        && d_low(d_literal(t_at(i), j)) <= d_high(d_literal(t_at(i), j));
      axiom rising: \forall integer i, j, l; 0 <= i < t_dues && 0 <= j < l < d_literals(t_at(i)) ==>
        d_variable(d_literal(t_at(i), j)) < d_variable(d_literal(t_at(i), l));

      // The index is in the order of D. acts_at at each instant: what is heard, then sends ++ starts, each by row and column
      logic integer t_rank(integer row) = (row >= t_acting) ? 0 : (row < t_own) ? 2 : 1;
      axiom by_time: \forall integer i, l; 0 <= i < l < t_dues ==> d_time(i) <= d_time(l);
      axiom by_rank: \forall integer i, l; 0 <= i < l < t_dues && d_time(i) == d_time(l) ==> t_rank(t_row(i)) <= t_rank(t_row(l));
      axiom by_row: \forall integer i, l; 0 <= i < l < t_dues && d_time(i) == d_time(l) && t_rank(t_row(i)) == t_rank(t_row(l)) ==>
        t_row(i) < t_row(l) || (t_row(i) == t_row(l) && t_column(i) < t_column(l));
    }

    // ---- A node holds the table ----

    predicate d_is_apart{L}(cpg_node *n, cpg_table *t) =
        \separated(n, t) && \separated(n, t->pack + (0 .. t_size - 1)) && \separated(n, t->item + (0 .. t_rows - 1))
        && \separated(n, t->process + (0 .. t_own - 1)) && \separated(n, t->due + (0 .. t_dues - 1));
    predicate d_has_sizes{L}(cpg_table *t) =
        t->size == t_size && t->k == t_k && t->processes == t_processes && t->conditions == t_conditions
        && t->broadcast == t_broadcast && t->own == t_own && t->acting == t_acting && t->rows == t_rows && t->dues == t_dues;
    predicate d_has_bytes{L}(cpg_table *t) = \forall integer at; 0 <= at < t_size ==> t->pack[at] == t_byte(at);
    predicate d_has_items{L}(cpg_table *t) = \forall integer row; 0 <= row < t_rows ==> t->item[row] == t_item(row);
    predicate d_has_own{L}(cpg_table *t) = \forall integer row; 0 <= row < t_own ==>
        t->process[row].durations == t_durations(row) && t->process[row].condition == t_condition(row);
    predicate d_has_dues{L}(cpg_table *t) = \forall integer i; 0 <= i < t_dues ==>
        t->due[i].at == t_at(i) && t->due[i].row == t_row(i) && t->due[i].column == t_column(i);
    predicate d_is_table{L}(cpg_node *n, cpg_table *t) =
        d_is_apart(n, t) && d_has_sizes(t) && d_has_bytes(t) && d_has_items(t) && d_has_own(t) && d_has_dues(t);
    predicate d_holds{L}(cpg_node *n) = d_is_table(n, n->table);
    predicate d_is_event{L}(cpg_node *n, cpg_event *e) =
        \separated(n, e) && \separated(e, n->table) && \separated(e, n->table->pack + (0 .. t_size - 1))
        && \separated(e, n->table->item + (0 .. t_rows - 1)) && \separated(e, n->table->process + (0 .. t_own - 1))
        && \separated(e, n->table->due + (0 .. t_dues - 1));

    // ---- What runs: S. running_of is Some of no report, Some of a report, or None ----

    predicate d_runs_unreported{L}(cpg_node *n, integer row) =
        n->execution[row].state == CPG_RUNNING || n->execution[row].state == CPG_OVERRUNNING;
    predicate d_has_reported{L}(cpg_node *n, integer row) = n->execution[row].state == CPG_NOTED;
    // Q. awaited_end, but for an end that the watch has told already
    predicate d_is_awaited{L}(cpg_node *n, integer row) =
        n->execution[row].state == CPG_RUNNING || n->execution[row].state == CPG_NOTED;
    // D. due_report: the planned end of a report is now; `until` is that end by d_is_timed
    predicate d_due_report{L}(cpg_node *n, integer row, integer now) = d_has_reported(n, row) && n->execution[row].until <= now;

    // ---- What has been heard: D. range_of is heard[d_place(v)] ----

    predicate d_has_heard{L}(cpg_node *n, integer l) =
        d_low(l) <= n->heard[d_place(d_variable(l))].low && n->heard[d_place(d_variable(l))].high <= d_high(l);
    // D. list_all (has_heard heard) c.cube
    predicate d_all_heard{L}(cpg_node *n, integer at) =
        \forall integer j; 0 <= j < d_literals(at) ==> d_has_heard(n, d_literal(at, j));

    // ---- The state of a node: I. IsSound ----

    // no range is empty (D. is_contradicted), and a value is 0 or 1
    predicate d_has_numbers{L}(cpg_node *n) =
        (\forall integer p; 0 <= p < CPG_VARIABLES ==> n->heard[p].low <= n->heard[p].high)
        && (\forall integer p; CPG_MAX_PROCESSES <= p < CPG_VARIABLES ==> n->heard[p].high <= 1);
    // S. IsTimed, AreTimed, and what `until` is
    predicate d_is_timed{L}(cpg_node *n, integer row) =
        (d_is_awaited(n, row) || d_runs_unreported(n, row) ==> n->execution[row].start < 1152921504606846976)
        && (d_runs_unreported(n, row) ==> n->execution[row].until == n->execution[row].start + d_time_of(row, t_k))
        && (d_has_reported(n, row) ==>
                n->execution[row].faults <= t_k && n->execution[row].value <= 1
                && n->execution[row].until == n->execution[row].start + d_time_of(row, n->execution[row].faults));
    predicate d_are_timed{L}(cpg_node *n) = \forall integer row; 0 <= row < t_own ==> d_is_timed(n, row);
    predicate d_are_flags{L}(cpg_node *n) = \forall integer i; 0 <= i < t_rows ==> n->came[i] == 0 || n->came[i] == 1;
    // within calls too
    predicate d_is_kept{L}(cpg_node *n) = n->next <= t_dues && d_has_numbers(n) && d_are_timed(n) && d_are_flags(n);

    // nothing is left that had to be done before an instant
    predicate d_nothing_before{L}(cpg_node *n, integer now) =
        (\forall integer i; n->next <= i < t_dues ==> now <= d_time(i))
        && (\forall integer row; 0 <= row < t_own && d_is_awaited(n, row) ==> now <= n->execution[row].until);
    // Q. next_awaited, CPG_NEVER for None: the least of what is left
    predicate d_next_awaited{L}(cpg_node *n, integer now) =
        d_nothing_before(n, now)
        && (now == CPG_NEVER || (n->next < t_dues && now == d_time(n->next))
            || (\exists integer row; 0 <= row < t_own && d_is_awaited(n, row) && n->execution[row].until == now));

    // `from` is the instant after D. last, 0 for None; I. entries is IsLine of what is before `next` and what is not
    predicate d_columns_over{L}(cpg_node *n) = \forall integer i; 0 <= i < n->next ==> d_time(i) < n->from;
    predicate d_reports_ahead{L}(cpg_node *n) =
        \forall integer row; 0 <= row < t_own && d_has_reported(n, row) ==> n->from <= n->execution[row].until;
    predicate d_starts_over{L}(cpg_node *n) =
        \forall integer row; 0 <= row < t_own && (d_is_awaited(n, row) || d_runs_unreported(n, row)) ==>
            n->execution[row].start < n->from;
    predicate d_is_sound{L}(cpg_node *n) =
        d_is_kept(n) && n->from <= 2305843009213693952 && d_nothing_before(n, n->from - 1)
        && d_columns_over(n) && d_reports_ahead(n) && d_starts_over(n);
    // the turn of an instant is under way: its ends are still to be told,
    predicate d_is_turning{L}(cpg_node *n, integer now) =
        d_is_kept(n) && n->from == now + 1 && now < 2305843009213693952 && d_nothing_before(n, now)
        && d_columns_over(n) && d_starts_over(n);
    // and they are told
    predicate d_is_told{L}(cpg_node *n, integer now) = d_is_turning(n, now) && d_reports_ahead(n);

    // D. initial_dispatcher, whole_range
    predicate d_whole_range{L}(cpg_node *n, integer p) =
        n->heard[p].low == 0 && n->heard[p].high == (p < CPG_MAX_PROCESSES ? t_k : 1);
    predicate d_is_at{L}(cpg_node *n, integer from, integer next) = n->from == from && n->next == next;
    predicate d_opening{L}(cpg_node *n) =
        d_is_at(n, 0, 0) && (\forall integer p; 0 <= p < CPG_VARIABLES ==> d_whole_range(n, p))
        && (\forall integer row; 0 <= row < t_own ==> n->execution[row].state == CPG_IDLE);

    // ---- What a call leaves as it was, between two states ----

    predicate d_same_report{L1,L2}(cpg_node *n, integer row) =
        \at(n->execution[row].start,L1) == \at(n->execution[row].start,L2)
        && \at(n->execution[row].until,L1) == \at(n->execution[row].until,L2)
        && \at(n->execution[row].faults,L1) == \at(n->execution[row].faults,L2)
        && \at(n->execution[row].value,L1) == \at(n->execution[row].value,L2);
    predicate d_same_execution{L1,L2}(cpg_node *n, integer row) =
        d_same_report{L1,L2}(n, row) && \at(n->execution[row].state,L1) == \at(n->execution[row].state,L2);
    predicate d_same_range{L1,L2}(cpg_node *n, integer p) =
        \at(n->heard[p].low,L1) == \at(n->heard[p].low,L2) && \at(n->heard[p].high,L1) == \at(n->heard[p].high,L2);
    predicate d_same_executions{L1,L2}(cpg_node *n) =
        \forall integer row; 0 <= row < CPG_MAX_OWN ==> d_same_execution{L1,L2}(n, row);
    predicate d_same_ranges{L1,L2}(cpg_node *n) = \forall integer p; 0 <= p < CPG_VARIABLES ==> d_same_range{L1,L2}(n, p);
    predicate d_same_flags{L1,L2}(cpg_node *n) =
        \forall integer i; 0 <= i < CPG_MAX_ROWS ==> \at(n->came[i],L1) == \at(n->came[i],L2);

    // ---- A turn: D. turn d now [] [] ----

    // D. know
    predicate d_know{L}(cpg_node *n, integer p, integer number) = n->heard[p].low == number && n->heard[p].high == number;
    // D. hear_end of each due report below a row: its faults, the value of its condition, and all else is as it was
    predicate d_hear_faults{L1,L2}(cpg_node *n, integer now, integer rows) =
        \forall integer row; 0 <= row < rows && d_due_report{L1}(n, row, now) ==>
            d_know{L2}(n, t_item(row), \at(n->execution[row].faults,L1));
    predicate d_hear_values{L1,L2}(cpg_node *n, integer now, integer rows) =
        \forall integer row; 0 <= row < rows && d_due_report{L1}(n, row, now) && t_condition(row) != 255 ==>
            d_know{L2}(n, d_value_place(t_condition(row)), \at(n->execution[row].value,L1));
    predicate d_hear_no_more{L1,L2}(cpg_node *n, integer now, integer rows) =
        \forall integer p; 0 <= p < CPG_VARIABLES
            && (\forall integer row; 0 <= row < rows && d_due_report{L1}(n, row, now) ==>
                    p != t_item(row) && (t_condition(row) == 255 || p != d_value_place(t_condition(row))))
            ==> d_same_range{L1,L2}(n, p);
    predicate d_heard_after{L1,L2}(cpg_node *n, integer now) =
        d_hear_faults{L1,L2}(n, now, t_own) && d_hear_values{L1,L2}(n, now, t_own) && d_hear_no_more{L1,L2}(n, now, t_own);
    // D. running_after of the due reports below a row, where nothing is started
    predicate d_end_reports{L1,L2}(cpg_node *n) = \forall integer row; 0 <= row < CPG_MAX_OWN ==> d_same_report{L1,L2}(n, row);
    predicate d_end_due{L1,L2}(cpg_node *n, integer now, integer rows) =
        \forall integer row; 0 <= row < rows && d_due_report{L1}(n, row, now) ==> \at(n->execution[row].state,L2) == CPG_ENDED;
    predicate d_end_no_more{L1,L2}(cpg_node *n, integer now, integer rows) =
        \forall integer row; 0 <= row < CPG_MAX_OWN && (rows <= row || !d_due_report{L1}(n, row, now)) ==>
            \at(n->execution[row].state,L1) == \at(n->execution[row].state,L2);

    // a column of the index is one by which the node acts, by what it has heard (D. acts_of_columns)
    predicate d_acts{L}(cpg_node *n, integer i) = t_row(i) < t_acting && d_all_heard(n, t_at(i));
    // the value that a broadcast carries
    logic integer d_value_of{L}(cpg_node *n, integer item) =
        (item >= t_broadcast) ? (integer) n->heard[d_value_place(item - t_broadcast)].low : 0;
    // the event is the act of a column of the index (D. Act)
    predicate d_is_act{L}(cpg_node *n, integer i, integer now, cpg_event *e) =
        e->time == now && e->item == t_item(t_row(i)) && e->column == t_column(i)
        && (t_row(i) < t_own ? e->kind == CPG_START && e->value == 0
                             : e->kind == CPG_SEND && e->value == d_value_of(n, t_item(t_row(i))));
    // the watch has no counterpart: which columns are missing isn't said
    predicate d_is_missing{L}(cpg_node *n, integer i, integer now, cpg_event *e) =
        e->time == now && e->item == t_item(t_row(i)) && e->column == t_column(i) && e->kind == CPG_MISSING && e->value == 0;
    // D. running_after of a start
    predicate d_is_started{L}(cpg_node *n, integer row, integer now) =
        n->execution[row].state == CPG_RUNNING && n->execution[row].start == now
        && n->execution[row].until == now + d_time_of(row, t_k);
    predicate d_overruns{L}(cpg_node *n, integer row, integer now) =
        n->execution[row].state == CPG_RUNNING && n->execution[row].until <= now;
    predicate d_none_overruns{L}(cpg_node *n, integer now) =
        \forall integer row; 0 <= row < t_own ==> !d_overruns(n, row, now);
    predicate d_same_overruns{L1,L2}(cpg_node *n, integer now) =
        \forall integer row; 0 <= row < t_own ==> (d_overruns{L1}(n, row, now) <==> d_overruns{L2}(n, row, now));
    predicate d_nothing_at{L}(cpg_node *n, integer now) = \forall integer i; n->next <= i < t_dues ==> now < d_time(i);

    // the last column that was passed is this one of the index
    predicate d_is_last{L}(cpg_node *n, integer i) =
        t_row(n->next - 1) == t_row(i) && t_column(n->next - 1) == t_column(i) && t_at(n->next - 1) == t_at(i);

    // A call takes a turn as far as an event: where `found` is 1 there is one, and the rest of the turn is that of the next call.
    // The columns that it passed are those of its instant, and none is one of an act, but for the last one where there is an event.
    predicate d_turn_columns{L1,L2}(cpg_node *n, integer now) =
        \at(n->next,L1) <= \at(n->next,L2) && (\forall integer i; \at(n->next,L1) <= i < \at(n->next,L2) ==> d_time(i) <= now);
    predicate d_turn_past{L1,L2}(cpg_node *n, integer found) =
        \forall integer i; \at(n->next,L1) <= i < \at(n->next,L2) - found ==> !d_acts{L2}(n, i);
    // the event: that of the last column that was passed, or an overrun
    predicate d_tells_last{L}(cpg_node *n, integer now, cpg_event *e) =
        t_row(n->next - 1) < t_acting ? d_acts(n, n->next - 1) && d_is_act(n, n->next - 1, now, e)
                                      : d_is_missing(n, n->next - 1, now, e);
    predicate d_turn_act{L1,L2}(cpg_node *n, integer now, integer found, cpg_event *e) =
        found == 1 && \at(e->kind,L2) != CPG_OVERRUN ==> \at(n->next,L1) < \at(n->next,L2) && d_tells_last{L2}(n, now, e);
    predicate d_turn_overrun{L1,L2}(cpg_node *n, integer now, integer found, cpg_event *e) =
        found == 1 && \at(e->kind,L2) == CPG_OVERRUN ==> \at(n->next,L1) == \at(n->next,L2)
            && \at(e->time,L2) == now && \at(e->column,L2) == 0 && \at(e->value,L2) == 0
            && (\exists integer row; 0 <= row < t_own && d_overruns{L1}(n, row, now) && \at(e->item,L2) == t_item(row)
                && \at(n->execution[row].state,L2) == CPG_OVERRUNNING
                && (\forall integer r; 0 <= r < row ==> !d_overruns{L1}(n, r, now)));
    // where there is none the turn is over
    predicate d_turn_over{L}(cpg_node *n, integer now, integer found) =
        found == 0 ==> d_none_overruns(n, now) && d_nothing_at(n, now);
    // what runs: what is started, what has ended, and the others as they were, but for the one that has overrun
    predicate d_turn_started{L}(cpg_node *n, integer row, integer found, cpg_event *e) =
        found == 1 && e->kind == CPG_START && row == t_row(n->next - 1);
    predicate d_turn_start{L}(cpg_node *n, integer now, integer found, cpg_event *e) =
        found == 1 && e->kind == CPG_START ==> d_is_started(n, t_row(n->next - 1), now);
    predicate d_turn_ends{L1,L2}(cpg_node *n, integer now, integer found, cpg_event *e) =
        \forall integer row; 0 <= row < t_own && d_due_report{L1}(n, row, now) && !d_turn_started{L2}(n, row, found, e) ==>
            \at(n->execution[row].state,L2) == CPG_ENDED;
    predicate d_same_but_overrun{L1,L2}(cpg_node *n, integer row, integer found, cpg_event *e) =
        d_same_report{L1,L2}(n, row)
        && (\at(n->execution[row].state,L1) == \at(n->execution[row].state,L2)
            || (\at(n->execution[row].state,L1) == CPG_RUNNING && \at(n->execution[row].state,L2) == CPG_OVERRUNNING
                && found == 1 && \at(e->kind,L2) == CPG_OVERRUN));
    predicate d_turn_others{L1,L2}(cpg_node *n, integer now, integer found, cpg_event *e) =
        \forall integer row; 0 <= row < t_own && !d_due_report{L1}(n, row, now) && !d_turn_started{L2}(n, row, found, e) ==>
            d_same_but_overrun{L1,L2}(n, row, found, e);
    predicate d_turn{L1,L2}(cpg_node *n, integer now, integer found, cpg_event *e) =
        d_heard_after{L1,L2}(n, now) && d_turn_columns{L1,L2}(n, now) && d_turn_past{L1,L2}(n, found)
        && d_turn_act{L1,L2}(n, now, found, e) && d_turn_overrun{L1,L2}(n, now, found, e) && d_turn_over{L2}(n, now, found)
        && d_turn_start{L2}(n, now, found, e) && d_turn_ends{L1,L2}(n, now, found, e)
        && d_turn_others{L1,L2}(n, now, found, e);
    // what runs where the ends are told
    predicate d_rest_others{L1,L2}(cpg_node *n, integer found, cpg_event *e) =
        \forall integer row; 0 <= row < t_own && !d_turn_started{L2}(n, row, found, e) ==>
            d_same_but_overrun{L1,L2}(n, row, found, e);
    predicate d_dues_others{L1,L2}(cpg_node *n, integer found, cpg_event *e) =
        \forall integer row; 0 <= row < t_own && !d_turn_started{L2}(n, row, found, e) ==> d_same_execution{L1,L2}(n, row);

    // ---- How a turn is made of its parts. A block comes into no goal but those of the functions that join such parts. ----

    axiomatic Dues {
      // the columns of an instant, as far as an event, and one more
      predicate d_dues{L1,L2}(cpg_node *n, integer now, integer found, cpg_event *e) =
        d_same_ranges{L1,L2}(n) && d_turn_columns{L1,L2}(n, now) && d_turn_past{L1,L2}(n, found)
        && d_turn_act{L1,L2}(n, now, found, e) && d_dues_others{L1,L2}(n, found, e);
      predicate d_due{L1,L2}(cpg_node *n, integer now, integer found, cpg_event *e) =
        \at(n->next,L2) == \at(n->next,L1) + 1 && \at(n->next,L2) <= t_dues && d_time(\at(n->next,L1)) == now
        && d_same_ranges{L1,L2}(n) && (found == 0 ==> !d_acts{L2}(n, \at(n->next,L2) - 1))
        && d_turn_act{L1,L2}(n, now, found, e) && d_dues_others{L1,L2}(n, found, e);
      lemma same_acts{L1,L2}: \forall cpg_node *n, integer i;
        d_same_ranges{L1,L2}(n) ==> 0 <= i < t_dues ==> d_acts{L2}(n, i) ==> d_acts{L1}(n, i);
      lemma past_one{L1,L2,L3}: \forall cpg_node *n, integer now, found, cpg_event *e; 0 <= \at(n->next,L1) ==> 0 <= found <= 1 ==>
        d_turn_past{L1,L2}(n, 0) ==> d_due{L2,L3}(n, now, found, e) ==> d_turn_past{L1,L3}(n, found);
      lemma columns_one{L1,L2,L3}: \forall cpg_node *n, integer now;
        d_turn_columns{L1,L2}(n, now) ==> d_time(\at(n->next,L2)) <= now ==> \at(n->next,L3) == \at(n->next,L2) + 1 ==>
        d_turn_columns{L1,L3}(n, now);
      lemma act_one{L1,L2,L3}: \forall cpg_node *n, integer now, found, cpg_event *e;
        d_turn_columns{L1,L2}(n, now) ==> d_due{L2,L3}(n, now, found, e) ==> d_turn_act{L1,L3}(n, now, found, e);
      lemma others_one{L1,L2,L3}: \forall cpg_node *n, integer found, cpg_event *e;
        d_dues_others{L1,L2}(n, 0, e) ==> d_dues_others{L2,L3}(n, found, e) ==> d_dues_others{L1,L3}(n, found, e);
      lemma dues_one{L1,L2,L3}: \forall cpg_node *n, integer now, found, cpg_event *e; 0 <= \at(n->next,L1) ==> 0 <= found <= 1 ==>
        d_dues{L1,L2}(n, now, 0, e) ==> d_due{L2,L3}(n, now, found, e) ==> d_dues{L1,L3}(n, now, found, e);
    }
    axiomatic Parts {
      // the ends of an instant, and what is left of its turn
      predicate d_ends{L1,L2}(cpg_node *n, integer now) =
        \at(n->from,L1) == \at(n->from,L2) && \at(n->next,L1) == \at(n->next,L2) && d_heard_after{L1,L2}(n, now) && d_end_reports{L1,L2}(n)
        && d_end_due{L1,L2}(n, now, t_own) && d_end_no_more{L1,L2}(n, now, t_own);
      predicate d_rest{L1,L2}(cpg_node *n, integer now, integer found, cpg_event *e) =
        d_same_ranges{L1,L2}(n) && d_turn_columns{L1,L2}(n, now) && d_turn_past{L1,L2}(n, found)
        && d_turn_act{L1,L2}(n, now, found, e) && d_turn_overrun{L1,L2}(n, now, found, e) && d_turn_over{L2}(n, now, found)
        && d_turn_start{L2}(n, now, found, e) && d_rest_others{L1,L2}(n, found, e);
      lemma heard_rest{L1,L2,L3}: \forall cpg_node *n, integer now;
        d_heard_after{L1,L2}(n, now) ==> d_same_ranges{L2,L3}(n) ==> d_heard_after{L1,L3}(n, now);
      lemma running_ends{L1,L2}: \forall cpg_node *n, integer now; d_ends{L1,L2}(n, now) ==> d_same_overruns{L1,L2}(n, now);
      lemma ahead_ends{L1,L2}: \forall cpg_node *n, integer now;
        d_is_turning{L1}(n, now) ==> d_ends{L1,L2}(n, now) ==> d_reports_ahead{L2}(n);
      lemma overrun_rest{L1,L2,L3}: \forall cpg_node *n, integer now, found, cpg_event *e;
        \at(n->next,L1) == \at(n->next,L2) ==> d_same_overruns{L1,L2}(n, now) ==>
        d_turn_overrun{L2,L3}(n, now, found, e) ==> d_turn_overrun{L1,L3}(n, now, found, e);
      lemma ends_rest{L1,L2,L3}: \forall cpg_node *n, integer now, found, cpg_event *e;
        d_ends{L1,L2}(n, now) ==> d_rest_others{L2,L3}(n, found, e) ==> d_turn_ends{L1,L3}(n, now, found, e);
      lemma others_rest{L1,L2,L3}: \forall cpg_node *n, integer now, found, cpg_event *e;
        d_ends{L1,L2}(n, now) ==> d_rest_others{L2,L3}(n, found, e) ==> d_turn_others{L1,L3}(n, now, found, e);
      lemma turn_rest{L1,L2,L3}: \forall cpg_node *n, integer now, found, cpg_event *e;
        d_ends{L1,L2}(n, now) ==> d_rest{L2,L3}(n, now, found, e) ==> d_turn{L1,L3}(n, now, found, e);
      lemma rows_over{L1,L2}: \forall cpg_node *n, integer now, found, row, cpg_event *e; found == 0 ==>
        d_is_told{L2}(n, now) ==> d_turn{L1,L2}(n, now, found, e) ==>
        0 <= row < t_own ==> d_is_awaited{L2}(n, row) ==> now + 1 <= \at(n->execution[row].until,L2);
      lemma columns_over{L1,L2}: \forall cpg_node *n, integer now, found, i, cpg_event *e; found == 0 ==>
        d_turn{L1,L2}(n, now, found, e) ==> \at(n->next,L2) <= i < t_dues ==> now + 1 <= d_time(i);
      // a turn of a node with another `from`
      predicate d_same{L1,L2}(cpg_node *n) =
        \at(n->next,L1) == \at(n->next,L2) && d_same_executions{L1,L2}(n) && d_same_ranges{L1,L2}(n);
      lemma same_running{L1,L2}: \forall cpg_node *n, integer now; d_same{L1,L2}(n) ==> d_same_overruns{L1,L2}(n, now);
      lemma same_heard{L1,L2,L3}: \forall cpg_node *n, integer now;
        d_same{L1,L2}(n) ==> d_heard_after{L2,L3}(n, now) ==> d_heard_after{L1,L3}(n, now);
      lemma same_overrun{L1,L2,L3}: \forall cpg_node *n, integer now, found, cpg_event *e;
        d_same{L1,L2}(n) ==> d_turn_overrun{L2,L3}(n, now, found, e) ==> d_turn_overrun{L1,L3}(n, now, found, e);
      lemma same_ends{L1,L2,L3}: \forall cpg_node *n, integer now, found, cpg_event *e;
        d_same{L1,L2}(n) ==> d_turn_ends{L2,L3}(n, now, found, e) ==> d_turn_ends{L1,L3}(n, now, found, e);
      lemma same_others{L1,L2,L3}: \forall cpg_node *n, integer now, found, cpg_event *e;
        d_same{L1,L2}(n) ==> d_turn_others{L2,L3}(n, now, found, e) ==> d_turn_others{L1,L3}(n, now, found, e);
      lemma same_turn{L1,L2,L3}: \forall cpg_node *n, integer now, found, cpg_event *e;
        d_same{L1,L2}(n) ==> d_turn{L2,L3}(n, now, found, e) ==> d_turn{L1,L3}(n, now, found, e);
    }

    // ---- Turns, one after another: F. turned ----

    // the turn of the next instant
    predicate d_next_turn{L1,L2}(cpg_node *n, integer found, cpg_event *e) =
        d_next_awaited{L1}(n, \at(n->from,L2) - 1) && d_turn{L1,L2}(n, \at(n->from,L2) - 1, found, e);
    // The least relations of which these rules hold. What is proved of them uses no more than the rules.
    axiomatic Turned {
      // turns that lead to no event
      predicate d_turned{L1,L2}(cpg_node *n, cpg_event *e) reads \at(*n,L1), \at(*e,L1), \at(*n,L2), \at(*e,L2);
      axiom none{L}: \forall cpg_node *n, cpg_event *e; d_turned{L,L}(n, e);
      axiom more{L1,L2,L3}: \forall cpg_node *n, cpg_event *e;
        d_turned{L1,L2}(n, e) ==> d_next_turn{L2,L3}(n, 0, e) ==> d_turned{L1,L3}(n, e);
      // and then one that leads to an event
      predicate d_turned_to{L1,L2}(cpg_node *n, cpg_event *e) reads \at(*n,L1), \at(*e,L1), \at(*n,L2), \at(*e,L2);
      axiom last{L1,L2,L3}: \forall cpg_node *n, cpg_event *e;
        d_turned{L1,L2}(n, e) ==> d_next_turn{L2,L3}(n, 1, e) ==> d_turned_to{L1,L3}(n, e);
    }

    // ---- Frames: F. arrived ----

    // S. arrives: by this column of the index
    predicate d_arrives{L}(cpg_node *n, integer i, integer time, integer item, integer column) =
        0 <= i < t_dues && d_time(i) == time && t_row(i) >= t_acting && t_item(t_row(i)) == item && t_column(i) == column;
    // where the value stands that a frame of an item tells (D. frame_literals)
    logic integer d_told_place(integer item) =
        (item >= t_broadcast && item - t_broadcast < CPG_MAX_CONDITIONS) ? d_value_place(item - t_broadcast) : CPG_VARIABLES;
    // D. is_contradicted: a literal of the column, or the value at `place`, leaves a variable no number
    predicate d_excludes{L}(cpg_node *n, integer l, integer place, integer value) =
        n->heard[d_place(d_variable(l))].high < d_low(l) || d_high(l) < n->heard[d_place(d_variable(l))].low
        || (d_place(d_variable(l)) == place && (value < d_low(l) || d_high(l) < value));
    predicate d_is_contradicted{L}(cpg_node *n, integer at, integer place, integer value) =
        (\exists integer j; 0 <= j < d_literals(at) && d_excludes(n, d_literal(at, j), place, value))
        || (place < CPG_VARIABLES && (value < n->heard[place].low || n->heard[place].high < value));
    // D. is_strange
    predicate d_is_strange{L}(cpg_node *n, integer time, integer item, integer column, integer value) =
        \forall integer i; d_arrives(n, i, time, item, column) ==> d_is_contradicted(n, t_at(i), d_told_place(item), value);
    // D. cut, cut_range
    predicate d_cut{L1,L2}(cpg_node *n, integer l) =
        \at(n->heard[d_place(d_variable(l))].low,L2) == \max(\at(n->heard[d_place(d_variable(l))].low,L1), d_low(l))
        && \at(n->heard[d_place(d_variable(l))].high,L2) == \min(\at(n->heard[d_place(d_variable(l))].high,L1), d_high(l));
    // D. cut_all of the literals below one of a column, between two states
    predicate d_cut_literals{L1,L2}(cpg_node *n, integer at, integer literals) =
        \forall integer j; 0 <= j < literals ==> d_cut{L1,L2}(n, d_literal(at, j));
    predicate d_cut_no_more{L1,L2}(cpg_node *n, integer at, integer literals) =
        \forall integer p; 0 <= p < CPG_VARIABLES && (\forall integer j; 0 <= j < literals ==> p != d_place(d_variable(d_literal(at, j))))
            ==> d_same_range{L1,L2}(n, p);
    predicate d_cut_all{L1,L2}(cpg_node *n, integer at) =
        d_cut_literals{L1,L2}(n, at, d_literals(at)) && d_cut_no_more{L1,L2}(n, at, d_literals(at));
    // D. hear_frame of a frame that isn't contradicted: the value, the literals of the column, and all else is as it was
    predicate d_hear_literals{L1,L2}(cpg_node *n, integer at, integer place) =
        \forall integer j; 0 <= j < d_literals(at) && place != d_place(d_variable(d_literal(at, j))) ==>
            d_cut{L1,L2}(n, d_literal(at, j));
    predicate d_hear_others{L1,L2}(cpg_node *n, integer at, integer place) =
        \forall integer p; 0 <= p < CPG_VARIABLES && p != place
            && (\forall integer j; 0 <= j < d_literals(at) ==> p != d_place(d_variable(d_literal(at, j))))
            ==> d_same_range{L1,L2}(n, p);
    predicate d_hear_frame{L1,L2}(cpg_node *n, integer at, integer place, integer value) =
        (place < CPG_VARIABLES ==> d_know{L2}(n, place, value))
        && d_hear_literals{L1,L2}(n, at, place) && d_hear_others{L1,L2}(n, at, place);

    // ---- Ends: F. ended ----

    predicate d_may_tell{L}(cpg_node *n, integer row, integer faults, integer value) =
        faults <= t_k && (value == 0 || (value == 1 && t_condition(row) != 255));
    // F. may_end, may_end_now
    predicate d_may_end{L}(cpg_node *n, integer row, integer time, integer faults, integer value) =
        d_runs_unreported(n, row) && d_may_tell(n, row, faults, value) && n->execution[row].start < time
        && time <= n->execution[row].start + d_time_of(row, faults);
    // D. finished, with_report
    predicate d_finished{L1,L2}(cpg_node *n, integer row, integer faults, integer value) =
        \at(n->execution[row].state,L2) == CPG_NOTED && \at(n->execution[row].faults,L2) == faults
        && \at(n->execution[row].value,L2) == value
        && \at(n->execution[row].start,L2) == \at(n->execution[row].start,L1)
        && \at(n->execution[row].until,L2) == \at(n->execution[row].start,L1) + d_time_of(row, faults)
        && (\forall integer other; 0 <= other < t_own && other != row ==> d_same_execution{L1,L2}(n, other));
 */
#endif
