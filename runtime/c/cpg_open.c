/* See cpg_open.h. Every byte of the pack is read by byte_at, which asks whether it is there. */
#include "cpg_open.h"

#define FIRST_VALUE 128U            /* the variable of condition 0 */
#define LONGEST_NAME 32U
#define TIMES_BELOW (UINT64_C(1) << 60)
#define GREATEST_RELEASE UINT64_C(1000000000)
#define COLUMNS_OF_ROW 16384U
#define COLUMNS_OF_PACK 524288U
#define TIME_BYTES 8U

/* The groups of rows of a node, in their order. */
enum { STARTS, MESSAGES, TELLS, HEARD_MESSAGES, HEARD_VALUES, GROUPS };

/* ---- Bytes ---- */

/*@ requires cpg_is_opened(opened);
    terminates \true;
    assigns \nothing; */
static uint8_t byte_at(const cpg_opened *opened, uint32_t at)
{
    return (at < opened->table.size) ? opened->table.pack[at] : (uint8_t)0U;
}

/*@ requires cpg_is_opened(opened);
    terminates \true;
    assigns \nothing; */
static uint64_t time_at(const cpg_opened *opened, uint32_t at)
{
    uint64_t time = 0U;
    /*@ loop invariant i <= TIME_BYTES;
        loop assigns i, time;
        loop variant TIME_BYTES - i; */
    for (uint32_t i = 0U; i < TIME_BYTES; i++) {
        time = (time << 8) | byte_at(opened, at + i);
    }
    return time;
}

/* ---- Reading a pack ---- */

/* How far a reading is: from the first byte on that can't stand at its place, it stays there. */
typedef struct {
    uint32_t at;
    uint32_t columns;               /* of all rows so far */
    bool ok;
    bool full;                      /* it stopped since a macro is too small */
} reading;

/*@ predicate is_reading(reading *reader) =
        \valid(reader) && (reader->ok == 0 || reader->ok == 1) && (reader->full == 0 || reader->full == 1);
    predicate is_read(cpg_opened *opened, reading *reader) =
        cpg_is_opened(opened) && is_reading(reader) && \separated(opened, reader); */

/*@ requires is_reading(reader);
    terminates \true;
    assigns reader->ok, reader->full;
    ensures is_reading(reader); */
static void stop_full(reading *reader)
{
    if (reader->ok) {
        reader->full = true;
        reader->ok = false;
    }
}

/* The next byte, which has to be from `low` to `high`; 0 where it isn't. */
/*@ requires is_read(opened, reader);
    terminates \true;
    assigns reader->at, reader->ok;
    ensures is_read(opened, reader);
    ensures \result == 0 || low <= \result <= high; */
static uint8_t read_byte(const cpg_opened *opened, reading *reader, uint32_t low, uint32_t high)
{
    uint8_t byte = byte_at(opened, reader->at);
    if (!reader->ok || (reader->at >= opened->table.size) || (byte < low) || (byte > high)) {
        reader->ok = false;
        return 0U;
    }
    reader->at++;
    return byte;
}

/* The next number of some bytes, which has to be at most `most`. No byte is taken with which it would be greater. */
/*@ requires is_read(opened, reader);
    requires bytes <= TIME_BYTES;
    terminates \true;
    assigns reader->at, reader->ok;
    ensures is_read(opened, reader); */
static uint64_t read_number(const cpg_opened *opened, reading *reader, uint32_t bytes, uint64_t most)
{
    uint64_t number = 0U;
    /*@ loop invariant 1 <= i <= bytes + 1 && is_read(opened, reader);
        loop assigns i, number, reader->at, reader->ok;
        loop variant bytes - i; */
    for (uint32_t i = 1U; i <= bytes; i++) {
        uint64_t room = (most >> (8U * (bytes - i))) - (number << 8);
        uint32_t high = (room < 255U) ? (uint32_t)room : 255U;
        number = (number << 8) | read_byte(opened, reader, 0U, high);
    }
    return number;
}

/*@ terminates \true;
    assigns \nothing; */
static bool is_name_byte(uint8_t byte)
{
    bool letter = ((byte >= 0x41U) && (byte <= 0x5AU)) || ((byte >= 0x61U) && (byte <= 0x7AU));
    bool digit = (byte >= 0x30U) && (byte <= 0x39U);
    bool mark = (byte == 0x5FU) || (byte == 0x2DU) || (byte == 0x2EU);
    return letter || digit || mark;
}

/*@ requires is_read(opened, reader);
    terminates \true;
    assigns reader->at, reader->ok;
    ensures is_read(opened, reader); */
static void read_name(const cpg_opened *opened, reading *reader)
{
    uint8_t length = read_byte(opened, reader, 1U, LONGEST_NAME);
    /*@ loop invariant i <= length && is_read(opened, reader);
        loop assigns i, reader->at, reader->ok;
        loop variant length - i; */
    for (uint8_t i = 0U; i < length; i++) {
        if (!is_name_byte(byte_at(opened, reader->at))) {
            reader->ok = false;
        }
        (void)read_byte(opened, reader, 0U, 255U);
    }
}

/* Whether the name at a place of the pack is this one. */
/*@ requires cpg_is_opened(opened);
    requires length <= LONGEST_NAME ==> \valid_read(name + (0 .. length - 1));
    terminates \true;
    assigns \nothing; */
static bool is_name(const cpg_opened *opened, uint32_t at, const char *name, uint32_t length)
{
    if ((length > LONGEST_NAME) || (byte_at(opened, at) != length)) {
        return false;
    }
    /*@ loop invariant i <= length;
        loop assigns i;
        loop variant length - i; */
    for (uint32_t i = 0U; i < length; i++) {
        if (byte_at(opened, at + 1U + i) != (uint8_t)name[i]) {
            return false;
        }
    }
    return true;
}

/*@ requires is_read(opened, reader);
    requires length <= LONGEST_NAME ==> \valid_read(name + (0 .. length - 1));
    terminates \true;
    assigns opened->nodes, opened->self, reader->at, reader->ok;
    ensures is_read(opened, reader); */
static void read_nodes(cpg_opened *opened, reading *reader, const char *name, uint32_t length)
{
    opened->nodes = read_byte(opened, reader, 0U, 16U);
    /*@ loop invariant i <= opened->nodes && is_read(opened, reader);
        loop assigns i, opened->self, reader->at, reader->ok;
        loop variant opened->nodes - i; */
    for (uint8_t i = 0U; i < opened->nodes; i++) {
        uint32_t at = reader->at;
        read_name(opened, reader);
        if (reader->ok && (opened->self == CPG_NONE) && is_name(opened, at, name, length)) {
            opened->self = i;
        }
    }
}

/* The number of the condition of a process, where it has one. */
/*@ requires is_read(opened, reader);
    terminates \true;
    assigns opened->told_by[0 .. CPG_MAX_CONDITIONS - 1], opened->table.conditions, reader->ok, reader->full;
    ensures is_read(opened, reader); */
static uint8_t add_condition(cpg_opened *opened, reading *reader, uint8_t process)
{
    uint8_t condition = opened->table.conditions;
    if (condition >= CPG_MAX_CONDITIONS) {
        stop_full(reader);
        return CPG_NONE;
    }
    opened->told_by[condition] = process;
    opened->table.conditions++;
    return condition;
}

/*@ requires is_read(opened, reader);
    terminates \true;
    assigns opened->process[0 .. CPG_MAX_OWN - 1], opened->table.own, reader->ok, reader->full;
    ensures is_read(opened, reader); */
static void add_process(cpg_opened *opened, reading *reader, uint32_t durations, uint8_t condition)
{
    if (opened->table.own >= CPG_MAX_OWN) {
        stop_full(reader);
        return;
    }
    opened->process[opened->table.own].durations = durations;
    opened->process[opened->table.own].condition = condition;
    opened->table.own++;
}

/* The own deadline of a process, or eight bytes 255 for none. */
/*@ requires is_read(opened, reader);
    terminates \true;
    assigns reader->at, reader->ok;
    ensures is_read(opened, reader); */
static void read_own_deadline(const cpg_opened *opened, reading *reader)
{
    if (byte_at(opened, reader->at) == 255U) {
        /*@ loop invariant i <= TIME_BYTES && is_read(opened, reader);
            loop assigns i, reader->at, reader->ok;
            loop variant TIME_BYTES - i; */
        for (uint32_t i = 0U; i < TIME_BYTES; i++) {
            (void)read_byte(opened, reader, 255U, 255U);
        }
    } else {
        (void)read_number(opened, reader, TIME_BYTES, GREATEST_RELEASE);
    }
}

/*@ requires is_read(opened, reader);
    requires process < CPG_MAX_PROCESSES;
    terminates \true;
    assigns opened->node_of[0 .. CPG_MAX_PROCESSES - 1], opened->told_by[0 .. CPG_MAX_CONDITIONS - 1],
        opened->table.conditions, opened->process[0 .. CPG_MAX_OWN - 1], opened->table.own, reader->at, reader->ok,
        reader->full;
    ensures is_read(opened, reader); */
static void read_process(cpg_opened *opened, reading *reader, uint8_t version, uint8_t process)
{
    uint8_t condition = CPG_NONE;
    uint32_t durations;
    read_name(opened, reader);
    opened->node_of[process] = read_byte(opened, reader, 0U, (uint32_t)opened->nodes - 1U);
    if (read_byte(opened, reader, 0U, (opened->table.conditions < 32U) ? 1U : 0U) == 1U) {
        condition = add_condition(opened, reader, process);
    }
    durations = reader->at;
    /*@ loop invariant faults <= opened->table.k + 1 && is_read(opened, reader);
        loop assigns faults, reader->at, reader->ok;
        loop variant opened->table.k - faults; */
    for (uint8_t faults = 0U; faults <= opened->table.k; faults++) {
        (void)read_number(opened, reader, TIME_BYTES, TIMES_BELOW - 1U);
    }
    if (version == 2U) {
        (void)read_number(opened, reader, TIME_BYTES, GREATEST_RELEASE);
        read_own_deadline(opened, reader);
    }
    if (reader->ok && (opened->node_of[process] == opened->self)) {
        add_process(opened, reader, durations, condition);
    }
}

/*@ requires is_read(opened, reader);
    terminates \true;
    assigns opened->table.processes, opened->node_of[0 .. CPG_MAX_PROCESSES - 1], opened->told_by[0 .. CPG_MAX_CONDITIONS - 1],
        opened->table.conditions, opened->process[0 .. CPG_MAX_OWN - 1], opened->table.own, reader->at, reader->ok,
        reader->full;
    ensures is_read(opened, reader); */
static void read_processes(cpg_opened *opened, reading *reader, uint8_t version)
{
    uint8_t processes = read_byte(opened, reader, 0U, (opened->nodes > 0U) ? 128U : 0U);
    if (processes > CPG_MAX_PROCESSES) {
        stop_full(reader);
        return;
    }
    opened->table.processes = processes;
    /*@ loop invariant process <= processes && is_read(opened, reader);
        loop assigns process, opened->node_of[0 .. CPG_MAX_PROCESSES - 1], opened->told_by[0 .. CPG_MAX_CONDITIONS - 1],
            opened->table.conditions, opened->process[0 .. CPG_MAX_OWN - 1], opened->table.own, reader->at, reader->ok,
            reader->full;
        loop variant processes - process; */
    for (uint8_t process = 0U; process < processes; process++) {
        read_process(opened, reader, version, process);
    }
}

/*@ requires is_read(opened, reader);
    terminates \true;
    assigns opened->edges, opened->table.broadcast, opened->edges_at, reader->at, reader->ok;
    ensures is_read(opened, reader); */
static void read_edges(cpg_opened *opened, reading *reader)
{
    opened->edges = (uint16_t)read_number(opened, reader, 2U, (opened->table.processes > 0U) ? 256U : 0U);
    opened->table.broadcast = (uint16_t)(opened->table.processes + opened->edges);
    opened->edges_at = reader->at;
    /*@ loop invariant i <= opened->edges && is_read(opened, reader);
        loop assigns i, reader->at, reader->ok;
        loop variant opened->edges - i; */
    for (uint16_t i = 0U; i < opened->edges; i++) {
        (void)read_byte(opened, reader, 0U, (uint32_t)opened->table.processes - 1U);
        (void)read_byte(opened, reader, 0U, (uint32_t)opened->table.processes - 1U);
    }
}

/*@ requires is_read(opened, reader);
    requires length <= LONGEST_NAME ==> \valid_read(name + (0 .. length - 1));
    terminates \true;
    assigns opened->table.k, opened->nodes, opened->self, opened->table.processes, opened->edges, opened->table.broadcast,
        opened->edges_at, opened->node_of[0 .. CPG_MAX_PROCESSES - 1], opened->told_by[0 .. CPG_MAX_CONDITIONS - 1],
        opened->table.conditions, opened->process[0 .. CPG_MAX_OWN - 1], opened->table.own, reader->at, reader->ok,
        reader->full;
    ensures is_read(opened, reader); */
static void read_head(cpg_opened *opened, reading *reader, const char *name, uint32_t length)
{
    static const uint8_t magic[4] = { 0x43U, 0x50U, 0x47U, 0x54U };
    uint8_t version;
    /*@ loop invariant i <= 4 && is_read(opened, reader);
        loop assigns i, reader->at, reader->ok;
        loop variant 4 - i; */
    for (uint32_t i = 0U; i < 4U; i++) {
        (void)read_byte(opened, reader, magic[i], magic[i]);
    }
    version = read_byte(opened, reader, 1U, 2U);
    opened->table.k = read_byte(opened, reader, 0U, 8U);
    read_nodes(opened, reader, name, length);
    read_processes(opened, reader, version);
    read_edges(opened, reader);
}

/* ---- The rows ---- */

/*@ requires cpg_is_opened(opened);
    terminates \true;
    assigns \nothing; */
static uint8_t node_of(const cpg_opened *opened, uint32_t process)
{
    return (process < CPG_MAX_PROCESSES) ? opened->node_of[process] : (uint8_t)CPG_NONE;
}

/* Whether a node has the row of this group and index: a process, an edge or a condition. */
/*@ requires cpg_is_opened(opened);
    terminates \true;
    assigns \nothing; */
static bool has_row(const cpg_opened *opened, uint8_t owner, uint32_t group, uint16_t index)
{
    uint8_t from;
    uint8_t to;
    if (group == (uint32_t)STARTS) {
        return node_of(opened, index) == owner;
    }
    if ((group == (uint32_t)TELLS) || (group == (uint32_t)HEARD_VALUES)) {
        from = (index < CPG_MAX_CONDITIONS) ? node_of(opened, opened->told_by[index]) : (uint8_t)CPG_NONE;
        return (from == owner) == (group == (uint32_t)TELLS);
    }
    from = node_of(opened, byte_at(opened, opened->edges_at + (2U * (uint32_t)index)));
    to = node_of(opened, byte_at(opened, opened->edges_at + (2U * (uint32_t)index) + 1U));
    if (group == (uint32_t)MESSAGES) {
        return (from == owner) && (to != owner);
    }
    return (from != owner) && (to == owner);
}

/*@ requires cpg_is_opened(opened);
    terminates \true;
    assigns \nothing; */
static uint16_t size_of_group(const cpg_opened *opened, uint32_t group)
{
    if (group == (uint32_t)STARTS) {
        return opened->table.processes;
    }
    if ((group == (uint32_t)MESSAGES) || (group == (uint32_t)HEARD_MESSAGES)) {
        return opened->edges;
    }
    return (opened->nodes > 1U) ? opened->table.conditions : (uint16_t)0U;
}

/*@ requires cpg_is_opened(opened);
    terminates \true;
    assigns \nothing; */
static uint16_t first_item(const cpg_opened *opened, uint32_t group)
{
    if (group == (uint32_t)STARTS) {
        return 0U;
    }
    if ((group == (uint32_t)MESSAGES) || (group == (uint32_t)HEARD_MESSAGES)) {
        return opened->table.processes;
    }
    return opened->table.broadcast;
}

/*@ requires is_read(opened, reader);
    terminates \true;
    assigns opened->item[0 .. CPG_MAX_ROWS - 1], opened->table.rows, reader->ok, reader->full;
    ensures is_read(opened, reader); */
static void add_row(cpg_opened *opened, reading *reader, uint16_t item)
{
    if (opened->table.rows >= CPG_MAX_ROWS) {
        stop_full(reader);
        return;
    }
    opened->item[opened->table.rows] = item;
    opened->table.rows++;
}

/* The column that begins here is one of the row that was added last. */
/*@ requires is_read(opened, reader);
    terminates \true;
    assigns opened->due[0 .. CPG_MAX_COLUMNS - 1], opened->table.dues, reader->ok, reader->full;
    ensures is_read(opened, reader); */
static void add_due(cpg_opened *opened, reading *reader, uint16_t column)
{
    if (opened->table.dues >= CPG_MAX_COLUMNS) {
        stop_full(reader);
        return;
    }
    opened->due[opened->table.dues].at = reader->at;
    opened->due[opened->table.dues].row = (uint16_t)(opened->table.rows - 1U);
    opened->due[opened->table.dues].column = column;
    opened->table.dues++;
}

/* Of how many greater variables than this one a literal may be. */
/*@ requires cpg_is_opened(opened);
    terminates \true;
    assigns \nothing; */
static uint32_t variables_above(const cpg_opened *opened, uint8_t variable)
{
    if (variable >= FIRST_VALUE) {
        return (uint32_t)opened->table.conditions - 1U - ((uint32_t)variable - FIRST_VALUE);
    }
    return ((uint32_t)opened->table.processes - 1U - variable) + opened->table.conditions;
}

/* Whether a literal may be of this variable. */
/*@ requires cpg_is_opened(opened);
    terminates \true;
    assigns \nothing; */
static bool is_variable(const cpg_opened *opened, uint8_t variable)
{
    if (variable >= FIRST_VALUE) {
        return ((uint32_t)variable - FIRST_VALUE) < opened->table.conditions;
    }
    return (opened->table.k > 0U) && (variable < opened->table.processes);
}

/* A literal of the variable `least` or a greater one, which so many others follow. Answers the least variable of the next one. */
/*@ requires is_read(opened, reader);
    terminates \true;
    assigns reader->at, reader->ok;
    ensures is_read(opened, reader); */
static uint32_t read_literal(const cpg_opened *opened, reading *reader, uint32_t least, uint32_t others)
{
    uint8_t variable = byte_at(opened, reader->at);
    uint8_t low;
    if ((variable < least) || !is_variable(opened, variable) || (variables_above(opened, variable) < others)) {
        reader->ok = false;
    }
    (void)read_byte(opened, reader, 0U, 255U);
    if (variable >= FIRST_VALUE) {
        low = read_byte(opened, reader, 0U, 1U);
        (void)read_byte(opened, reader, low, low);
    } else {
        low = read_byte(opened, reader, 0U, opened->table.k);
        (void)read_byte(opened, reader, low, (low == 0U) ? ((uint32_t)opened->table.k - 1U) : opened->table.k);
    }
    return (uint32_t)variable + 1U;
}

/*@ requires is_read(opened, reader);
    terminates \true;
    assigns reader->at, reader->ok;
    ensures is_read(opened, reader); */
static void read_column(const cpg_opened *opened, reading *reader)
{
    uint32_t most = ((opened->table.k > 0U) ? opened->table.processes : 0U) + (uint32_t)opened->table.conditions;
    uint32_t least = 0U;
    uint8_t literals;
    (void)read_number(opened, reader, TIME_BYTES, TIMES_BELOW - 1U);
    literals = read_byte(opened, reader, 0U, most);
    /*@ loop invariant i <= literals && is_read(opened, reader);
        loop assigns i, least, reader->at, reader->ok;
        loop variant literals - i; */
    for (uint8_t i = 0U; i < literals; i++) {
        least = read_literal(opened, reader, least, (uint32_t)literals - 1U - i);
    }
}

/*@ requires is_read(opened, reader);
    requires mine == 0 || mine == 1;
    terminates \true;
    assigns opened->item[0 .. CPG_MAX_ROWS - 1], opened->table.rows, opened->due[0 .. CPG_MAX_COLUMNS - 1], opened->table.dues,
        reader->at, reader->ok, reader->columns, reader->full;
    ensures is_read(opened, reader); */
static void read_row(cpg_opened *opened, reading *reader, bool mine, uint16_t item)
{
    uint32_t left = COLUMNS_OF_PACK - reader->columns;
    uint16_t columns = (uint16_t)read_number(opened, reader, 2U, (left < COLUMNS_OF_ROW) ? left : COLUMNS_OF_ROW);
    reader->columns += columns;
    if (mine && reader->ok) {
        add_row(opened, reader, item);
    }
    /*@ loop invariant column <= columns && is_read(opened, reader);
        loop assigns column, opened->due[0 .. CPG_MAX_COLUMNS - 1], opened->table.dues, reader->at, reader->ok, reader->full;
        loop variant columns - column; */
    for (uint16_t column = 0U; (column < columns) && reader->ok; column++) {
        if (mine) {
            add_due(opened, reader, column);
        }
        read_column(opened, reader);
    }
}

/*@ requires is_read(opened, reader);
    terminates \true;
    assigns opened->item[0 .. CPG_MAX_ROWS - 1], opened->table.rows, opened->due[0 .. CPG_MAX_COLUMNS - 1], opened->table.dues,
        reader->at, reader->ok, reader->columns, reader->full;
    ensures is_read(opened, reader); */
static void read_group(cpg_opened *opened, reading *reader, uint8_t owner, uint32_t group)
{
    uint16_t size = size_of_group(opened, group);
    /*@ loop invariant index <= size && is_read(opened, reader);
        loop assigns index, opened->item[0 .. CPG_MAX_ROWS - 1], opened->table.rows, opened->due[0 .. CPG_MAX_COLUMNS - 1],
            opened->table.dues, reader->at, reader->ok, reader->columns, reader->full;
        loop variant size - index; */
    for (uint16_t index = 0U; index < size; index++) {
        if (has_row(opened, owner, group, index)) {
            read_row(opened, reader, owner == opened->self, (uint16_t)(first_item(opened, group) + index));
        }
    }
}

/*@ requires is_read(opened, reader);
    terminates \true;
    assigns opened->table.acting, opened->item[0 .. CPG_MAX_ROWS - 1], opened->table.rows,
        opened->due[0 .. CPG_MAX_COLUMNS - 1], opened->table.dues, reader->at, reader->ok, reader->columns, reader->full;
    ensures is_read(opened, reader); */
static void read_rows(cpg_opened *opened, reading *reader)
{
    /*@ loop invariant owner <= opened->nodes && is_read(opened, reader);
        loop assigns owner, opened->table.acting, opened->item[0 .. CPG_MAX_ROWS - 1], opened->table.rows,
            opened->due[0 .. CPG_MAX_COLUMNS - 1], opened->table.dues, reader->at, reader->ok, reader->columns, reader->full;
        loop variant opened->nodes - owner; */
    for (uint8_t owner = 0U; owner < opened->nodes; owner++) {
        /*@ loop invariant group <= GROUPS && is_read(opened, reader);
            loop assigns group, opened->table.acting, opened->item[0 .. CPG_MAX_ROWS - 1], opened->table.rows,
                opened->due[0 .. CPG_MAX_COLUMNS - 1], opened->table.dues, reader->at, reader->ok, reader->columns,
                reader->full;
            loop variant GROUPS - group; */
        for (uint32_t group = 0U; group < (uint32_t)GROUPS; group++) {
            read_group(opened, reader, owner, group);
            if ((owner == opened->self) && (group == (uint32_t)TELLS)) {
                opened->table.acting = opened->table.rows;
            }
        }
    }
}

/* ---- The index: columns by time ---- */

/* Of one time, what is heard comes first, then what is sent, then what is started. */
/*@ requires cpg_is_opened(opened);
    terminates \true;
    assigns \nothing; */
static uint32_t rank_of(const cpg_opened *opened, uint16_t row)
{
    if (row >= opened->table.acting) {
        return 0U;
    }
    return (row < opened->table.own) ? 2U : 1U;
}

/*@ requires cpg_is_opened(opened);
    terminates \true;
    assigns \nothing; */
static bool comes_before(const cpg_opened *opened, cpg_due one, cpg_due other)
{
    uint64_t first = time_at(opened, one.at);
    uint64_t second = time_at(opened, other.at);
    uint32_t rank = rank_of(opened, one.row);
    uint32_t other_rank = rank_of(opened, other.row);
    if (first != second) {
        return first < second;
    }
    if (rank != other_rank) {
        return rank < other_rank;
    }
    return one.at < other.at;
}

/* Lets a column of the first `size` sink in the heap, from a place below `size` on. The place at least doubles each time. */
/*@ requires cpg_is_opened(opened);
    requires place < size <= opened->table.dues;
    terminates \true;
    assigns opened->due[0 .. CPG_MAX_COLUMNS - 1];
    ensures cpg_is_opened(opened); */
static void sink(cpg_opened *opened, uint32_t place, uint32_t size)
{
    cpg_due moved = opened->due[place];
    uint32_t hole = place;
    uint32_t child = (2U * hole) + 1U;
    /*@ loop invariant cpg_is_opened(opened) && hole < size <= opened->table.dues && child == 2 * hole + 1;
        loop assigns hole, child, opened->due[0 .. CPG_MAX_COLUMNS - 1];
        loop variant size - hole; */
    while (child < size) {
        if (((child + 1U) < size) && comes_before(opened, opened->due[child], opened->due[child + 1U])) {
            child++;
        }
        if (!comes_before(opened, moved, opened->due[child])) {
            break;
        }
        opened->due[hole] = opened->due[child];
        hole = child;
        child = (2U * hole) + 1U;
    }
    opened->due[hole] = moved;
}

/*@ requires cpg_is_opened(opened);
    terminates \true;
    assigns opened->due[0 .. CPG_MAX_COLUMNS - 1];
    ensures cpg_is_opened(opened); */
static void sort_dues(cpg_opened *opened)
{
    /*@ loop invariant cpg_is_opened(opened) && i <= opened->table.dues;
        loop assigns i, opened->due[0 .. CPG_MAX_COLUMNS - 1];
        loop variant i; */
    for (uint32_t i = opened->table.dues / 2U; i > 0U; i--) {
        sink(opened, i - 1U, opened->table.dues);
    }
    /*@ loop invariant cpg_is_opened(opened) && size <= opened->table.dues;
        loop assigns size, opened->due[0 .. CPG_MAX_COLUMNS - 1];
        loop variant size; */
    for (uint32_t size = opened->table.dues; size > 1U; size--) {
        cpg_due last = opened->due[size - 1U];
        opened->due[size - 1U] = opened->due[0];
        opened->due[0] = last;
        sink(opened, 0U, size - 1U);
    }
}

/* ---- Opening ---- */

/* A table without rows. */
/*@ requires \valid(opened) && opened->table.item == &opened->item[0] && opened->table.process == &opened->process[0]
        && opened->table.due == &opened->due[0];
    terminates \true;
    assigns opened->table.k, opened->table.processes, opened->table.conditions, opened->table.broadcast, opened->table.own,
        opened->table.acting, opened->table.rows, opened->table.dues, opened->nodes, opened->self, opened->edges,
        opened->edges_at;
    ensures cpg_points(opened) && cpg_fits(&opened->table); */
static void shut(cpg_opened *opened)
{
    opened->table.k = 0U;
    opened->table.processes = 0U;
    opened->table.conditions = 0U;
    opened->table.broadcast = 0U;
    opened->table.own = 0U;
    opened->table.acting = 0U;
    opened->table.rows = 0U;
    opened->table.dues = 0U;
    opened->nodes = 0U;
    opened->self = CPG_NONE;
    opened->edges = 0U;
    opened->edges_at = 0U;
}

/* Reads the whole pack, and puts its index in order. */
/*@ requires cpg_is_opened(opened);
    requires length <= LONGEST_NAME ==> \valid_read(name + (0 .. length - 1));
    terminates \true;
    assigns opened->bad, opened->table.k, opened->nodes, opened->self, opened->table.processes, opened->edges,
        opened->table.broadcast, opened->edges_at, opened->node_of[0 .. CPG_MAX_PROCESSES - 1],
        opened->told_by[0 .. CPG_MAX_CONDITIONS - 1], opened->table.conditions, opened->process[0 .. CPG_MAX_OWN - 1],
        opened->table.own, opened->table.acting, opened->item[0 .. CPG_MAX_ROWS - 1], opened->table.rows,
        opened->due[0 .. CPG_MAX_COLUMNS - 1], opened->table.dues;
    ensures cpg_is_opened(opened); */
static cpg_status read_pack(cpg_opened *opened, uint32_t size, const char *name, uint32_t length)
{
    reading reader = { 0U, 0U, true, false };
    cpg_status status = CPG_OK;
    read_head(opened, &reader, name, length);
    read_rows(opened, &reader);
    opened->bad = reader.at;
    if (size > CPG_MAX_SIZE) {
        status = CPG_LONG;
    } else if (reader.full) {
        status = CPG_FULL;
    } else if (!reader.ok || (reader.at != size)) {
        status = CPG_PACK;
    } else if (opened->self == CPG_NONE) {
        status = CPG_NODE;
    } else {
        sort_dues(opened);
    }
    return status;
}

cpg_status cpg_open(cpg_opened *opened, const uint8_t *pack, uint32_t size, const char *name, uint32_t length)
{
    cpg_status status;
    opened->table.pack = pack;
    opened->table.size = (size <= CPG_MAX_SIZE) ? size : 0U;
    opened->table.item = opened->item;
    opened->table.process = opened->process;
    opened->table.due = opened->due;
    shut(opened);
    status = read_pack(opened, size, name, length);
    if (status != CPG_OK) {
        shut(opened);
    }
    return status;
}
