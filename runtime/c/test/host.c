#include "host.h"

#include <dlfcn.h>
#include <inttypes.h>
#include <stdio.h>
#include <stdlib.h>
#include <string.h>

static const uint8_t *kept[4];     /* so that a sanitizer doesn't take them for lost */
static uint32_t files;

const uint8_t *host_file(const char *path, uint32_t *size)
{
    FILE *file = fopen(path, "rb");
    size_t room = 1U << 16;
    size_t count = 0U;
    uint8_t *bytes = malloc(room);
    if ((file == NULL) || (bytes == NULL)) {
        (void)fprintf(stderr, "cpgc: read fault\n");
        exit(2);
    }
    for (;;) {
        size_t more = fread(bytes + count, 1U, room - count, file);
        count += more;
        if ((more == 0U) || (count >= HOST_MOST_BYTES)) {
            break;
        }
        if (count == room) {
            room *= 2U;
            bytes = realloc(bytes, room);
            if (bytes == NULL) {
                exit(8);
            }
        }
    }
    (void)fclose(file);
    /* just so many bytes, so that a sanitizer sees a byte that is read behind them */
    bytes = realloc(bytes, (count > 0U) ? count : 1U);
    if (bytes == NULL) {
        exit(8);
    }
    kept[files % 4U] = bytes;
    files++;
    *size = (uint32_t)count;
    return bytes;
}

uint64_t host_number(const uint8_t *bytes, uint32_t count)
{
    uint64_t number = 0U;
    for (uint32_t i = 0U; i < count; i++) {
        number = (number << 8) | bytes[i];
    }
    return number;
}

static char node_names[16][33];
static char process_names[128][33];
static const cpg_opened *known;     /* what was opened last */

static const uint8_t *copy_name(char name[33], const uint8_t *at)
{
    memcpy(name, at + 1, at[0]);
    name[at[0]] = '\0';
    return at + 1 + at[0];
}

static void find_names(const cpg_opened *opened)
{
    const cpg_table *table = &opened->table;
    const uint8_t *at = table->pack + 7;
    for (uint32_t i = 0U; i < opened->nodes; i++) {
        at = copy_name(node_names[i], at);
    }
    at++;
    for (uint32_t i = 0U; i < table->processes; i++) {
        at = copy_name(process_names[i], at) + 2 + (8 * (table->k + 1)) + ((table->pack[4] == 2U) ? 16 : 0);
    }
    known = opened;
}

const char *host_node_name(uint32_t number)
{
    return node_names[number];
}

const char *host_process_name(uint32_t process)
{
    return process_names[process];
}

const char *host_item(uint16_t item)
{
    static char text[64];
    const cpg_table *table = &known->table;
    if (item < table->processes) {
        (void)snprintf(text, sizeof text, "start %s", process_names[item]);
    } else if (item < table->broadcast) {
        (void)snprintf(text, sizeof text, "send e%d", item - table->processes);
    } else {
        (void)snprintf(text, sizeof text, "tell %s", process_names[known->told_by[item - table->broadcast]]);
    }
    return text;
}

void host_open(cpg_opened *opened, const uint8_t *pack, uint32_t size, const char *name)
{
    cpg_status status = cpg_open(opened, pack, size, name, (uint32_t)strlen(name));
    if (status == CPG_OK) {
        find_names(opened);
        return;
    }
    if (status == CPG_PACK) {
        (void)fprintf(stderr, "cpgc: refused 10 pack %" PRIu32 "\n", opened->bad);
    } else if (status == CPG_LONG) {
        (void)fprintf(stderr, "cpgc: refused 16 long pack\n");
    } else if (status == CPG_NODE) {
        (void)fprintf(stderr, "cpgc: refused 19 node\n");
    } else {
        (void)fprintf(stderr, "full at %" PRIu32 "\n", opened->bad);
    }
    exit((status == CPG_FULL) ? 9 : 4);
}

static bool has_same_counts(const cpg_table *one, const cpg_table *other)
{
    return (one->dues == other->dues) && (one->own == other->own) && (one->acting == other->acting) && (one->rows == other->rows)
        && (one->broadcast == other->broadcast) && (one->k == other->k) && (one->processes == other->processes)
        && (one->conditions == other->conditions);
}

/* Whether so many bytes of two packs are the same. */
static bool has_same_bytes(const cpg_table *one, uint32_t at, const cpg_table *other, uint32_t there, uint32_t count)
{
    return ((at + count) <= one->size) && ((there + count) <= other->size) && (memcmp(one->pack + at, other->pack + there, count) == 0);
}

static bool has_same_process(const cpg_table *one, const cpg_table *other, uint16_t row)
{
    const cpg_process *own = &one->process[row];
    const cpg_process *its = &other->process[row];
    return (own->condition == its->condition) && has_same_bytes(one, own->durations, other, its->durations, 8U * (one->k + 1U));
}

static bool has_same_due(const cpg_table *one, const cpg_table *other, uint32_t i)
{
    const cpg_due *due = &one->due[i];
    const cpg_due *its = &other->due[i];
    return (due->row == its->row) && (due->column == its->column) && has_same_bytes(one, due->at, other, its->at, 9U)
        && has_same_bytes(one, due->at, other, its->at, 9U + (3U * one->pack[due->at + 8U]));
}

static bool is_same(const cpg_table *one, const cpg_table *other)
{
    bool same = has_same_counts(one, other);
    for (uint16_t row = 0U; same && (row < one->rows); row++) {
        same = one->item[row] == other->item[row];
    }
    for (uint16_t row = 0U; same && (row < one->own); row++) {
        same = has_same_process(one, other, row);
    }
    for (uint32_t i = 0U; same && (i < one->dues); i++) {
        same = has_same_due(one, other, i);
    }
    return same;
}

const cpg_table *host_table(const char *path, const cpg_opened *opened)
{
    void *object = dlopen(path, RTLD_NOW);
    const cpg_table *table = (object != NULL) ? dlsym(object, "cpg_node_table") : NULL;
    if (table == NULL) {
        (void)fprintf(stderr, "no table: %s\n", path);
        exit(7);
    }
    if (!is_same(table, &opened->table)) {
        (void)fprintf(stderr, "another table than that of the pack: %s\n", path);
        exit(7);
    }
    return table;
}
