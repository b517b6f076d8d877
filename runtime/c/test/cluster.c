/*
 * cluster PACK WORD ..: nodes, each with its table alone, on a bus that carries (item, column, value), in one scenario. Writes what
 * `cpgc play` writes, but for the line `waits`; and what the watch of a node tells, as TIME NODE overrun|missing ITEM.
 *
 *   slot:NODE=N    the slot of a node lasts so long: its frames are there so much later
 *   fault:NAME=N   so many faults strike a process          value:NAME     the value of its condition is true
 *   length:NAME=N  its execution really runs so long        hang:NAME      its execution doesn't end
 *   lose:ITEM      no frame of this item (a number) arrives
 *
 * The cycle is the second one: in the first nothing fails, every value is false, and all frames come.
 */
#include "host.h"

#include <inttypes.h>
#include <stdio.h>
#include <stdlib.h>
#include <string.h>

#define NODES 16U
#define PROCESSES 128U
#define ITEMS 416U
#define ROOM 8192U

enum { END_LINE, SEND_LINE, START_LINE, WATCH_LINE };

typedef struct {
    uint64_t time;
    bool ends;              /* an execution ends; else a frame arrives */
    uint8_t to;
    uint16_t item;
    uint16_t number;        /* faults or column */
    uint8_t value;
} message;

typedef struct {
    uint64_t time;
    uint8_t node;
    uint16_t kind;
    uint16_t item;
    char text[96];
} line;

static cpg_opened tables[NODES];
static cpg_node nodes[NODES];
static uint8_t count;
static uint16_t faults[PROCESSES];
static uint8_t value[PROCESSES];
static uint64_t length[PROCESSES];
static bool hangs[PROCESSES];
static bool lost[ITEMS];
static uint64_t slot[NODES];
static message queue[ROOM];
static uint32_t queued;
static line lines[ROOM];
static uint32_t told;
static bool plain;          /* the first cycle */

static void add_line(uint64_t time, uint8_t node, uint16_t kind, uint16_t item, const char *text)
{
    if (told < ROOM) {
        lines[told] = (line){ time, node, kind, item, "" };
        (void)snprintf(lines[told].text, sizeof lines[told].text, "%s", text);
        told++;
    }
}

static void add_message(message it)
{
    if (queued < ROOM) {
        queue[queued] = it;
        queued++;
    }
}

static uint8_t number_of(const cpg_node *node)
{
    return (uint8_t)(node - nodes);
}

static bool hears(const cpg_node *node, uint16_t item)
{
    for (uint16_t row = node->table->acting; row < node->table->rows; row++) {
        if (node->table->item[row] == item) {
            return true;
        }
    }
    return false;
}

static void start(const cpg_node *node, uint64_t time, uint16_t process)
{
    const cpg_table *table = node->table;
    uint16_t row = 0U;
    char text[96];
    while (table->item[row] != process) {
        row++;
    }
    bool decides = table->process[row].condition != CPG_NONE;
    uint16_t struck = plain ? 0U : faults[process];
    uint8_t says = (plain || !decides) ? 0U : value[process];
    uint64_t planned = host_number(table->pack + table->process[row].durations + (8U * struck), 8U);
    uint64_t real = (plain || (length[process] == 0U)) ? planned : length[process];
    add_line(time, number_of(node), START_LINE, process, host_item(process));
    if (!plain && hangs[process]) {
        return;
    }
    add_message((message){ time + real, true, number_of(node), process, struck, says });
    int size = snprintf(text, sizeof text, "end %s faults %d", host_process_name(process), struck);
    if (decides) {
        size += snprintf(text + size, sizeof text - (size_t)size, " value %s", (says == 1U) ? "true" : "false");
    }
    if (real < planned) {
        (void)snprintf(text + size, sizeof text - (size_t)size, " ran %" PRIu64, real);
    }
    add_line(time + planned, number_of(node), END_LINE, process, text);
}

static void carry(const cpg_node *node, const cpg_event *event)
{
    add_line(event->time, number_of(node), SEND_LINE, event->item, host_item(event->item));
    for (uint8_t i = 0U; i < count; i++) {
        if (hears(&nodes[i], event->item) && (plain || !lost[event->item])) {
            add_message((message){ event->time + slot[number_of(node)], false, i, event->item, event->column, event->value });
        }
    }
}

static void take_turns(cpg_node *node, uint64_t now)
{
    cpg_event event;
    char text[96];
    while (cpg_poll(node, now, &event)) {
        if (event.kind == CPG_START) {
            start(node, event.time, event.item);
        } else if (event.kind == CPG_SEND) {
            carry(node, &event);
        } else {
            const char *what = (event.kind == CPG_OVERRUN) ? "overrun" : "missing";
            (void)snprintf(text, sizeof text, "%s %s", what, host_item(event.item));
            add_line(event.time, number_of(node), WATCH_LINE, event.item, text);
        }
    }
}

static void deliver(uint64_t now)
{
    uint32_t kept = 0U;
    for (uint32_t i = 0U; i < queued; i++) {
        message it = queue[i];
        if (it.time != now) {
            queue[kept] = it;
            kept++;
        } else {
            cpg_status status = it.ends ? cpg_ended(&nodes[it.to], now, it.item, it.number, it.value)
                                        : cpg_hear(&nodes[it.to], now, it.item, it.number, it.value);
            if (status != CPG_OK) {
                (void)fprintf(stderr, "status %d at %" PRIu64 " on %s\n", (int)status, now, host_node_name(it.to));
            }
        }
    }
    queued = kept;
}

static uint64_t next_instant(void)
{
    uint64_t next = CPG_NEVER;
    for (uint32_t i = 0U; i < queued; i++) {
        next = (queue[i].time < next) ? queue[i].time : next;
    }
    for (uint8_t i = 0U; i < count; i++) {
        uint64_t instant = cpg_next(&nodes[i]);
        next = (instant < next) ? instant : next;
    }
    return next;
}

static void run_cycle(void)
{
    queued = 0U;
    told = 0U;
    for (uint8_t i = 0U; i < count; i++) {
        cpg_begin(&nodes[i], &tables[i].table);
    }
    for (uint64_t now = next_instant(); now != CPG_NEVER; now = next_instant()) {
        deliver(now);
        for (uint8_t i = 0U; i < count; i++) {
            take_turns(&nodes[i], now);
        }
    }
}

static int by_place(const void *one, const void *other)
{
    const line *a = one;
    const line *b = other;
    if (a->time != b->time) {
        return (a->time < b->time) ? -1 : 1;
    }
    if (a->node != b->node) {
        return (int)a->node - (int)b->node;
    }
    return (a->kind != b->kind) ? ((int)a->kind - (int)b->kind) : ((int)a->item - (int)b->item);
}

/* The number of a word's process, where it names one. */
static uint32_t process_of(const char *name, size_t size)
{
    uint32_t process = 0U;
    while ((process < tables[0].table.processes) && ((strlen(host_process_name(process)) != size)
                                              || (strncmp(host_process_name(process), name, size) != 0))) {
        process++;
    }
    if (process >= tables[0].table.processes) {
        (void)fprintf(stderr, "no such process: %s\n", name);
        exit(1);
    }
    return process;
}

static void read_word(const char *word)
{
    const char *name = strchr(word, ':');
    const char *is = strchr(word, '=');
    if (name == NULL) {
        (void)fprintf(stderr, "no such word: %s\n", word);
        exit(1);
    }
    name++;
    size_t size = (is == NULL) ? strlen(name) : (size_t)(is - name);
    uint64_t number = (is == NULL) ? strtoull(name, NULL, 10) : strtoull(is + 1, NULL, 10);
    switch (word[0]) {
    case 's':
        for (uint8_t i = 0U; i < count; i++) {
            if ((strlen(host_node_name(i)) == size) && (strncmp(host_node_name(i), name, size) == 0)) {
                slot[i] = number;
            }
        }
        break;
    case 'f':
        faults[process_of(name, size)] = (uint16_t)number;
        break;
    case 'v':
        value[process_of(name, size)] = 1U;
        break;
    case 'h':
        hangs[process_of(name, size)] = true;
        break;
    case 'l':
        if (word[1] == 'o') {
            lost[number % ITEMS] = true;
        } else {
            length[process_of(name, size)] = number;
        }
        break;
    default:
        (void)fprintf(stderr, "no such word: %s\n", word);
        exit(1);
    }
}

int main(int words, char **word)
{
    uint32_t size;
    uint64_t finish = 0U;
    if (words < 2) {
        (void)fprintf(stderr, "cluster PACK WORD ..\n");
        return 1;
    }
    const uint8_t *pack = host_file(word[1], &size);
    const uint8_t *at = pack + 7;
    count = ((size > 7U) && (pack[6] <= NODES)) ? pack[6] : 0U;
    for (uint8_t i = 0U; i < count; i++) {
        char name[33];
        memcpy(name, at + 1, at[0]);
        name[at[0]] = '\0';
        at += 1 + at[0];
        host_open(&tables[i], pack, size, name);
    }
    for (int i = 2; i < words; i++) {
        read_word(word[i]);
    }
    plain = true;
    run_cycle();
    plain = false;
    run_cycle();
    qsort(lines, told, sizeof lines[0], by_place);
    for (uint32_t i = 0U; i < told; i++) {
        (void)printf("%" PRIu64 " %s %s\n", lines[i].time, host_node_name(lines[i].node), lines[i].text);
        finish = (lines[i].kind == END_LINE) ? lines[i].time : finish;
    }
    (void)printf("finish %" PRIu64 "\n", finish);
    return 0;
}
