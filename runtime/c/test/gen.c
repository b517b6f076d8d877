/* gen PACK NODE SEED WILD: writes a stream of records for a node, lawful for the most part. WILD, in percent, is how much isn't. */
#include "host.h"

#include <stdio.h>
#include <stdlib.h>
#include <string.h>

enum { FRAME, END, CLOSE };
#define RECORD 14U
#define MOST_BYTES 200000U

typedef struct {
    uint64_t time;
    uint32_t kind;
    uint16_t item;
    uint16_t number;
    uint8_t value;
} record;

static cpg_opened opened;
static cpg_node node;
static uint64_t state;
static uint8_t out[1U << 18];
static uint32_t size;

/* A number below a bound, 0 where that is 0. */
static uint64_t draw(uint64_t bound)
{
    state = (state * 6364136223846793005U) + 1442695040888963407U;
    uint64_t x = state ^ (state >> 33);
    x *= 0xff51afd7ed558ccdU;
    x ^= x >> 33;
    return (bound > 0U) ? (x % bound) : 0U;
}

static void put(uint64_t number, uint32_t bytes)
{
    for (uint32_t i = bytes; i > 0U; i--) {
        out[size] = (uint8_t)(number >> (8U * (i - 1U)));
        size++;
    }
}

static void put_record(record it)
{
    put(it.kind, 1U);
    put(it.time, 8U);
    put(it.item, 2U);
    put(it.number, 2U);
    put(it.value, 1U);
}

static uint64_t due_time(uint32_t i)
{
    return host_number(opened.table.pack + opened.table.due[i].at, 8U);
}

/* How the execution of a row goes on: when its end is told, where it is. */
typedef struct {
    bool awaited;
    record end;
} plan;

static plan planned[CPG_MAX_OWN];

/* An execution has started: it ends at its end with some faults, or before, or (seldom) never. */
static void plan_end(uint16_t process, uint64_t time)
{
    uint16_t row = 0U;
    while (opened.table.item[row] != process) {
        row++;
    }
    uint16_t faults = (uint16_t)draw((uint64_t)opened.table.k + 1U);
    uint64_t duration = host_number(opened.table.pack + opened.table.process[row].durations + (8U * faults), 8U);
    uint64_t real = (draw(3U) > 0U) ? duration : (1U + draw(duration));
    uint8_t value = (uint8_t)((opened.table.process[row].condition != CPG_NONE) ? draw(2U) : 0U);
    planned[row].end = (record){ time + real, END, process, faults, value };
    planned[row].awaited = (duration > 0U) && (draw(12U) > 0U);
}

/* Takes all turns up to and at an instant. */
static void take_turns(uint64_t until)
{
    cpg_event event;
    while (cpg_poll(&node, until, &event)) {
        if (event.kind == CPG_START) {
            plan_end(event.item, event.time);
        }
    }
}

/* The next instant at which something is told or done. */
static uint64_t next_instant(void)
{
    uint64_t next = cpg_next(&node);
    for (uint16_t row = 0U; row < opened.table.own; row++) {
        if (planned[row].awaited && (planned[row].end.time < next)) {
            next = planned[row].end.time;
        }
    }
    return next;
}

/* Tells a record. A lawless one is left out, but for some where much is to be spoilt. */
static void tell(record it, uint64_t wild)
{
    cpg_status status = (it.kind == END) ? cpg_ended(&node, it.time, it.item, it.number, it.value)
                                         : cpg_hear(&node, it.time, it.item, it.number, it.value);
    if ((status == CPG_OK) || (draw(200U) < wild)) {
        put_record(it);
    }
}

static uint8_t any_value(uint16_t item)
{
    return (uint8_t)((item >= opened.table.broadcast) ? draw(2U) : 0U);
}

/* Tells the ends of an instant, and some of the frames that may arrive then, one of them maybe twice. */
static void tell_instant(uint64_t now, uint64_t wild)
{
    for (uint16_t row = 0U; row < opened.table.own; row++) {
        if (planned[row].awaited && (planned[row].end.time == now)) {
            planned[row].awaited = false;
            tell(planned[row].end, wild);
        }
    }
    for (uint32_t i = node.next; (i < opened.table.dues) && (due_time(i) == now); i++) {
        uint16_t item = opened.table.item[opened.table.due[i].row];
        if ((opened.table.due[i].row >= opened.table.acting) && (draw(4U) > 0U)) {
            record it = { now, FRAME, item, opened.table.due[i].column, any_value(item) };
            tell(it, wild);
            if (draw(20U) == 0U) {
                tell(it, wild);
            }
        }
    }
}

/* Tells something that is mostly lawless. */
static void tell_anything(uint64_t now, uint64_t wild)
{
    if (opened.table.rows > 0U) {
        uint16_t item = opened.table.item[draw(opened.table.rows)];
        uint32_t kind = (uint32_t)draw(2U);
        tell((record){ now + draw(3U), kind, item, (uint16_t)draw(4U), any_value(item) }, wild);
    }
}

static uint64_t records(uint64_t wild)
{
    uint64_t now = 0U;
    for (uint64_t next = next_instant(); (next != CPG_NEVER) && (size < MOST_BYTES) && (draw(60U) > 0U); next = next_instant()) {
        now = next;
        tell_instant(now, wild);
        if (draw(200U) < wild) {
            tell_anything(now, wild);
        }
        take_turns(now);
    }
    return now;
}

/* Spoils the bytes somewhere. */
static void spoil(void)
{
    uint32_t one = (uint32_t)draw(size / RECORD) * RECORD;
    uint32_t other = (uint32_t)draw(size / RECORD) * RECORD;
    switch (draw(6U)) {
    case 0:
        out[draw(size)] ^= (uint8_t)(1U << draw(8U));
        break;
    case 1:
        size = (uint32_t)draw((uint64_t)size + 1U);
        break;
    case 2:
        put(draw(256U), 1U);
        break;
    case 3:
        if (size >= (2U * RECORD)) {
            uint8_t kept[RECORD];
            memcpy(kept, out + one, RECORD);
            memmove(out + one, out + other, RECORD);
            memcpy(out + other, kept, RECORD);
        }
        break;
    case 4:
        if (size >= RECORD) {
            out[one + 9U + draw(5U)] = (uint8_t)draw(4U);
        }
        break;
    default:
        if (size >= (2U * RECORD)) {
            memmove(out + one + RECORD, out + one, size - one);
            size += RECORD;
        }
        break;
    }
}

int main(int count, char **words)
{
    uint32_t length;
    if (count < 5) {
        (void)fprintf(stderr, "gen PACK NODE SEED WILD\n");
        return 1;
    }
    const uint8_t *pack = host_file(words[1], &length);
    uint64_t wild = strtoull(words[4], NULL, 10);
    state = (strtoull(words[3], NULL, 10) * 7919U) + 1U;
    host_open(&opened, pack, length, words[2]);
    cpg_begin(&node, &opened.table);
    uint64_t now = records(wild);
    put_record((record){ now + ((draw(2U) > 0U) ? draw(200U) : 0U), CLOSE, 0U, 0U, 0U });
    if (draw(100U) < wild) {
        for (uint64_t i = 1U + draw(2U); (i > 0U) && (size > 0U); i--) {
            spoil();
        }
    }
    (void)fwrite(out, 1U, size, stdout);
    return 0;
}
