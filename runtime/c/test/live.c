/* live PACK NAME STREAM [TABLE]: does what `cpgc live` does, by cpg_node: with the table that it makes of the pack, or with that of
 * tools/c-table, which is the shared object TABLE. */
#include "host.h"

#include <inttypes.h>
#include <stdio.h>

enum { FRAME, END, CLOSE };
#define RECORD 14U

typedef struct {
    uint8_t kind;
    uint64_t time;
    uint16_t item;
    uint16_t number;
    uint8_t value;
} record;

static cpg_opened opened;
static cpg_node node;

static record read_record(const uint8_t *bytes)
{
    record it;
    it.kind = bytes[0];
    it.time = host_number(bytes + 1, 8U);
    it.item = (uint16_t)host_number(bytes + 9, 2U);
    it.number = (uint16_t)host_number(bytes + 11, 2U);
    it.value = bytes[13];
    return it;
}

/* Takes all turns up to and at an instant, and writes their acts. */
static void take_turns(uint64_t until)
{
    cpg_event event;
    while (cpg_poll(&node, until, &event)) {
        if ((event.kind == CPG_START) || (event.kind == CPG_SEND)) {
            (void)printf("%" PRIu64 " %s\n", event.time, host_item(event.item));
        } else {
            /* cpgc has no watch */
        }
    }
}

static bool is_unkind(record it)
{
    bool tells = (it.item != 0U) || (it.number != 0U) || (it.value != 0U);
    return (it.kind > CLOSE) || (it.value > 1U) || ((it.kind == CLOSE) && tells)
        || ((it.kind == FRAME) && (it.value == 1U) && (it.item < node.table->broadcast));
}

static int refuse(uint32_t number, const char *why)
{
    (void)fflush(stdout);
    (void)fprintf(stderr, "cpgc: refused 21 stream %" PRIu32 " %s\n", number, why);
    return 4;
}

static int run(const uint8_t *bytes, uint32_t size)
{
    uint64_t last = 0U;
    for (uint32_t number = 0U;; number++) {
        uint32_t at = number * RECORD;
        if ((size - at) < RECORD) {
            return refuse(number, "length");
        }
        record it = read_record(bytes + at);
        if (is_unkind(it)) {
            return refuse(number, "kind");
        }
        if (it.time < last) {
            return refuse(number, "order");
        }
        last = it.time;
        if ((it.kind == CLOSE) || (it.time > 0U)) {
            take_turns((it.kind == CLOSE) ? it.time : (it.time - 1U));
        }
        if (it.kind == CLOSE) {
            if ((size - at) > RECORD) {
                return refuse(number + 1U, "length");
            }
            (void)printf("closed %" PRIu64 "\n", it.time);
            return 0;
        }
        if ((it.kind == FRAME) && (cpg_hear(&node, it.time, it.item, it.number, it.value) != CPG_OK)) {
            return refuse(number, "frame");
        }
        if ((it.kind == END) && (cpg_ended(&node, it.time, it.item, it.number, it.value) != CPG_OK)) {
            return refuse(number, "end");
        }
    }
}

int main(int count, char **words)
{
    uint32_t size;
    uint32_t length;
    if (count < 4) {
        (void)fprintf(stderr, "live PACK NAME STREAM [TABLE]\n");
        return 1;
    }
    const uint8_t *pack = host_file(words[1], &size);
    host_open(&opened, pack, size, words[2]);
    cpg_begin(&node, (count > 4) ? host_table(words[4], &opened) : &opened.table);
    const uint8_t *stream = host_file(words[3], &length);
    return run(stream, length);
}
