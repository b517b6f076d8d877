/* unit PAIR BRANCHING: what a node answers where it is called wrongly or a premise breaks, by the packs of two examples. Writes
 * each check that fails, and a count. */
#include "host.h"

#include <stdio.h>
#include <string.h>

static cpg_opened opened;
static cpg_node node;
static cpg_event event;
static int done;
static int failed;

static void check(bool holds, int at)
{
    done++;
    if (!holds) {
        failed++;
        (void)printf("unit.c:%d: check failed\n", at);
    }
}

#define CHECK(holds) check((holds), __LINE__)

static bool is_event(cpg_kind kind, uint64_t time, uint16_t item, uint16_t column)
{
    return (event.kind == kind) && (event.time == time) && (event.item == item) && (event.column == column);
}

/* N2 of the pair: B waits for column 0 of e0 at 50, or column 1 at 90. Items: 0 A, 1 B, 2 e0. */
static void receiver(const uint8_t *pack, uint32_t size)
{
    CHECK(cpg_open(&opened, pack, size, "N2", 2U) == CPG_OK);
    cpg_begin(&node, &opened.table);
    CHECK(cpg_next(&node) == 50U);
    CHECK(cpg_hear(&node, 90U, 2U, 1U, 0U) == CPG_ORDER);               /* the turn at 50 is still to be taken */
    CHECK(!cpg_poll(&node, 49U, &event));
    CHECK(cpg_hear(&node, 50U, 2U, 1U, 0U) == CPG_FRAME);               /* column 1 doesn't arrive then */
    CHECK(cpg_hear(&node, 50U, 1U, 0U, 0U) == CPG_FRAME);               /* a start is no frame */
    CHECK(cpg_hear(&node, 50U, 2U, 9U, 0U) == CPG_FRAME);
    CHECK(cpg_hear(&node, 50U, 65535U, 65535U, 255U) == CPG_FRAME);
    CHECK(cpg_ended(&node, 50U, 1U, 0U, 0U) == CPG_END);                /* it doesn't run */
    CHECK(cpg_hear(&node, 50U, 2U, 0U, 0U) == CPG_OK);
    CHECK(cpg_hear(&node, 50U, 2U, 0U, 0U) == CPG_OK);                  /* a frame may come again */
    CHECK(cpg_poll(&node, 50U, &event) && is_event(CPG_START, 50U, 1U, 0U));
    CHECK(!cpg_poll(&node, 50U, &event));
    CHECK(cpg_hear(&node, 50U, 2U, 0U, 0U) == CPG_ORDER);               /* its turn has been taken */
    CHECK(cpg_ended(&node, 50U, 1U, 0U, 0U) == CPG_END);                /* not before it ran for a while */
    CHECK(cpg_ended(&node, 66U, 1U, 0U, 0U) == CPG_END);                /* too late for no fault */
    CHECK(cpg_ended(&node, 60U, 1U, 2U, 0U) == CPG_END);                /* more faults than k */
    CHECK(cpg_ended(&node, 60U, 1U, 0U, 1U) == CPG_END);                /* it has no condition */
    CHECK(cpg_ended(&node, 60U, 0U, 0U, 0U) == CPG_END);                /* A runs elsewhere */
    CHECK(cpg_ended(&node, 60U, 65535U, 0U, 0U) == CPG_END);
    CHECK(cpg_ended(&node, 60U, 1U, 0U, 0U) == CPG_OK);
    CHECK(cpg_ended(&node, 60U, 1U, 0U, 0U) == CPG_END);                /* it has told its end */
    CHECK(cpg_next(&node) == 65U);
    CHECK(!cpg_poll(&node, UINT64_MAX, &event));
    CHECK(cpg_next(&node) == CPG_NEVER);
    cpg_begin(&node, &opened.table);
    CHECK(cpg_next(&node) == 50U);
    CHECK(!cpg_poll(&node, 89U, &event));
    CHECK(cpg_hear(&node, 90U, 2U, 1U, 0U) == CPG_OK);
    CHECK(cpg_poll(&node, 1000U, &event) && is_event(CPG_START, 90U, 1U, 1U));
    CHECK(cpg_poll(&node, 1000U, &event) && is_event(CPG_OVERRUN, 122U, 1U, 0U));
    CHECK(!cpg_poll(&node, 1000U, &event));
    cpg_begin(&node, &opened.table);
    CHECK(cpg_poll(&node, 1000U, &event) && is_event(CPG_MISSING, 90U, 2U, 1U));
    CHECK(!cpg_poll(&node, 1000U, &event));
}

/* N1 of the pair: A starts at 0. An end that is told after the turn of its planned end is too late. */
static void sender(const uint8_t *pack, uint32_t size)
{
    CHECK(cpg_open(&opened, pack, size, "N1", 2U) == CPG_OK);
    cpg_begin(&node, &opened.table);
    CHECK(cpg_poll(&node, 0U, &event) && is_event(CPG_START, 0U, 0U, 0U));
    CHECK(!cpg_poll(&node, 39U, &event));
    CHECK(cpg_ended(&node, 30U, 0U, 0U, 0U) == CPG_OK);
    CHECK(cpg_poll(&node, 100U, &event) && is_event(CPG_SEND, 40U, 2U, 0U));
    CHECK(!cpg_poll(&node, 100U, &event));
    cpg_begin(&node, &opened.table);
    CHECK(cpg_poll(&node, 0U, &event));
    CHECK(!cpg_poll(&node, 50U, &event));
    CHECK(cpg_ended(&node, 30U, 0U, 0U, 0U) == CPG_ORDER);
    CHECK(cpg_ended(&node, 30U, 0U, 1U, 0U) == CPG_OK);
    CHECK(cpg_poll(&node, 100U, &event) && is_event(CPG_SEND, 80U, 2U, 1U));
    cpg_begin(&node, &opened.table);
    CHECK(cpg_poll(&node, 0U, &event));
    cpg_begin(&node, &opened.table);                                                   /* a cycle that is broken off leaves nothing */
    CHECK(cpg_next(&node) == 0U);
    CHECK(cpg_ended(&node, 30U, 0U, 0U, 0U) == CPG_END);
}

/* N2 of branching hears the value of A at 50, in an `always` column, and e0 at 70 where it is true. Items: 4 e0, 8 the value. */
static void values(const uint8_t *pack, uint32_t size)
{
    CHECK(cpg_open(&opened, pack, size, "N2", 2U) == CPG_OK);
    cpg_begin(&node, &opened.table);
    CHECK(cpg_hear(&node, 50U, 8U, 0U, 2U) == CPG_FRAME);               /* no value */
    CHECK(cpg_hear(&node, 50U, 8U, 0U, 0U) == CPG_OK);
    CHECK(cpg_hear(&node, 50U, 8U, 0U, 1U) == CPG_FRAME);               /* it has been told as false */
    CHECK(!cpg_poll(&node, 69U, &event));
    CHECK(cpg_hear(&node, 70U, 4U, 0U, 0U) == CPG_FRAME);               /* sent where it is true */
    CHECK(cpg_hear(&node, 70U, 7U, 0U, 0U) == CPG_OK);
    CHECK(cpg_poll(&node, 70U, &event) && is_event(CPG_START, 70U, 3U, 0U));
    cpg_begin(&node, &opened.table);
    CHECK(cpg_poll(&node, 69U, &event) && is_event(CPG_MISSING, 50U, 8U, 0U));
    cpg_begin(&node, &opened.table);
    CHECK(cpg_hear(&node, 50U, 8U, 0U, 1U) == CPG_OK);
    CHECK(cpg_poll(&node, 70U, &event) && is_event(CPG_MISSING, 70U, 4U, 0U));
    CHECK(cpg_poll(&node, 70U, &event) && is_event(CPG_START, 70U, 1U, 0U));    /* the table asks for no message, but for a time */
}

/* A node whose pack was refused does nothing. */
static void refused(const uint8_t *pack, uint32_t size)
{
    CHECK(cpg_open(&opened, pack, size - 1U, "N2", 2U) == CPG_PACK);
    CHECK(opened.bad == (size - 1U));
    CHECK(cpg_open(&opened, pack, 0U, "N2", 2U) == CPG_PACK);
    CHECK(opened.bad == 0U);
    CHECK(cpg_open(&opened, pack, CPG_MAX_SIZE + 1U, "N2", 2U) == CPG_LONG);
    CHECK(cpg_open(&opened, pack, size, "N2", 1U) == CPG_NODE);
    CHECK(cpg_open(&opened, pack, size, "", 0U) == CPG_NODE);
    CHECK(cpg_open(&opened, pack, size, "a name that is longer than thirty-two bytes", 43U) == CPG_NODE);
    cpg_begin(&node, &opened.table);
    CHECK(cpg_next(&node) == CPG_NEVER);
    CHECK(!cpg_poll(&node, UINT64_MAX, &event));
    CHECK(cpg_hear(&node, 50U, 2U, 0U, 0U) != CPG_OK);
    CHECK(cpg_ended(&node, 50U, 0U, 0U, 0U) == CPG_END);
}

int main(int count, char **words)
{
    uint32_t size;
    uint32_t other;
    if (count < 3) {
        (void)fprintf(stderr, "unit PAIR BRANCHING\n");
        return 1;
    }
    const uint8_t *pair = host_file(words[1], &size);
    const uint8_t *branching = host_file(words[2], &other);
    receiver(pair, size);
    sender(pair, size);
    values(branching, other);
    refused(pair, size);
    (void)printf("%d checks, %d wrong\n", done, failed);
    return (failed > 0) ? 1 : 0;
}
