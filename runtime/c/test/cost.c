/* Counts the instructions of the calls of a node on an emulated Cortex-M3, for tools/test-runtime --arm. The emulator lets time go on with each
 * instruction alone, and SysTick counts that. The node is told a stream, as cpgc live is, and polled at each instant. */
#include "../cpg_node.h"
#include "../cpg_table.h"

#include <stdint.h>

#define REGISTER(address) (*(volatile uint32_t *)(address))
#define SYSTICK_CONTROL REGISTER(0xE000E010U)
#define SYSTICK_RELOAD REGISTER(0xE000E014U)
#define SYSTICK_VALUE REGISTER(0xE000E018U)
#define SYSTICK_MOST 0xFFFFFFU
#define SEMIHOSTING_WRITE 0x04U
#define SEMIHOSTING_EXIT 0x18U
#define SEMIHOSTING_GOOD 0x20026U
#define RECORD 14U
#define MEASURED 1000U                  /* instructions that are taken as a measure */

enum { BEGIN, POLL, HEAR, ENDED, NEXT, INSTANT, COUNTS };

extern const uint8_t cost_stream[];
extern const uint32_t cost_records;

void board_exit(uint32_t reason);
void systick_handler(void);
int main(void);

static cpg_node node;
static uint32_t most[COUNTS];           /* of SysTick's ticks */
static uint32_t begun;
static uint32_t empty;                  /* ticks of no call */
static uint32_t instant;                /* of the calls of this instant */

static uint32_t semihosting(uint32_t what, const void *with)
{
    register uint32_t call __asm__("r0") = what;
    register const void *about __asm__("r1") = with;
    __asm__ volatile("bkpt 0xAB" : "+r"(call) : "r"(about) : "memory");
    return call;
}

void board_exit(uint32_t reason)
{
    (void)semihosting(SEMIHOSTING_EXIT, (const void *)(uintptr_t)reason);
}

void systick_handler(void)
{
}

static void begin(void)
{
    begun = SYSTICK_VALUE;
}

static void end(uint32_t what)
{
    uint32_t ticks = ((begun - SYSTICK_VALUE) & SYSTICK_MOST) - empty;
    instant += ticks;
    if (ticks > most[what]) {
        most[what] = ticks;
    }
}

static void measure(void)
{
    begin();
    empty = (begun - SYSTICK_VALUE) & SYSTICK_MOST;
}

static uint32_t ticks_of_measured(void)
{
    begin();
    __asm__ volatile(".rept 1000\n nop\n .endr");
    return ((begun - SYSTICK_VALUE) & SYSTICK_MOST) - empty;
}

static void over(void)
{
    if (instant > most[INSTANT]) {
        most[INSTANT] = instant;
    }
    instant = 0U;
}

static uint64_t number_at(const uint8_t *from, uint32_t bytes)
{
    uint64_t number = 0U;
    for (uint32_t i = 0U; i < bytes; i++) {
        number = (number << 8) | from[i];
    }
    return number;
}

static void poll(uint64_t now)
{
    cpg_event event;
    bool more = true;
    while (more) {
        begin();
        more = cpg_poll(&node, now, &event);
        end(POLL);
    }
    over();
}

/* All turns before a time. */
static void turns_before(uint64_t time)
{
    for (uint64_t next = cpg_next(&node); next < time; next = cpg_next(&node)) {
        poll(next);
    }
}

static void take(const uint8_t *record)
{
    uint64_t time = number_at(&record[1], 8U);
    uint16_t item = (uint16_t)number_at(&record[9], 2U);
    uint16_t number = (uint16_t)number_at(&record[11], 2U);
    turns_before(time);
    if (record[0] == 0U) {
        begin();
        (void)cpg_hear(&node, time, item, number, record[13]);
        end(HEAR);
    } else if (record[0] == 1U) {
        begin();
        (void)cpg_ended(&node, time, item, number, record[13]);
        end(ENDED);
    } else {
        poll(time);
    }
}

static void write(const char *name, uint32_t number)
{
    char line[40];
    char digits[12];
    uint32_t at = 0U;
    uint32_t count = 0U;
    while (name[at] != '\0') {
        line[at] = name[at];
        at++;
    }
    do {
        digits[count] = (char)('0' + (number % 10U));
        count++;
        number /= 10U;
    } while (number > 0U);
    line[at] = ' ';
    at++;
    while (count > 0U) {
        count--;
        line[at] = digits[count];
        at++;
    }
    line[at] = '\n';
    line[at + 1U] = '\0';
    (void)semihosting(SEMIHOSTING_WRITE, line);
}

int main(void)
{
    static const char *const names[COUNTS] = { "cpg_begin", "cpg_poll", "cpg_hear", "cpg_ended", "cpg_next", "instant" };
    uint32_t unit;
    SYSTICK_RELOAD = SYSTICK_MOST;
    SYSTICK_VALUE = 0U;
    SYSTICK_CONTROL = 5U;               /* on, by the processor's clock, without its interrupt */
    measure();
    unit = ticks_of_measured();
    begin();
    cpg_begin(&node, &cpg_node_table);
    end(BEGIN);
    begin();
    (void)cpg_next(&node);
    end(NEXT);
    instant = 0U;
    for (uint32_t i = 0U; i < cost_records; i++) {
        take(&cost_stream[i * RECORD]);
    }
    for (uint32_t i = 0U; i < COUNTS; i++) {
        write(names[i], (uint32_t)((((uint64_t)most[i] * MEASURED) + unit - 1U) / unit));
    }
    board_exit(SEMIHOSTING_GOOD);
    return 0;
}
