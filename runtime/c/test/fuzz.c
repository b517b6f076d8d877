/* fuzz ROUNDS SEED PACK ..: opens packs, damaged or not, changes their bytes afterwards too, and makes calls with any numbers.
 * Under the sanitizers it has to be silent, and each call to end. Writes how many packs were opened, and how many calls made. */
#include "host.h"

#include <inttypes.h>
#include <stdio.h>
#include <stdlib.h>
#include <string.h>

#define CALLS 100U

static cpg_opened table;
static cpg_node node;
static cpg_event event;
static uint64_t state;
static uint64_t calls;
static uint64_t opened;

static uint64_t draw(uint64_t bound)
{
    state = (state * 6364136223846793005U) + 1442695040888963407U;
    uint64_t x = state ^ (state >> 33);
    x *= 0xff51afd7ed558ccdU;
    x ^= x >> 33;
    return x % bound;
}

/* A number that is mostly small. */
static uint64_t any(void)
{
    switch (draw(4U)) {
    case 0U:
        return draw(4U);
    case 1U:
        return draw(200U);
    case 2U:
        return cpg_next(&node);
    default:
        return state >> draw(64U);
    }
}

static void spoil(uint8_t *bytes, uint32_t size, uint64_t count)
{
    for (uint64_t i = 0U; (i < count) && (size > 0U); i++) {
        bytes[draw(size)] = (uint8_t)((draw(2U) == 0U) ? draw(4U) : draw(256U));
    }
}

static void call(void)
{
    calls++;
    switch (draw(8U)) {
    case 0U:
        if (draw(10U) == 0U) {
            cpg_begin(&node, &table.table);
        }
        break;
    case 1U:
        (void)cpg_next(&node);
        break;
    case 2U:
        (void)cpg_ended(&node, any(), (uint16_t)any(), (uint16_t)any(), (uint8_t)any());
        break;
    case 3U:
    case 4U:
        (void)cpg_hear(&node, any(), (uint16_t)any(), (uint16_t)any(), (uint8_t)any());
        break;
    default:
        (void)cpg_poll(&node, any(), &event);
        break;
    }
}

/* A node's name in a pack, whose head may be damaged, or another one. */
static const char *any_name(const uint8_t *pack, uint32_t size)
{
    static char name[34];
    uint32_t at = 7U;
    uint64_t skipped = draw(4U);
    while ((skipped > 0U) && (at < size)) {
        at += 1U + pack[at];
        skipped--;
    }
    uint32_t length = (at < size) ? pack[at] : 0U;
    if ((length > 33U) || ((at + length) >= size)) {
        length = 0U;
    }
    memcpy(name, pack + ((length > 0U) ? (at + 1U) : 0U), length);
    name[length] = '\0';
    return name;
}

static void round_of(const uint8_t *pack, uint32_t size)
{
    uint32_t cut = (draw(20U) == 0U) ? (uint32_t)draw((uint64_t)size + 1U) : size;
    uint8_t *bytes = malloc((cut > 0U) ? cut : 1U);
    if (bytes == NULL) {
        exit(8);
    }
    memcpy(bytes, pack, cut);
    if (draw(3U) == 0U) {
        spoil(bytes, cut, 1U);
    }
    const char *name = any_name(pack, size);
    opened += (cpg_open(&table, bytes, cut, name, (uint32_t)strlen(name)) == CPG_OK) ? 1U : 0U;
    cpg_begin(&node, &table.table);
    if (draw(2U) == 0U) {
        spoil(bytes, cut, draw(50U));
    }
    for (uint32_t i = 0U; i < CALLS; i++) {
        call();
    }
    free(bytes);
}

int main(int count, char **words)
{
    if (count < 4) {
        (void)fprintf(stderr, "fuzz ROUNDS SEED PACK ..\n");
        return 1;
    }
    uint64_t rounds = strtoull(words[1], NULL, 10);
    state = strtoull(words[2], NULL, 10);
    for (int i = 3; i < count; i++) {
        uint32_t size;
        const uint8_t *pack = host_file(words[i], &size);
        for (uint64_t round = 0U; round < rounds; round++) {
            round_of(pack, size);
        }
    }
    (void)printf("%" PRIu64 " %" PRIu64 "\n", opened, calls);
    return 0;
}
