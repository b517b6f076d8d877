/* lawful PACK NODE: whether the table that cpg_open makes of a pack is one of which the axioms of cpg_spec.h hold, each by its name */
#include "cpg_open.h"
#include <stdio.h>
#include <string.h>

static cpg_opened opened;
static const cpg_table *const t = &opened.table;
static uint8_t pack[1U << 24];
static unsigned long asked;

#define HOLDS(name, what) do { asked++; if (!(what)) { printf("not: %s\n", name); return false; } } while (0)

static unsigned byte(uint64_t at)
{
    return at < t->size ? t->pack[at] : 0U;
}

static uint64_t big_number(uint64_t at)
{
    uint64_t number = 0U;
    for (unsigned i = 0U; i < 8U; i++) {
        number = number * 256U + byte(at + i);
    }
    return number;
}

static unsigned rank(unsigned row)
{
    return row >= t->acting ? 0U : row < t->own ? 2U : 1U;
}

static bool own_hold(void)
{
    for (unsigned row = 0U; row < t->own; row++) {
        const cpg_process *own = &t->process[row];
        HOLDS("own", t->item[row] < t->processes && (own->condition == CPG_NONE || own->condition < t->conditions));
        HOLDS("own", own->durations + 8U * (t->k + 1U) <= t->size);
        for (unsigned k = 0U; k <= t->k; k++) {
            HOLDS("times", big_number(own->durations + 8U * k) < (UINT64_C(1) << 60));
        }
        for (unsigned other = row + 1U; other < t->own; other++) {
            HOLDS("own_differ", t->item[row] != t->item[other]);
            HOLDS("own_differ", own->condition == CPG_NONE || own->condition != t->process[other].condition);
        }
    }
    return true;
}

static bool others_hold(void)
{
    for (unsigned row = t->own; row < t->rows; row++) {
        HOLDS("others", t->processes <= t->item[row] && t->item[row] < t->broadcast + t->conditions);
    }
    for (unsigned row = t->acting; row < t->rows; row++) {
        for (unsigned other = row + 1U; other < t->rows; other++) {
            HOLDS("hears_differ", t->item[row] != t->item[other]);
        }
    }
    return true;
}

static bool column_holds(uint32_t at)
{
    const unsigned literals = byte(at + 8U);
    HOLDS("columns", at + 9U + 3U * literals <= t->size && big_number(at) < (UINT64_C(1) << 60));
    for (unsigned j = 0U; j < literals; j++) {
        const uint32_t literal = at + 9U + 3U * j;
        const unsigned variable = byte(literal);
        HOLDS("literals", variable < t->processes || (128U <= variable && variable < 128U + t->conditions));
        HOLDS("literals", byte(literal + 1U) <= byte(literal + 2U));
        HOLDS("rising", j == 0U || byte(literal - 3U) < variable);
    }
    return true;
}

static bool order_holds(const cpg_due *one, const cpg_due *other)
{
    const uint64_t first = big_number(one->at), second = big_number(other->at);
    HOLDS("by_time", first <= second);
    if (first == second) {
        HOLDS("by_rank", rank(one->row) <= rank(other->row));
        if (rank(one->row) == rank(other->row)) {
            HOLDS("by_row", one->row < other->row || (one->row == other->row && one->column < other->column));
        }
    }
    return true;
}

static bool dues_hold(void)
{
    for (uint32_t i = 0U; i < t->dues; i++) {
        HOLDS("columns", t->due[i].row < t->rows);
        if (!column_holds(t->due[i].at)) {
            return false;
        }
        for (uint32_t other = i + 1U; other < t->dues; other++) {
            if (!order_holds(&t->due[i], &t->due[other])) {
                return false;
            }
        }
    }
    return true;
}

static bool sizes_hold(void)
{
    HOLDS("sizes", t->size <= CPG_MAX_SIZE && t->k <= 8U && t->processes <= CPG_MAX_PROCESSES && t->conditions <= CPG_MAX_CONDITIONS);
    HOLDS("sizes", t->processes <= t->broadcast && t->broadcast <= 384U && t->own <= CPG_MAX_OWN);
    HOLDS("sizes", t->own <= t->acting && t->acting <= t->rows && t->rows <= CPG_MAX_ROWS && t->dues <= 524288U);
    return true;
}

int main(int count, char **words)
{
    FILE *file = count == 3 ? fopen(words[1], "rb") : NULL;
    size_t size;
    if (file == NULL) {
        return 2;
    }
    size = fread(pack, 1U, sizeof pack, file);
    (void)fclose(file);
    if (cpg_open(&opened, pack, (uint32_t)size, words[2], (uint32_t)strlen(words[2])) != CPG_OK) {
        return 2;
    }
    if (!sizes_hold() || !own_hold() || !others_hold() || !dues_hold()) {
        return 1;
    }
    printf("%s: all axioms hold, %lu instances, %lu columns\n", words[2], asked, (unsigned long)t->dues);
    return 0;
}
