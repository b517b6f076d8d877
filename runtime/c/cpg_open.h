/*
 * Makes the table of a node of a pack, on the target: for packs that are put there apart from the program.
 *
 * Where tools/c-table has written the table, nothing of this is needed.
 */
#ifndef CPG_OPEN_H
#define CPG_OPEN_H

#include "cpg_node.h"

#ifdef __cplusplus
extern "C" {
#endif

/* A table that was made of a pack. It has to stay where it is, since it points to itself. Callers read the first block alone. */
typedef struct {
    cpg_table table;                            /* for cpg_begin: without rows where the answer wasn't CPG_OK */
    uint32_t bad;                               /* see CPG_PACK and CPG_FULL */
    uint8_t nodes;
    uint8_t self;                               /* the number of this node */
    uint16_t edges;

    uint32_t edges_at;                          /* the place of the edges in the pack */
    uint8_t node_of[CPG_MAX_PROCESSES];
    uint8_t told_by[CPG_MAX_CONDITIONS];        /* the process of each condition */
    uint16_t item[CPG_MAX_ROWS];
    cpg_process process[CPG_MAX_OWN];
    cpg_due due[CPG_MAX_COLUMNS];
} cpg_opened;

/*@ predicate cpg_points(cpg_opened *opened) =
        opened->table.item == &opened->item[0] && opened->table.process == &opened->process[0]
        && opened->table.due == &opened->due[0] && opened->table.dues <= CPG_MAX_COLUMNS;
    predicate cpg_is_opened(cpg_opened *opened) =
        \valid(opened) && cpg_points(opened) && cpg_fits(&opened->table)
        && \valid_read(opened->table.pack + (0 .. opened->table.size - 1)); */

/* Makes the table of the first node of a name. The pack has to stay. It takes about c log c steps for c columns. */
/*@ requires \valid(opened);
    requires size <= CPG_MAX_SIZE ==> \valid_read(pack + (0 .. size - 1)) && \separated(opened, pack + (0 .. size - 1));
    requires length <= 32 ==> \valid_read(name + (0 .. length - 1)) && \separated(opened, name + (0 .. length - 1));
    terminates \true;
    assigns *opened;
    ensures cpg_is_opened(opened) && cpg_is_table(&opened->table); */
cpg_status cpg_open(cpg_opened *opened, const uint8_t *pack, uint32_t size, const char *name, uint32_t length);

#ifdef __cplusplus
}
#endif

#endif
