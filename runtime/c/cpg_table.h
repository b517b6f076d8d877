/* The table of a node, which tools/c-table writes. */
#ifndef CPG_TABLE_H
#define CPG_TABLE_H

#include "cpg_node.h"

#ifdef __cplusplus
extern "C" {
#endif

extern const cpg_table cpg_node_table;

#ifdef __cplusplus
}
#endif

#endif
