/* What the test programs share: files, names of a pack, and lines as cpgc writes them. Not for a node. */
#ifndef HOST_H
#define HOST_H

#include "../cpg_open.h"

#define HOST_MOST_BYTES 268435457U

/* The bytes of a file: exits with status 2, as cpgc does, where it can't be read. They are never freed. */
const uint8_t *host_file(const char *path, uint32_t *size);

/* A number of some bytes, the highest first. */
uint64_t host_number(const uint8_t *bytes, uint32_t count);

/* Makes the table of a node, or exits with the line and status of cpgc. */
void host_open(cpg_opened *opened, const uint8_t *pack, uint32_t size, const char *name);

/* A part of the head of the pack that was opened last, as text. */
const char *host_node_name(uint32_t number);
const char *host_process_name(uint32_t process);

/* An item of it as a line names it: `start NAME`, `send eN` or `tell NAME`. */
const char *host_item(uint16_t item);

/* The constants of tools/c-table that were built as a shared object. Exits where they aren't there, or are another table than the
 * one that cpg_open has made of the pack. */
const cpg_table *host_table(const char *path, const cpg_opened *opened);

#endif
