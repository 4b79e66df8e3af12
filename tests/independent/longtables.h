/* Long tables: far more bytes than the table of a run can have, which an import must still judge line by line from the front. */
#ifndef OCTALMURE_LONGTABLES_H
#define OCTALMURE_LONGTABLES_H

#include "long.h"
#include "tables.h"

enum { LONG_TABLE_KINDS = 13, LONG_TABLE_LENGTHS = 4, LONG_TABLES = LONG_TABLE_KINDS * LONG_TABLE_LENGTHS };

/* Long table number n of a seed, below LONG_TABLES: the table, in room for MOST_LONG_BYTES, and in made its length and all else. */
void make_long_table(uint64_t seed, uint64_t number, TableCase *made, uint8_t *table);

#endif
