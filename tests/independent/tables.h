/* Cases of import and export by seed: files, and tables at every border that the request names. Each table is made from lines that
   are all right, by one fault or two, so that what must be said of it is known from how it was made. */
#ifndef OCTALMURE_TABLES_H
#define OCTALMURE_TABLES_H

#include <stdbool.h>
#include <stddef.h>
#include <stdint.h>

#include "cases.h"

enum { MOST_TABLE_BYTES = 40000, TABLE_ANSWER_BYTES = 40 };

/* Where the records of the file come from. */
typedef enum {
    AS_IN_CASES,    /* the file of the case of this number: refused, broken or permitted */
    WITHOUT_RECORD, /* the others have a setting and tasks that are not refused */
    RISING,
    EQUAL_STARTS,
    EQUAL_JOBS,
    EXCHANGED,
    FALLING_TASKS,
    FULL_FILE,
    LONGEST_TABLE, /* 512 records in which every number has ten digits */
    ORIGINS
} Origin;
const char *origin_name(Origin origin);

/* What is done to the table. */
enum { BORDERS = 53 };
const char *border_name(uint32_t border);

/* What a file that is not refused is refused with for its table, 12, 7 or 13, and the number of the line; 0 and 0 if it is not. */
typedef struct {
    uint32_t refusal, line;
} Expected;

typedef struct {
    uint8_t file[MOST_CASE_BYTES], table[MOST_TABLE_BYTES];
    size_t length, table_length;
    Origin origin;
    uint32_t border;
    Expected expected;
    size_t imported_bytes, exported_bytes; /* what is written, if it is; 0 if that is not known */
    size_t import_room, export_room, import_answer_length, export_answer_length;
} TableCase;

/* Case number n of a seed does not depend on the cases before it. */
void make_table_case(uint64_t seed, uint64_t number, TableCase *made);
/* A file that is not refused, a table with some lines that is imported, and room for what is written. */
void make_right_table(uint64_t seed, uint64_t number, TableCase *made);

#endif
