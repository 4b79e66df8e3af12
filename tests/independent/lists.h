/* Lists of records, by chance, as they stand in a file or as lines of a table; and the text of such lines. */
#ifndef OCTALMURE_LISTS_H
#define OCTALMURE_LISTS_H

#include <stddef.h>
#include <stdint.h>

#include "chance.h"
#include "entries.h"

enum { MOST_RECORD_LINES = 520, RECORD_NUMBERS = 6 };

typedef struct {
    Record records[MOST_RECORD_LINES];
    uint32_t count;
} List;

uint32_t any_number(Chance *chance);
/* The six numbers of a record by their places. */
uint32_t *number_of(Record *record, uint32_t which);

/* By task and job, strictly; the least task is at least 1, and some tasks are on both sides of 2^31. */
void rising_list(List *list, uint32_t count, Chance *chance);
/* No two are of one job in these: texts that run into each other or numbers that differ in one bit; numbers at the borders of text,
   and the greatest among them; so many jobs of few tasks, or jobs that differ in one number alone. */
void alike_list(List *list, Chance *chance);
void border_list(List *list, Chance *chance);
void full_list(List *list, uint32_t count, Chance *chance);
/* Rising, and every number has ten digits. */
void longest_list(List *list, Chance *chance);

/* Of each job only its first record stays. */
void keep_jobs_once(List *list);
void shuffle(List *list, Chance *chance);
void sort_by_start(List *list);

/* The header with its line feed, and the table of a list; both return how many bytes they wrote. */
extern const char table_header[];
enum { HEADER_LINE_BYTES = 32 };
size_t put_table(uint8_t *table, const List *list);
/* A number and the byte behind it. */
size_t put_decimal(uint8_t *at, uint32_t number, uint8_t behind);

#endif
