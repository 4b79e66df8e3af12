/* The calls, on the bytes of an input. */
#ifndef OCTALMURE_LIBRARY_H
#define OCTALMURE_LIBRARY_H

#include <octalmure.h>
#include <stdio.h>

#include "status.h"

struct octalmure_answer check_bytes(const uint8_t *file, size_t length);
/* The output has room for every run file that is written: OCTALMURE_MOST_FILE_BYTES. */
struct octalmure_answer carry_bytes(const uint8_t *file, size_t length, uint32_t horizon, uint8_t *output);
struct octalmure_answer import_bytes(const uint8_t *file, size_t length, const uint8_t *table, size_t table_length, uint8_t *output);
/* The output has room for every table that is written: OCTALMURE_MOST_TABLE_BYTES. */
struct octalmure_answer export_bytes(const uint8_t *file, size_t length, uint8_t *output);
/* The output has room for every chain: OCTALMURE_MOST_CHAIN_BYTES. */
struct octalmure_answer why_bytes(const uint8_t *file, size_t length, uint32_t record, uint8_t *output);

Status status_of(const struct octalmure_answer *answer);
/* The report's line: the five numbers in decimal, one space between, and a line feed. */
void print_line(FILE *out, const struct octalmure_answer *answer);

#endif
