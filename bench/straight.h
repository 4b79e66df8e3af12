/* Import, export and why as a C program would do them that looks for speed: one loop over the text, the C library's sort and
   search, digits by division. They ask nothing of the library, and have no part in its tests but to say the same. Why judges the
   rules by the independent checker, which is what is timed beside check. */
#ifndef OCTALMURE_BENCH_STRAIGHT_H
#define OCTALMURE_BENCH_STRAIGHT_H

#include <stddef.h>
#include <stdint.h>

uint32_t straight_import(const uint8_t *file, size_t length, const uint8_t *table, size_t table_length, uint8_t *output,
                         size_t output_length, uint8_t *answer, size_t answer_length);
uint32_t straight_export(const uint8_t *file, size_t length, uint8_t *output, size_t output_length, uint8_t *answer,
                         size_t answer_length);
uint32_t straight_why(const uint8_t *file, size_t length, uint32_t record, uint8_t *output, size_t output_length, uint8_t *answer,
                      size_t answer_length);

#endif
