/* What import and export must answer by request 1 of document 02. Shares nothing with the library. */
#ifndef OCTALMURE_EXCHANGE_H
#define OCTALMURE_EXCHANGE_H

#include <stddef.h>
#include <stdint.h>

/* Both return the answer number, 4 or 5, and write the five numbers into the first 20 bytes of the answer slice. An answer slice of
   fewer bytes is met first of all: 4 is returned and no byte changes. */
uint32_t oracle_import(const uint8_t *file, size_t length, const uint8_t *table, size_t table_length, uint8_t *output,
                       size_t output_length, uint8_t *answer, size_t answer_length);
uint32_t oracle_export(const uint8_t *file, size_t length, uint8_t *output, size_t output_length, uint8_t *answer,
                       size_t answer_length);

#endif
