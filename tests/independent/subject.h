/* What is tested: the library, or the oracle itself. */
#ifndef OCTALMURE_SUBJECT_H
#define OCTALMURE_SUBJECT_H

#include <stddef.h>
#include <stdint.h>

typedef struct {
    const char *name;
    uint32_t (*check)(const uint8_t *file, size_t length, uint8_t *answer, size_t answer_length);
    uint32_t (*carry)(const uint8_t *file, size_t length, uint32_t horizon, uint8_t *output, size_t output_length, uint8_t *answer,
                      size_t answer_length);
    uint32_t (*import)(const uint8_t *file, size_t length, const uint8_t *table, size_t table_length, uint8_t *output,
                       size_t output_length, uint8_t *answer, size_t answer_length);
    uint32_t (*export)(const uint8_t *file, size_t length, uint8_t *output, size_t output_length, uint8_t *answer,
                       size_t answer_length);
    uint32_t (*why)(const uint8_t *file, size_t length, uint32_t record, uint8_t *output, size_t output_length, uint8_t *answer,
                    size_t answer_length);
} Subject;

#endif
