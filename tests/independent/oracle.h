/* What check and carry must answer by the paper. Shares nothing with the library. */
#ifndef OCTALMURE_ORACLE_H
#define OCTALMURE_ORACLE_H

#include <stddef.h>
#include <stdint.h>

/* Both return the answer number, 0 to 5, and write the five numbers into the first 20 bytes of the answer slice. An answer slice
   of fewer bytes is met first of all: 4 is returned and no byte changes. */
uint32_t oracle_check(const uint8_t *file, size_t length, uint8_t *answer, size_t answer_length);
uint32_t oracle_carry(const uint8_t *file, size_t length, uint32_t horizon, uint8_t *output, size_t output_length, uint8_t *answer,
                      size_t answer_length);

#endif
