/* What why must answer by the fourth request. Shares nothing with the library. */
#ifndef OCTALMURE_CAUSES_H
#define OCTALMURE_CAUSES_H

#include <stddef.h>
#include <stdint.h>

/* As oracle_check; 6 is answered with the count of the numbers that were written, and otherwise 4. */
uint32_t oracle_why(const uint8_t *file, size_t length, uint32_t record, uint8_t *output, size_t output_length, uint8_t *answer,
                    size_t answer_length);
/* How many numbers the chain of each record of an accepted run has; room for 512 is lent. Returns how many records there are. */
uint32_t oracle_chain_lengths(const uint8_t *file, size_t length, uint32_t *lengths);

#endif
