/* Rules 7 to 9 and carrying, word by word and tick by tick: too slow for long waits, so only the oracle's own test uses it. */
#ifndef OCTALMURE_LITERAL_H
#define OCTALMURE_LITERAL_H

#include <stdbool.h>
#include <stddef.h>
#include <stdint.h>

/* All three take a file that is not refused; the last two one with few records and small times. */
bool literal_applies(const uint8_t *file);
/* Which of the rules 7, 8 and 9 is the first that a file breaks which breaks none before them, and where; 0 if it breaks none. */
uint32_t literal_broken(const uint8_t *file, uint32_t place[3]);
/* Whether the output is the file, which breaks no rule, carried to the horizon that stands in the output. */
bool literal_carried(const uint8_t *file, const uint8_t *output);

#endif
