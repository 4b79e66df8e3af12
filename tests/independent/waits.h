/* What request 5 promises of every accepted run: N times a job's wait from ready to start is at most the sum of the lengths of all
   other records. */
#ifndef OCTALMURE_WAITS_H
#define OCTALMURE_WAITS_H

#include <stdbool.h>
#include <stddef.h>
#include <stdint.h>

#include "entries.h"

/* Of a record of an accepted run: its wait, and N times that; of all other records what they took, and what they may take at most,
   added up. */
typedef struct {
    uint64_t wait, on_cores, lengths, greatest;
} Bound;

/* Of all records of an accepted file. Returns how many there are. */
uint32_t oracle_bounds(const uint8_t *file, size_t length, Bound bounds[MOST_JOBS]);

/* Says what is wrong with the waits of an accepted file; NULL if nothing is. The second reads it tick by tick, of few records and
   small times. */
const char *waits_wrong(const uint8_t *file, size_t length);
const char *waits_wrong_by_ticks(const uint8_t *file, size_t length);
/* Whether two files have the same cores, horizon and tasks; of two accepted ones, what the other's greatest times say of the first. */
bool of_one_set(const uint8_t *file, size_t length, const uint8_t *other, size_t other_length);
const char *waits_wrong_by_set(const uint8_t *file, size_t length, const uint8_t *other, size_t other_length);

#endif
