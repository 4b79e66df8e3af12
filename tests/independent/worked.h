/* The runs that the paper works by hand, C1 to C12, with the paper's own answers. */
#ifndef OCTALMURE_WORKED_H
#define OCTALMURE_WORKED_H

#include <stdbool.h>
#include <stddef.h>
#include <stdint.h>

#include "subject.h"

typedef struct {
    uint64_t passed, failed;
} Counted;

/* Whether the subject says the five numbers of a file, which is given as its numbers; of a carry, whether it writes what is
   expected too. What is not as expected is told by the name. */
bool check_says(const Subject *subject, const char *name, const uint32_t *numbers, size_t count, const uint32_t *expected);
bool carry_says(const Subject *subject, const char *name, const uint32_t *numbers, size_t count, uint32_t horizon,
                const uint32_t *expected, const uint32_t *carried, size_t carried_count);

/* Of a chain: whether it writes these numbers, and nothing else. */
bool why_says(const Subject *subject, const char *name, const uint32_t *numbers, size_t count, uint32_t record,
              const uint32_t *expected, const uint32_t *chain, size_t chain_count);

Counted try_worked_runs(const Subject *subject);

#endif
