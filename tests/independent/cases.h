/* Cases by seed: permitted runs, runs that break each rule narrowly, files that are refused, and what to carry them to. */
#ifndef OCTALMURE_CASES_H
#define OCTALMURE_CASES_H

#include <stdbool.h>
#include <stddef.h>
#include <stdint.h>

enum { MOST_CASE_BYTES = 20000, MOST_OUTPUT_BYTES = 14000, MOST_ANSWER_BYTES = 40 };

typedef struct {
    uint8_t file[MOST_CASE_BYTES];
    size_t length;
    uint32_t horizon; /* what it is carried to */
    size_t output_length, check_answer_length, carry_answer_length;
    bool permitted; /* the untouched run of a server without a fault: it must be accepted */
} Case;

/* Case number n of a seed does not depend on the cases before it. */
void make_case(uint64_t seed, uint64_t number, Case *made);

#endif
