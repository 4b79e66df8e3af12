/* Long files: far more bytes than a run file can have, which a call must still judge from the front. */
#ifndef OCTALMURE_LONG_H
#define OCTALMURE_LONG_H

#include "cases.h"

enum { LEAST_LONG_BYTES = 100000, MOST_LONG_BYTES = 10000000 };
enum { LONG_KINDS = 10, LONG_LENGTHS = 5, LONG_CASES = LONG_KINDS * LONG_LENGTHS };

/* Long case number n of a seed, below LONG_CASES: the file, in room for MOST_LONG_BYTES, and in made its length and the slices. */
void make_long_case(uint64_t seed, uint64_t number, Case *made, uint8_t *file);

#endif
