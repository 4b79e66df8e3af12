/* The entries of a run file and the paper's limits, for the checker and for what makes its cases. */
#ifndef OCTALMURE_ENTRIES_H
#define OCTALMURE_ENTRIES_H

#include <stdint.h>

/* How many rules there are, and the greatest refusal; both are numbered from 1. The first eleven refusals are those of check and
   carry; import and export have 12 to 14 too, and why has 20. */
enum { RULES = 9, CARRY_REFUSALS = 11, REFUSALS = 20 };

enum { MOST_CORES = 16, MOST_TASKS = 32, MOST_JOBS = 512, MOST_TICKS = 1000000 };

typedef struct {
    uint32_t period, least, greatest, offset, jitter;
} Task;

typedef struct {
    uint32_t task, job, release, start, end, core;
} Record;

#endif
