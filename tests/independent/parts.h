/* What the parts of the oracle share: a run as it stands in a file, and an answer as it is said. */
#ifndef OCTALMURE_PARTS_H
#define OCTALMURE_PARTS_H

#include <stddef.h>
#include <stdint.h>

#include "entries.h"

enum { ANSWER_BYTES = 20 };

/* The answers by their numbers. What writes a file or a table is answered with WRITTEN, and what writes a chain with the last. */
enum { ACCEPTED, LATE_BEFORE_HORIZON, LATE_FROM_HORIZON, RULE_BROKEN, REFUSED, WRITTEN, CHAIN };

typedef struct {
    uint32_t cores, horizon, task_count, record_count;
    Task tasks[MOST_TASKS];
    Record records[MOST_JOBS];
} Run;

typedef struct {
    uint32_t answer, code, place[3];
} Answer;

/* The refusal with this number, and the first number of its place; the others are 0. */
static inline Answer refusal(uint32_t number, uint32_t place) {
    return (Answer){.answer = REFUSED, .code = number, .place = {place, 0, 0}};
}

/* Reads the run of a file. Says why the file is refused, or some other answer. */
Answer oracle_read(const uint8_t *file, size_t length, Run *run);
/* Says which rule the run breaks, and where, or what is late of it. */
Answer oracle_judge(const Run *run);
/* How many bytes the file of a run has, and the file. */
size_t oracle_size(const Run *run);
void oracle_write(const Run *run, uint8_t *bytes);
/* Writes the five numbers into the first ANSWER_BYTES bytes of the answer slice, and returns the first of them. */
uint32_t oracle_say(Answer said, uint8_t *answer);

#endif
