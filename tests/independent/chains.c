#include "chains.h"

#include <stdbool.h>

/* Files are given as their numbers: 2, N and H; the task count, and P, B, W, O and J of each task; the record count, and task, job,
   r, s, e and core of each record. */
typedef struct {
    const uint32_t *numbers;
    size_t count;
} Numbers;

#define NUMBERS(...) {(const uint32_t[]){__VA_ARGS__}, sizeof((const uint32_t[]){__VA_ARGS__}) / sizeof(uint32_t)}

/* The chains of all records, one after the other, each behind the count of its numbers. */
typedef struct {
    const char *name;
    Numbers file, chains;
} Worked;

#define SET_S 4, 10, 1, 2, 0, 1, 30, 6, 8, 0, 1, 60, 15, 17, 0, 2, 60, 15, 20, 0, 2
/* One task on two cores, its jobs 0 and 1 before H = 8; the second is released at 4. */
#define TWO_JOBS 2, 2, 8, 1, 4, 1, 9, 0, 0, 2
/* Tasks with one job each: for four ticks from 0 on, and released at 1 and due later. */
#define FIRST 10, 4, 4, 0, 0
#define LATER 20, 1, 2, 1, 0

static const Worked accepted[] = {
    /* records 1 and 2 both wait for the end of record 0, the one as the next job of its task, the other for its core */
    {"C1",
     NUMBERS(2, 2, 20, SET_S, 5, 0, 0, 1, 15, 17, 2, 0, 1, 10, 17, 19, 1, 1, 0, 1, 17, 25, 2, 2, 0, 0, 0, 17, 1, 3, 0, 0, 0, 15, 2),
     NUMBERS(2, 0, 4, 3, 1, 0, 4, 3, 2, 0, 4, 1, 3, 1, 4)},
    {"C2",
     NUMBERS(2, 2, 10, SET_S, 4, 0, 0, 1, 15, 17, 2, 1, 0, 1, 17, 25, 1, 2, 0, 0, 0, 17, 1, 3, 0, 0, 0, 15, 2),
     NUMBERS(2, 0, 3, 2, 1, 2, 1, 2, 1, 3)},
    {"as the one before ends", NUMBERS(TWO_JOBS, 0, 0, 0, 0, 6, 1, 0, 1, 4, 6, 7, 2), NUMBERS(1, 0, 2, 1, 0)},
    {"as the one before ends, on its core", NUMBERS(TWO_JOBS, 0, 0, 0, 0, 6, 1, 0, 1, 4, 6, 7, 1), NUMBERS(1, 0, 2, 1, 0)},
    /* a job that started at its release ends the chain, whatever ended just then */
    {"at its release, the one before over then", NUMBERS(TWO_JOBS, 0, 0, 0, 0, 4, 1, 0, 1, 4, 4, 5, 2), NUMBERS(1, 0, 1, 1)},
    {"at its release, the one before over then on its core",
     NUMBERS(TWO_JOBS, 0, 0, 0, 0, 4, 1, 0, 1, 4, 4, 5, 1),
     NUMBERS(1, 0, 1, 1)},
    {"at its release, the one before over long ago", NUMBERS(TWO_JOBS, 0, 0, 0, 0, 3, 1, 0, 1, 4, 4, 5, 1), NUMBERS(1, 0, 1, 1)},
    {"at its release, another over then on its core",
     NUMBERS(2, 1, 4, 3, 10, 1, 5, 0, 0, 10, 1, 5, 3, 0, 20, 1, 5, 3, 0, 3, 0, 0, 0, 0, 3, 1, 1, 0, 3, 3, 5, 1, 2, 0, 3, 5, 6, 1),
     NUMBERS(1, 0, 1, 1, 2, 2, 1)},
    /* the preceding job comes before the one on the core, where both ended then; where it ended earlier, it is none */
    {"the one before, and another on its core",
     NUMBERS(2, 2, 8, 2, 4, 1, 9, 0, 0, 100, 1, 9, 0, 0, 3, 0, 0, 0, 0, 6, 1, 0, 1, 4, 6, 7, 2, 1, 0, 0, 0, 6, 2),
     NUMBERS(1, 0, 2, 1, 0, 1, 2)},
    {"the one before over before the release",
     NUMBERS(2, 1, 8, 2, 4, 1, 9, 0, 0, 100, 1, 9, 3, 0, 3, 0, 0, 0, 0, 2, 1, 0, 1, 4, 7, 8, 1, 1, 0, 3, 3, 7, 1),
     NUMBERS(1, 0, 2, 1, 2, 1, 2)},
    {"the one before over after the release",
     NUMBERS(2, 2, 8, 3, 4, 1, 9, 0, 0, 8, 1, 50, 0, 0, 8, 1, 9, 0, 0, 4, /* then the records */
             0, 0, 0, 0, 6, 1, 0, 1, 4, 8, 9, 2, 1, 0, 0, 0, 8, 2, 2, 0, 0, 6, 9, 1),
     NUMBERS(1, 0, 2, 1, 2, 1, 2, 2, 3, 0)},
    {"four jobs in turn",
     NUMBERS(2, 2, 8, 1, 2, 1, 5, 0, 0, 4, 0, 0, 0, 0, 5, 1, 0, 1, 2, 5, 10, 2, 0, 2, 4, 10, 15, 1, 0, 3, 6, 15, 16, 2),
     NUMBERS(1, 0, 2, 1, 0, 3, 2, 1, 0, 4, 3, 2, 1, 0)},
    {"a core, and then the one before",
     NUMBERS(2, 1, 4, 2, 2, 1, 3, 0, 0, 20, 1, 3, 1, 0, 3, 0, 0, 0, 0, 3, 1, 0, 1, 2, 3, 6, 1, 1, 0, 1, 6, 7, 1),
     NUMBERS(1, 0, 2, 1, 0, 3, 2, 1, 0)},
    /* the first job's release is the one that was recorded, and not jP + O */
    {"released late",
     NUMBERS(2, 1, 5, 2, 10, 1, 5, 0, 5, 20, 1, 5, 4, 0, 2, 0, 0, 3, 3, 5, 1, 1, 0, 4, 5, 6, 1),
     NUMBERS(1, 0, 2, 1, 0)},
    /* of three that ended at once, the one on the same core */
    {"three over at once",
     NUMBERS(2, 3, 2, 6, FIRST, FIRST, FIRST, LATER, LATER, LATER, 6, /* then the records */
             0, 0, 0, 0, 4, 1, 1, 0, 0, 0, 4, 2, 2, 0, 0, 0, 4, 3, 3, 0, 1, 4, 5, 2, 4, 0, 1, 4, 5, 3, 5, 0, 1, 4, 5, 1),
     NUMBERS(1, 0, 1, 1, 1, 2, 2, 3, 1, 2, 4, 2, 2, 5, 0)},
    {"no record", NUMBERS(2, 1, 1, 1, 1, 1, 1, 1, 0, 0), NUMBERS(0)},
};

typedef struct {
    const char *name;
    Numbers file;
    uint32_t record, refusal;
} Refused;

static const Refused refused[] = {
    {"C5",
     NUMBERS(2, 2, 10, 4, 20, 5, 5, 0, 0, 20, 5, 5, 5, 0, 20, 1, 1, 5, 0, 100, 3, 3, 2, 0, 4, /* then the records */
             0, 0, 0, 0, 5, 1, 1, 0, 5, 5, 10, 1, 2, 0, 5, 5, 6, 2, 3, 0, 2, 6, 9, 2),
     0,
     10},
    {"beside itself", NUMBERS(TWO_JOBS, 0, 0, 0, 0, 6, 1, 0, 1, 4, 5, 6, 2), 0, 10},
    {"beside itself, no such record", NUMBERS(TWO_JOBS, 0, 0, 0, 0, 6, 1, 0, 1, 4, 5, 6, 2), 2, 10},
    {"no core", NUMBERS(2, 0, 8), 0, 3},
};

/* ---- */

static void count(Counted *sum, bool right) {
    sum->passed += right;
    sum->failed += !right;
}

/* Every record in turn, and then the number that is none. */
static void try_accepted(const Subject *subject, const Worked *worked, Counted *sum) {
    const uint32_t *at = worked->chains.numbers, *end = at + worked->chains.count;
    uint32_t record = 0;
    for (; at < end && *at > 0; at += 1 + *at, record++) {
        const uint32_t five[5] = {6, *at, 0, 0, 0};
        count(sum, why_says(subject, worked->name, worked->file.numbers, worked->file.count, record, five, at + 1, *at));
    }
    const uint32_t none[5] = {4, 20, 0, 0, 0};
    count(sum, why_says(subject, worked->name, worked->file.numbers, worked->file.count, record, none, at, 0));
    count(sum, why_says(subject, worked->name, worked->file.numbers, worked->file.count, UINT32_MAX, none, at, 0));
}

Counted try_chains(const Subject *subject) {
    Counted sum = {0, 0};
    for (size_t i = 0; i < sizeof accepted / sizeof *accepted; i++) {
        try_accepted(subject, &accepted[i], &sum);
    }
    for (size_t i = 0; i < sizeof refused / sizeof *refused; i++) {
        const Refused *r = &refused[i];
        const uint32_t five[5] = {4, r->refusal, 0, 0, 0};
        count(&sum, why_says(subject, r->name, r->file.numbers, r->file.count, r->record, five, five, 0));
    }
    return sum;
}
