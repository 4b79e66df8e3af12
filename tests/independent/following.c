#include "following.h"

#include <stdbool.h>

/* Files are given as their numbers: 2, N and H; the task count, and P, B, W, O and J of each task; the record count, and task, job,
   r, s, e and core of each record. */
typedef struct {
    const uint32_t *numbers;
    size_t count;
} File;

#define FILE_OF(...) {(const uint32_t[]){__VA_ARGS__}, sizeof((const uint32_t[]){__VA_ARGS__}) / sizeof(uint32_t)}
#define NO_FILE {(const uint32_t[]){0}, 0}

/* ---- checks ---- */

typedef struct {
    const char *name;
    File file;
    uint32_t five[5];
} Checked;

/* One task on two cores, its jobs 0 and 1 before H = 8, due at 4 and 8; the second is released at 4. */
#define TWO_JOBS 2, 2, 8, 1, 4, 1, 9, 0, 0, 2

static const Checked two_jobs[] = {
    {"as the one before ends", FILE_OF(TWO_JOBS, 0, 0, 0, 0, 6, 1, 0, 1, 4, 6, 7, 2), {1, 1, 0, 0, 0}},
    {"as the one before ends, on its core", FILE_OF(TWO_JOBS, 0, 0, 0, 0, 6, 1, 0, 1, 4, 6, 7, 1), {1, 1, 0, 0, 0}},
    {"a tick before its end", FILE_OF(TWO_JOBS, 0, 0, 0, 0, 6, 1, 0, 1, 4, 5, 6, 2), {3, 9, 1, 0, 0}},
    {"a tick before its end, on its core", FILE_OF(TWO_JOBS, 0, 0, 0, 0, 6, 1, 0, 1, 4, 5, 6, 1), {3, 6, 0, 1, 0}},
    {"at its release", FILE_OF(TWO_JOBS, 0, 0, 0, 0, 6, 1, 0, 1, 4, 4, 5, 2), {3, 9, 1, 0, 0}},
    {"a tick after its end", FILE_OF(TWO_JOBS, 0, 0, 0, 0, 6, 1, 0, 1, 4, 7, 8, 2), {3, 8, 1, 6, 1}},
    {"both at once", FILE_OF(TWO_JOBS, 0, 0, 0, 4, 6, 1, 0, 1, 4, 4, 5, 2), {3, 8, 0, 0, 1}},
    {"the one before over at the release", FILE_OF(TWO_JOBS, 0, 0, 0, 0, 4, 1, 0, 1, 4, 4, 5, 2), {0, 0, 0, 0, 0}},
    {"the one before over at the release, a tick later", FILE_OF(TWO_JOBS, 0, 0, 0, 0, 4, 1, 0, 1, 4, 5, 6, 2), {3, 8, 1, 4, 1}},
    {"the one before over before the release", FILE_OF(TWO_JOBS, 0, 0, 0, 0, 3, 1, 0, 1, 4, 4, 5, 2), {0, 0, 0, 0, 0}},
    {"the one before over before the release, a tick later",
     FILE_OF(TWO_JOBS, 0, 0, 0, 0, 3, 1, 0, 1, 4, 5, 6, 2),
     {3, 8, 1, 4, 1}},
    /* on one core the second job never starts first: it is due later, and the first is ready */
    {"before the one before", FILE_OF(2, 1, 8, 1, 4, 1, 9, 0, 0, 2, 0, 0, 0, 5, 6, 1, 0, 1, 4, 4, 5, 1), {3, 7, 1, 0, 0}},
};

/* The same two jobs, and one of another task, which is released at its O. */
#define AND_ONE_MORE(...) 2, 2, 8, 2, 4, 1, 9, 0, 0, __VA_ARGS__, 0, 3

static const Checked and_one_more[] = {
    /* due later, and started while the second job was released but not ready, as it got ready, or with it */
    {"overtaken a tick before it is ready",
     FILE_OF(AND_ONE_MORE(100, 1, 9, 5), 0, 0, 0, 0, 6, 1, 0, 1, 4, 6, 7, 1, 1, 0, 5, 5, 9, 2),
     {1, 1, 0, 0, 0}},
    {"overtaken as it gets ready",
     FILE_OF(AND_ONE_MORE(100, 1, 9, 6), 0, 0, 0, 0, 6, 1, 0, 1, 4, 7, 8, 1, 1, 0, 6, 6, 9, 2),
     {3, 7, 2, 1, 0}},
    {"started with it", FILE_OF(AND_ONE_MORE(100, 1, 9, 6), 0, 0, 0, 0, 6, 1, 0, 1, 4, 6, 7, 1, 1, 0, 6, 6, 9, 2), {1, 1, 0, 0, 0}},
    {"overtaken at its release, the one before over",
     FILE_OF(AND_ONE_MORE(100, 1, 9, 4), 0, 0, 0, 0, 3, 1, 0, 1, 4, 5, 6, 1, 1, 0, 4, 4, 9, 2),
     {3, 7, 2, 1, 0}},
    {"overtaken a tick before its release",
     FILE_OF(AND_ONE_MORE(100, 1, 9, 3), 0, 0, 0, 0, 3, 1, 0, 1, 4, 4, 5, 1, 1, 0, 3, 3, 9, 2),
     {0, 0, 0, 0, 0}},
    {"beside itself, and overtaken at its release",
     FILE_OF(AND_ONE_MORE(100, 1, 1, 4), 0, 0, 0, 0, 6, 1, 0, 1, 4, 5, 6, 2, 1, 0, 4, 4, 5, 2),
     {3, 9, 1, 0, 0}},
    /* due together: either may go first, and the other core is the idle one */
    {"a tick late, one core taken",
     FILE_OF(AND_ONE_MORE(2, 1, 9, 6), 0, 0, 0, 0, 6, 1, 0, 1, 4, 7, 8, 2, 1, 0, 6, 6, 9, 1),
     {3, 8, 1, 6, 2}},
    /* the first job of a task waits for none, though the record before it is one that runs on */
    {"first of its task",
     FILE_OF(AND_ONE_MORE(100, 1, 9, 0), 0, 0, 0, 0, 6, 1, 0, 1, 4, 6, 7, 1, 1, 0, 0, 0, 3, 2),
     {1, 1, 0, 0, 0}},
};

/* One task on two cores, its jobs 0 to 3 released at 0, 2, 4 and 6, and due at 2, 4, 6 and 8. */
#define FOUR_JOBS 2, 2, 8, 1, 2, 1, 5, 0, 0, 4

static const Checked four_jobs[] = {
    {"each as the one before ends",
     FILE_OF(FOUR_JOBS, 0, 0, 0, 0, 5, 1, 0, 1, 2, 5, 10, 2, 0, 2, 4, 10, 15, 1, 0, 3, 6, 15, 16, 2),
     {1, 4, 0, 0, 0}},
    {"the third a tick early",
     FILE_OF(FOUR_JOBS, 0, 0, 0, 0, 5, 1, 0, 1, 2, 5, 10, 2, 0, 2, 4, 9, 14, 1, 0, 3, 6, 14, 15, 2),
     {3, 9, 2, 0, 0}},
    {"the third a tick early, the last one late",
     FILE_OF(FOUR_JOBS, 0, 0, 0, 0, 5, 1, 0, 1, 2, 5, 10, 2, 0, 2, 4, 9, 14, 1, 0, 3, 6, 15, 16, 2),
     {3, 8, 3, 14, 1}},
    {"the second and the third a tick early",
     FILE_OF(FOUR_JOBS, 0, 0, 0, 0, 5, 1, 0, 1, 2, 4, 9, 2, 0, 2, 4, 8, 13, 1, 0, 3, 6, 13, 14, 2),
     {3, 9, 1, 0, 0}},
    {"the last a tick early",
     FILE_OF(FOUR_JOBS, 0, 0, 0, 0, 2, 1, 0, 1, 2, 2, 4, 1, 0, 2, 4, 4, 8, 1, 0, 3, 6, 7, 8, 2),
     {3, 9, 3, 0, 0}},
    {"each at its release",
     FILE_OF(2, 4, 8, 1, 2, 1, 5, 0, 0, 4, 0, 0, 0, 0, 5, 1, 0, 1, 2, 2, 7, 2, 0, 2, 4, 4, 9, 3, 0, 3, 6, 6, 11, 4),
     {3, 9, 1, 0, 0}},
};

/* Released late by its jitter; ready and no core free; an order and an idling that are told before rule 9. */
static const Checked others[] = {
    {"released long after the one before",
     FILE_OF(2, 1, 11, 1, 10, 1, 9, 0, 5, 2, 0, 0, 0, 0, 2, 1, 0, 1, 12, 12, 13, 1),
     {0, 0, 0, 0, 0}},
    {"no core free when it gets ready",
     FILE_OF(2, 2, 8, 3, 4, 1, 9, 0, 0, 8, 1, 50, 0, 0, 8, 1, 9, 0, 0, 4, /* then the records */
             0, 0, 0, 0, 6, 1, 0, 1, 4, 8, 9, 2, 1, 0, 0, 0, 8, 2, 2, 0, 0, 6, 9, 1),
     {1, 3, 0, 0, 0}},
    {"a tick after a core is free",
     FILE_OF(2, 2, 8, 3, 4, 1, 9, 0, 0, 8, 1, 50, 0, 0, 8, 1, 9, 0, 0, 4, /* then the records */
             0, 0, 0, 0, 6, 1, 0, 1, 4, 9, 10, 2, 1, 0, 0, 0, 8, 2, 2, 0, 0, 6, 9, 1),
     {3, 8, 1, 8, 2}},
    {"rules 7, 8 and 9 broken",
     FILE_OF(2, 3, 8, 3, 4, 1, 9, 0, 0, 100, 1, 9, 0, 0, 8, 1, 9, 0, 0, 4, /* then the records */
             0, 0, 0, 0, 6, 1, 0, 1, 4, 5, 6, 2, 1, 0, 0, 0, 1, 3, 2, 0, 0, 1, 2, 3),
     {3, 7, 2, 3, 0}},
    {"another task beside it",
     FILE_OF(2, 2, 8, 2, 100, 1, 9, 0, 0, 100, 1, 9, 0, 0, 2, 0, 0, 0, 0, 6, 1, 1, 0, 0, 0, 6, 2),
     {0, 0, 0, 0, 0}},
};

/* ---- carries ---- */

typedef struct {
    const char *name;
    File file;
    uint32_t horizon, five[5];
    File carried;
} Carried;

#define TASK 4, 1, 6, 0, 0
#define FAST_TASK 2, 1, 6, 0, 0

static const Carried carries[] = {
    /* core 2 is free throughout, and no job is ready for it */
    {"a core stays idle",
     FILE_OF(2, 2, 1, 1, TASK, 1, 0, 0, 0, 0, 6, 1),
     9,
     {5, 112, 0, 0, 0},
     FILE_OF(2, 2, 9, 1, TASK, 3, 0, 0, 0, 0, 6, 1, 0, 1, 4, 6, 12, 1, 0, 2, 8, 12, 18, 1)},
    {"a core falls free and stays idle",
     FILE_OF(2, 2, 1, 2, TASK, 100, 1, 3, 0, 0, 2, 0, 0, 0, 0, 6, 2, 1, 0, 0, 0, 3, 1),
     5,
     {5, 132, 0, 0, 0},
     FILE_OF(2, 2, 5, 2, TASK, 100, 1, 3, 0, 0, 3, 0, 0, 0, 0, 6, 2, 0, 1, 4, 6, 12, 1, 1, 0, 0, 0, 3, 1)},
    /* H' = H: what starts at H or later runs for its W and on the lowest free core, but not before the one before it has ended */
    {"to H, which the one before outlasts",
     FILE_OF(2, 2, 5, 1, TASK, 2, 0, 0, 0, 0, 6, 1, 0, 1, 4, 6, 7, 2),
     5,
     {5, 88, 0, 0, 0},
     FILE_OF(2, 2, 5, 1, TASK, 2, 0, 0, 0, 0, 6, 1, 0, 1, 4, 6, 12, 1)},
    {"to H, at which the one before ends",
     FILE_OF(2, 2, 6, 1, TASK, 2, 0, 0, 0, 0, 6, 2, 0, 1, 4, 6, 9, 2),
     6,
     {5, 88, 0, 0, 0},
     FILE_OF(2, 2, 6, 1, TASK, 2, 0, 0, 0, 0, 6, 2, 0, 1, 4, 6, 12, 1)},
    /* where the one before was recorded to end is of no account once it starts anew */
    {"to H, the one before not begun",
     FILE_OF(2, 2, 5, 1, FAST_TASK, 3, 0, 0, 0, 0, 6, 1, 0, 1, 2, 6, 7, 2, 0, 2, 4, 7, 8, 1),
     5,
     {5, 112, 0, 0, 0},
     FILE_OF(2, 2, 5, 1, FAST_TASK, 3, 0, 0, 0, 0, 6, 1, 0, 1, 2, 6, 12, 1, 0, 2, 4, 12, 18, 1)},
    {"ready at once and due at once",
     FILE_OF(2, 2, 1, 2, TASK, TASK, 2, 0, 0, 0, 0, 6, 2, 1, 0, 0, 0, 6, 1),
     5,
     {5, 156, 0, 0, 0},
     FILE_OF(2, 2, 5, 2, TASK, TASK, 4, 0, 0, 0, 0, 6, 2, 0, 1, 4, 6, 12, 1, 1, 0, 0, 0, 6, 1, 1, 1, 4, 6, 12, 2)},
    {"one due later goes first",
     FILE_OF(2, 2, 1, 2, TASK, 100, 1, 3, 5, 0, 1, 0, 0, 0, 0, 6, 1),
     6,
     {5, 132, 0, 0, 0},
     FILE_OF(2, 2, 6, 2, TASK, 100, 1, 3, 5, 0, 3, 0, 0, 0, 0, 6, 1, 0, 1, 4, 6, 12, 1, 1, 0, 5, 5, 8, 2)},
    {"one due sooner takes the core",
     FILE_OF(2, 2, 1, 3, TASK, 100, 1, 20, 0, 0, 2, 1, 3, 5, 0, 2, 0, 0, 0, 0, 6, 1, 1, 0, 0, 0, 20, 2),
     6,
     {5, 176, 0, 0, 0},
     FILE_OF(2, 2, 6, 3, TASK, 100, 1, 20, 0, 0, 2, 1, 3, 5, 0, 4, /* then the records */
             0, 0, 0, 0, 6, 1, 0, 1, 4, 9, 15, 1, 1, 0, 0, 0, 20, 2, 2, 0, 5, 6, 9, 1)},
    {"beside itself", FILE_OF(TWO_JOBS, 0, 0, 0, 0, 6, 1, 0, 1, 4, 5, 6, 2), 8, {4, 10, 0, 0, 0}, NO_FILE},
};

/* ---- */

static void count(Counted *sum, bool right) {
    sum->passed += right;
    sum->failed += !right;
}

static void try_checks(const Subject *subject, const Checked *checked, size_t number, Counted *sum) {
    for (size_t i = 0; i < number; i++) {
        const Checked *c = &checked[i];
        count(sum, check_says(subject, c->name, c->file.numbers, c->file.count, c->five));
    }
}

#define TRY_CHECKS(subject, list, sum) try_checks(subject, list, sizeof list / sizeof *list, sum)

Counted try_following_runs(const Subject *subject) {
    Counted sum = {0, 0};
    TRY_CHECKS(subject, two_jobs, &sum);
    TRY_CHECKS(subject, and_one_more, &sum);
    TRY_CHECKS(subject, four_jobs, &sum);
    TRY_CHECKS(subject, others, &sum);
    for (size_t i = 0; i < sizeof carries / sizeof *carries; i++) {
        const Carried *c = &carries[i];
        count(&sum, carry_says(subject, c->name, c->file.numbers, c->file.count, c->horizon, c->five, c->carried.numbers,
                               c->carried.count));
    }
    return sum;
}
