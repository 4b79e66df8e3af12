#include "bounds.h"

#include <inttypes.h>
#include <stdio.h>

#include "waits.h"

/* Files are given as their numbers: 2, N and H; the task count, and P, B, W, O and J of each task; the record count, and task, job,
   r, s, e and core of each record. */
typedef struct {
    const char *name;
    const uint32_t *numbers;
    size_t count;
    uint32_t said[5]; /* by a check */
    uint32_t record;
    Bound bound; /* its wait, N times that, and the lengths and the greatest times of all others */
} Worked;

#define NUMBERS(...) (const uint32_t[]){__VA_ARGS__}, sizeof((const uint32_t[]){__VA_ARGS__}) / sizeof(uint32_t)

#define SET_S 4, 10, 1, 2, 0, 1, 30, 6, 8, 0, 1, 60, 15, 17, 0, 2, 60, 15, 20, 0, 2
#define C1 NUMBERS(2, 2, 20, SET_S, 5, 0, 0, 1, 15, 17, 2, 0, 1, 10, 17, 19, 1, 1, 0, 1, 17, 25, 2, 2, 0, 0, 0, 17, 1, 3, 0, 0, 0, 15, 2)

/* Two tasks with a job each on one core: the first takes 1 to 5 ticks. */
#define FIRST_AND_SECOND 2, 1, 1, 2, 10, 1, 5, 0, 0, 10, 1, 1, 0, 0, 2
/* Three tasks with a job each on two cores, all due at 3: two take 3 or 4 ticks, the third 1. */
#define TWO_AND_A_THIRD 2, 2, 1, 3, 3, 3, 4, 0, 0, 3, 3, 4, 0, 0, 3, 1, 1, 0, 0, 3

/* Sixteen tasks that take 3 or 4 ticks, and a seventeenth; sixteen jobs at once. */
#define FOUR_TASKS 9, 3, 4, 0, 0, 9, 3, 4, 0, 0, 9, 3, 4, 0, 0, 9, 3, 4, 0, 0
#define JOB(i) i, 0, 0, 0, 3, i + 1
#define FOUR_JOBS(i) JOB(i), JOB(i + 1), JOB(i + 2), JOB(i + 3)
#define SEVENTEEN                                                                                                                  \
    NUMBERS(2, 16, 1, 17, FOUR_TASKS, FOUR_TASKS, FOUR_TASKS, FOUR_TASKS, 9, 1, 1, 0, 0, 17, FOUR_JOBS(0), FOUR_JOBS(4),             \
            FOUR_JOBS(8), FOUR_JOBS(12), 16, 0, 0, 3, 4, 9)

static const Worked worked[] = {
    {"C1", C1, {1, 1, 0, 0, 0}, 0, {14, 28, 42, 47}},
    {"C1", C1, {1, 1, 0, 0, 0}, 1, {0, 0, 42, 47}},
    {"C1", C1, {1, 1, 0, 0, 0}, 2, {16, 32, 36, 41}},
    {"C1", C1, {1, 1, 0, 0, 0}, 3, {0, 0, 27, 32}},
    {"C1", C1, {1, 1, 0, 0, 0}, 4, {0, 0, 29, 29}},
    /* attained: the whole of all others lies in the wait, and on two cores and sixteen they end together */
    {"first short", NUMBERS(FIRST_AND_SECOND, 0, 0, 0, 0, 1, 1, 1, 0, 0, 1, 2, 1), {0}, 1, {1, 1, 1, 5}},
    {"first long", NUMBERS(FIRST_AND_SECOND, 0, 0, 0, 0, 5, 1, 1, 0, 0, 5, 6, 1), {0}, 1, {5, 5, 5, 5}},
    {"two cores",
     NUMBERS(TWO_AND_A_THIRD, 0, 0, 0, 0, 3, 1, 1, 0, 0, 0, 3, 2, 2, 0, 0, 3, 4, 1),
     {2, 1, 2, 0, 0},
     2,
     {3, 6, 6, 8}},
    {"sixteen cores", SEVENTEEN, {0}, 16, {3, 48, 48, 64}},
    /* one less: one of the others goes on for a tick; it is late then, and began before H */
    {"two cores, one for a tick more",
     NUMBERS(TWO_AND_A_THIRD, 0, 0, 0, 0, 4, 1, 1, 0, 0, 0, 3, 2, 2, 0, 0, 3, 4, 2),
     {1, 2, 0, 0, 0},
     2,
     {3, 6, 7, 8}},
    /* released at 3, ready at 9, when the one before ends; from the release it would be 2 * 6 > 9 */
    {"held up", NUMBERS(2, 2, 6, 1, 3, 9, 9, 0, 0, 2, 0, 0, 0, 0, 9, 1, 0, 1, 3, 9, 18, 1), {1, 2, 0, 0, 0}, 1, {0, 0, 9, 9}},
    /* released at 3, ready at 4, and then it waits for another, which is due with it */
    {"held up, and then it waits",
     NUMBERS(2, 1, 4, 2, 3, 4, 4, 0, 0, 6, 2, 2, 0, 0, 3, 0, 0, 0, 0, 4, 1, 0, 1, 3, 6, 10, 1, 1, 0, 0, 4, 6, 1),
     {1, 2, 0, 0, 0},
     1,
     {2, 2, 6, 6}},
    {"alone", NUMBERS(2, 1, 1, 1, 9, 1, 1, 0, 0, 1, 0, 0, 0, 0, 1, 1), {0}, 0, {0, 0, 0, 0}},
};

enum { MOST_NUMBERS = 300 };

static bool has_bound(const Worked *run, const uint8_t *file) {
    static Bound bounds[MOST_JOBS];
    oracle_bounds(file, 4 * run->count, bounds);
    Bound told = bounds[run->record], right = run->bound;
    bool same = told.wait == right.wait && told.on_cores == right.on_cores && told.lengths == right.lengths &&
                told.greatest == right.greatest;
    if (!same) {
        printf("%s, record %" PRIu32 ": wait %" PRIu64 ", on all cores %" PRIu64 ", others took %" PRIu64 ", at most %" PRIu64 "\n",
               run->name, run->record, told.wait, told.on_cores, told.lengths, told.greatest);
    }
    return same;
}

static bool bounded(const Worked *run, const uint8_t *file) {
    const char *wrong = waits_wrong(file, 4 * run->count);
    wrong = wrong != NULL ? wrong : waits_wrong_by_ticks(file, 4 * run->count);
    if (wrong != NULL) {
        printf("%s: %s\n", run->name, wrong);
    }
    return wrong == NULL;
}

Counted try_bounds(const Subject *subject, Near *near) {
    Counted sum = {0, 0};
    for (size_t i = 0; i < sizeof worked / sizeof *worked; i++) {
        const Worked *run = &worked[i];
        uint8_t file[4 * MOST_NUMBERS];
        for (size_t at = 0; at < 4 * run->count; at++) {
            file[at] = (uint8_t)(run->numbers[at / 4] >> (8 * (at % 4)));
        }
        bool right = check_says(subject, run->name, run->numbers, run->count, run->said);
        right = has_bound(run, file) && bounded(run, file) && right;
        meet_waits(near, file, 4 * run->count);
        sum.passed += right;
        sum.failed += !right;
    }
    return sum;
}
