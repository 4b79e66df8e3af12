/* Each call on a thread whose whole stack is 64 KiB, with the most that it can be given. A call that needed more would meet the guard
   page, and the program would end. */
#include <octalmure.h>
#include <pthread.h>
#include <stdio.h>
#include <string.h>

#include "trial.h"

enum { SMALL_STACK = 64 * 1024 };

typedef struct {
    const uint8_t *file; /* to be checked and carried */
    size_t length;
    uint8_t longest[OCTALMURE_MOST_FILE_BYTES]; /* to be exported, and imported again */
    uint8_t output[OCTALMURE_MOST_FILE_BYTES], table[OCTALMURE_MOST_TABLE_BYTES], answer[OCTALMURE_ANSWER_BYTES];
    uint8_t chained[OCTALMURE_MOST_FILE_BYTES], chain[OCTALMURE_MOST_CHAIN_BYTES]; /* a run with the longest chain, and that */
    uint32_t checked, carried, exported, imported, told;
} Work;

static void *run(void *given) {
    Work *work = (Work *)given;
    work->checked = octalmure_check(work->file, work->length, work->answer, sizeof work->answer);
    work->carried = octalmure_carry(work->file, work->length, octalmure_number(work->file + 8), work->output, sizeof work->output,
                                    work->answer, sizeof work->answer);
    work->exported = octalmure_export(work->longest, sizeof work->longest, work->table, sizeof work->table, work->answer,
                                      sizeof work->answer);
    work->imported = octalmure_import(work->longest, sizeof work->longest, work->table, sizeof work->table, work->output,
                                      sizeof work->output, work->answer, sizeof work->answer);
    work->told = octalmure_why(work->chained, sizeof work->chained, OCTALMURE_MOST_JOBS - 1, work->chain, sizeof work->chain,
                               work->answer, sizeof work->answer);
    return NULL;
}

/* What stands before the records, of which there are as many as a file can have: as many tasks as it can have, all alike. */
static uint8_t *put_front(uint8_t *at, struct octalmure_setting setting, struct octalmure_task task) {
    at = octalmure_put_setting(at, setting);
    at = octalmure_put_number(at, OCTALMURE_MOST_TASKS);
    for (uint32_t i = 0; i < OCTALMURE_MOST_TASKS; i++) {
        at = octalmure_put_task(at, task);
    }
    return octalmure_put_number(at, OCTALMURE_MOST_JOBS);
}

/* As many tasks and records as a file can have. Every number of a record has ten digits, and the last record starts first: the table
   is the longest, and its lines are in the opposite order. */
static void make_longest(uint8_t *at) {
    const struct octalmure_setting setting = {.cores = OCTALMURE_MOST_CORES, .horizon = 1};
    const struct octalmure_task task = {.period = 1, .least = 1, .greatest = 1, .offset = 0, .jitter = 0};
    at = put_front(at, setting, task);
    for (uint32_t k = 0; k < OCTALMURE_MOST_JOBS; k++) {
        struct octalmure_record record = {UINT32_MAX, UINT32_MAX, UINT32_MAX, UINT32_MAX, UINT32_MAX, UINT32_MAX};
        record.task -= (OCTALMURE_MOST_JOBS - k) / 2;
        record.job -= (OCTALMURE_MOST_JOBS - k) % 2;
        record.start -= k;
        at = octalmure_put_record(at, record);
    }
}

/* As many tasks and records as a file can have, on one core without a break: 16 jobs of each task, by job and then by task, two ticks
   each. Only the first takes three, so that every other starts after its release, when the one before it ends. */
static void make_chained(uint8_t *at) {
    enum { JOBS = OCTALMURE_MOST_JOBS / OCTALMURE_MOST_TASKS, PERIOD = 2 * OCTALMURE_MOST_TASKS };
    const struct octalmure_setting setting = {.cores = 1, .horizon = JOBS * PERIOD};
    const struct octalmure_task task = {.period = PERIOD, .least = 2, .greatest = 3, .offset = 0, .jitter = 0};
    at = put_front(at, setting, task);
    for (uint32_t k = 0; k < OCTALMURE_MOST_JOBS; k++) {
        uint32_t i = k / JOBS, j = k % JOBS, release = j * PERIOD, start = release + 2 * i + (k > 0);
        struct octalmure_record record = {i, j, release, start, release + 2 * i + 3, 1};
        at = octalmure_put_record(at, record);
    }
}

/* Record k is job k % 16 of task k / 16; the one before it in the chain is the same job of the task before. */
static bool whole_chain(const Work *work) {
    bool whole = work->told == OCTALMURE_CHAIN && octalmure_decode(work->answer).code == OCTALMURE_MOST_JOBS;
    for (uint32_t i = 0; i < OCTALMURE_MOST_JOBS; i++) {
        uint32_t turn = OCTALMURE_MOST_JOBS - 1 - i; /* the first in the run is 0 */
        uint32_t number = turn % OCTALMURE_MOST_TASKS * (OCTALMURE_MOST_JOBS / OCTALMURE_MOST_TASKS) + turn / OCTALMURE_MOST_TASKS;
        whole = whole && octalmure_number(work->chain + OCTALMURE_NUMBER_BYTES * (size_t)i) == number;
    }
    return whole;
}

void try_small_stack(Count *sum, const uint8_t *file, size_t length) {
    static Work work;
    pthread_attr_t small;
    pthread_t thread;
    work.file = file;
    work.length = length;
    make_longest(work.longest);
    make_chained(work.chained);
    printf("calls: on a stack of 64 KiB\n");
    fflush(stdout);
    bool ran = pthread_attr_init(&small) == 0 && pthread_attr_setstacksize(&small, SMALL_STACK) == 0 &&
               pthread_create(&thread, &small, run, &work) == 0 && pthread_join(thread, NULL) == 0;
    count(sum, ran && work.checked <= OCTALMURE_LATE_FROM_H && work.carried == OCTALMURE_CARRIED,
          "not accepted and carried on a small stack");
    count(sum, work.exported == OCTALMURE_WRITTEN && work.table[sizeof work.table - 1] == '\n',
          "the longest table is not exported on a small stack");
    count(sum, work.imported == OCTALMURE_WRITTEN && memcmp(work.output, work.longest, sizeof work.output) == 0,
          "the longest table is not imported on a small stack, or is not its file again");
    count(sum, whole_chain(&work), "the longest chain is not told on a small stack");
}
