/* What puts a run file together, against what takes one apart and against the paper's layout. */
#include <octalmure.h>
#include <string.h>

#include "trial.h"

enum { BESIDE = 40, MOST_RECORDS = 60, MOST_NUMBERS = 8, ALIGNMENTS = 8, RUNS = 2000 };
enum { MADE_ROOM = BESIDE + ALIGNMENTS + OCTALMURE_MOST_FILE_BYTES + BESIDE };

static const uint32_t borders[] = {0, 1, 255, 256, 65535, 65536, 16777215, 16777216, UINT32_MAX - 1, UINT32_MAX};
enum { BORDERS = sizeof borders / sizeof borders[0] };

/* ---- by seed ---- */

static uint64_t state = 20131;

static uint32_t any(void) {
    state = state * UINT64_C(6364136223846793005) + UINT64_C(1442695040888963407);
    return (uint32_t)(state >> 32);
}

static uint32_t any_number(void) {
    return any() % 3 == 0 ? borders[any() % BORDERS] : any() >> any() % 32;
}

/* ---- a room in which no byte may change but those that are put ---- */

static uint8_t room[MADE_ROOM], expected[MADE_ROOM];

static void clear_room(void) {
    for (size_t i = 0; i < MADE_ROOM; i++) {
        room[i] = expected[i] = (uint8_t)(0x5A ^ i * 41 ^ i >> 8);
    }
}

/* The paper's layout, told by division: four bytes, low byte first. */
static size_t expect(size_t at, const uint32_t *numbers, size_t count) {
    for (size_t n = 0; n < count; n++) {
        uint64_t place = 1;
        for (size_t i = 0; i < 4; i++) {
            expected[at + 4 * n + i] = (uint8_t)(numbers[n] / place % 256);
            place *= 256;
        }
    }
    return at + 4 * count;
}

static void judge(Count *sum, const uint8_t *after, size_t end, const char *what) {
    count(sum, after == room + end && memcmp(room, expected, MADE_ROOM) == 0, what);
}

/* ---- each function alone ---- */

static struct octalmure_task task_of(const uint32_t *n) {
    struct octalmure_task task = {.period = n[0], .least = n[1], .greatest = n[2], .offset = n[3], .jitter = n[4]};
    return task;
}

static struct octalmure_record record_of(const uint32_t *n) {
    struct octalmure_record record = {.task = n[0], .job = n[1], .release = n[2], .start = n[3], .end = n[4], .core = n[5]};
    return record;
}

static bool same_task(struct octalmure_task a, const uint32_t *n) {
    return a.period == n[0] && a.least == n[1] && a.greatest == n[2] && a.offset == n[3] && a.jitter == n[4];
}

static bool same_record(struct octalmure_record a, const uint32_t *n) {
    return a.task == n[0] && a.job == n[1] && a.release == n[2] && a.start == n[3] && a.end == n[4] && a.core == n[5];
}

/* A number, a setting, a task and a record of these numbers, at this place. */
static void try_numbers(Count *sum, const uint32_t *n, size_t at) {
    const uint32_t setting[] = {2, n[0], n[1]};
    clear_room();
    judge(sum, octalmure_put_number(room + at, n[0]), expect(at, n, 1), "a number is not put as the paper says");
    count(sum, octalmure_number(room + at) == n[0], "a number does not come back");
    clear_room();
    judge(sum, octalmure_put_setting(room + at, (struct octalmure_setting){.cores = n[0], .horizon = n[1]}), expect(at, setting, 3),
          "a setting is not put as the paper says");
    clear_room();
    judge(sum, octalmure_put_task(room + at, task_of(n)), expect(at, n, 5), "a task is not put as the paper says");
    count(sum, same_task(octalmure_task_at(room + at), n), "a task does not come back");
    clear_room();
    judge(sum, octalmure_put_record(room + at, record_of(n)), expect(at, n, 6), "a record is not put as the paper says");
    count(sum, same_record(octalmure_record_at(room + at), n), "a record does not come back");
}

/* Each border at each of the places of an entry, and numbers by seed. */
static void try_entries(Count *sum) {
    uint32_t numbers[MOST_NUMBERS];
    for (size_t b = 0; b < BORDERS * ALIGNMENTS; b++) {
        for (size_t i = 0; i < MOST_NUMBERS; i++) {
            numbers[i] = borders[(b + i * 7) % BORDERS];
        }
        try_numbers(sum, numbers, BESIDE + b % ALIGNMENTS);
    }
    for (size_t run = 0; run < RUNS; run++) {
        for (size_t i = 0; i < MOST_NUMBERS; i++) {
            numbers[i] = any_number();
        }
        try_numbers(sum, numbers, BESIDE + run % ALIGNMENTS);
    }
}

/* ---- whole files ---- */

typedef struct {
    uint32_t cores, horizon, tasks, records;
    uint32_t task[OCTALMURE_MOST_TASKS][5], record[OCTALMURE_MOST_JOBS][6];
} Run;

/* As the header says that a file is made. */
static uint8_t *make(const Run *run, uint8_t *at) {
    at = octalmure_put_setting(at, (struct octalmure_setting){.cores = run->cores, .horizon = run->horizon});
    at = octalmure_put_number(at, run->tasks);
    for (uint32_t i = 0; i < run->tasks; i++) {
        at = octalmure_put_task(at, task_of(run->task[i]));
    }
    at = octalmure_put_number(at, run->records);
    for (uint32_t k = 0; k < run->records; k++) {
        at = octalmure_put_record(at, record_of(run->record[k]));
    }
    return at;
}

static size_t expect_run(const Run *run, size_t at) {
    const uint32_t front[] = {2, run->cores, run->horizon, run->tasks};
    at = expect(at, front, 4);
    for (uint32_t i = 0; i < run->tasks; i++) {
        at = expect(at, run->task[i], 5);
    }
    at = expect(at, &run->records, 1);
    for (uint32_t k = 0; k < run->records; k++) {
        at = expect(at, run->record[k], 6);
    }
    return at;
}

static bool comes_back(const Run *run, const uint8_t *file) {
    size_t tasks_at = OCTALMURE_SETTING_BYTES + OCTALMURE_NUMBER_BYTES, records_at = OCTALMURE_FILE_BYTES((size_t)run->tasks, 0);
    bool same = octalmure_number(file + tasks_at - OCTALMURE_NUMBER_BYTES) == run->tasks &&
                octalmure_number(file + records_at - OCTALMURE_NUMBER_BYTES) == run->records;
    for (uint32_t i = 0; i < run->tasks; i++) {
        same = same && same_task(octalmure_task_at(file + tasks_at + i * (size_t)OCTALMURE_TASK_BYTES), run->task[i]);
    }
    for (uint32_t k = 0; k < run->records; k++) {
        same = same && same_record(octalmure_record_at(file + records_at + k * (size_t)OCTALMURE_RECORD_BYTES), run->record[k]);
    }
    return same;
}

static void try_run(Count *sum, const Run *run, size_t at) {
    size_t bytes = OCTALMURE_FILE_BYTES((size_t)run->tasks, (size_t)run->records);
    clear_room();
    uint8_t *after = make(run, room + at);
    judge(sum, after, expect_run(run, at), "a file is not made as the paper says");
    count(sum, after == room + at + bytes, "a file has another length than OCTALMURE_FILE_BYTES says");
    count(sum, comes_back(run, room + at), "a file's tasks and records do not come back");
}

static void try_runs(Count *sum) {
    static Run run;
    for (size_t number = 0; number < RUNS; number++) {
        run = (Run){.cores = any_number(), .horizon = any_number(), .tasks = any() % (OCTALMURE_MOST_TASKS + 1),
                    .records = number == 0 ? OCTALMURE_MOST_JOBS : any() % (MOST_RECORDS + 1)};
        run.tasks = number == 0 ? OCTALMURE_MOST_TASKS : run.tasks;
        for (size_t i = 0; i < 5 * (size_t)run.tasks; i++) {
            run.task[i / 5][i % 5] = any_number();
        }
        for (size_t i = 0; i < 6 * (size_t)run.records; i++) {
            run.record[i / 6][i % 6] = any_number();
        }
        try_run(sum, &run, BESIDE + number % ALIGNMENTS);
    }
}

/* ---- the paper's runs, made and given to the library ---- */

static const Run c1 = {
    .cores = 2, .horizon = 20, .tasks = 4, .records = 5,
    .task = {{10, 1, 2, 0, 1}, {30, 6, 8, 0, 1}, {60, 15, 17, 0, 2}, {60, 15, 20, 0, 2}},
    .record = {{0, 0, 1, 15, 17, 2}, {0, 1, 10, 17, 19, 1}, {1, 0, 1, 17, 25, 2}, {2, 0, 0, 0, 17, 1}, {3, 0, 0, 0, 15, 2}},
};

/* C1 at H 10: without record 1, and with the next one on core 1. */
static Run run_c2(void) {
    Run run = c1;
    run.horizon = 10;
    run.records = 4;
    memmove(run.record[1], run.record[2], 3 * sizeof run.record[0]);
    run.record[1][5] = 1;
    return run;
}

/* Two jobs of one task beside each other: job 1 starts at 3 and is ready at 5. */
static const Run beside = {
    .cores = 2, .horizon = 3, .tasks = 1, .records = 2,
    .task = {{2, 1, 5, 0, 0}},
    .record = {{0, 0, 0, 0, 5, 1}, {0, 1, 2, 3, 6, 2}},
};

/* The same, but job 1 starts when it is ready: core 2 is idle all the while, and both are late, job 1 from H on. */
static Run run_in_turn(void) {
    Run run = beside;
    run.record[1][3] = 5;
    return run;
}

static Run run_c9(void) {
    Run run = {.cores = 1, .horizon = 512, .tasks = 1, .records = 512, .task = {{1, 1, 1, 0, 0}}};
    for (uint32_t j = 0; j < run.records; j++) {
        const uint32_t record[] = {0, j, j, j, j + 1, 1};
        memcpy(run.record[j], record, sizeof record);
    }
    return run;
}

static void try_checked(Count *sum, const uint8_t *file, size_t length, struct octalmure_answer right, const char *what) {
    uint8_t bytes[OCTALMURE_ANSWER_BYTES];
    uint32_t returned = octalmure_check(file, length, bytes, sizeof bytes);
    struct octalmure_answer answer = octalmure_decode(bytes);
    count(sum, returned == right.answer && memcmp(&answer, &right, sizeof answer) == 0, what);
}

static void try_paper(Count *sum, const uint8_t *c2, size_t c2_length, const uint8_t *c9, size_t c9_length) {
    static uint8_t file[OCTALMURE_MOST_FILE_BYTES], carried[OCTALMURE_MOST_FILE_BYTES];
    uint8_t bytes[OCTALMURE_ANSWER_BYTES];
    Run second = run_c2(), ninth = run_c9();
    size_t length = (size_t)(make(&second, file) - file);
    count(sum, length == c2_length && memcmp(file, c2, length) == 0, "C2 as it is made is not the example");
    try_checked(sum, file, length, (struct octalmure_answer){2, 1, {0, 0, 0}}, "C2 as it is made has not the paper's answer");
    uint32_t answer = octalmure_carry(file, length, c1.horizon, carried, sizeof carried, bytes, sizeof bytes);
    length = (size_t)(make(&c1, file) - file);
    try_checked(sum, file, length, (struct octalmure_answer){1, 1, {0, 0, 0}}, "C1 as it is made has not the paper's answer");
    count(sum, answer == OCTALMURE_CARRIED && octalmure_decode(bytes).code == length && memcmp(file, carried, length) == 0,
          "C2 carried is not C1, both as they are made");
    length = (size_t)(make(&ninth, file) - file);
    count(sum, length == c9_length && memcmp(file, c9, length) == 0, "C9 as it is made is not the example");
    try_checked(sum, file, length, (struct octalmure_answer){0, 0, {0, 0, 0}}, "C9 as it is made has not the paper's answer");
}

static void try_in_turn(Count *sum) {
    static uint8_t file[OCTALMURE_MOST_FILE_BYTES];
    Run in_turn = run_in_turn();
    size_t length = (size_t)(make(&beside, file) - file);
    try_checked(sum, file, length, (struct octalmure_answer){OCTALMURE_BROKEN, OCTALMURE_RULE_IN_TURN, {1, 0, 0}},
                "two jobs of one task beside each other do not break rule 9");
    length = (size_t)(make(&in_turn, file) - file);
    try_checked(sum, file, length, (struct octalmure_answer){OCTALMURE_LATE_BEFORE_H, 2, {0, 0, 0}},
                "a job that starts when the one before it has ended is not accepted");
}

void try_making(Count *sum, const uint8_t *c2, size_t c2_length, const uint8_t *c9, size_t c9_length) {
    try_entries(sum);
    try_runs(sum);
    try_paper(sum, c2, c2_length, c9, c9_length);
    try_in_turn(sum);
}
