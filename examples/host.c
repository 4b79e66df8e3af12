/* A host in C: makes the run C1 of the paper as a run file in memory, checks it, and prints the five numbers: 1 1 0 0 0. */
#include <octalmure.h>
#include <stdio.h>

enum { TASKS = 4, RECORDS = 5, BYTES = OCTALMURE_FILE_BYTES(TASKS, RECORDS) };

/* P, B, W, O, J */
static const struct octalmure_task tasks[TASKS] = {{10, 1, 2, 0, 1}, {30, 6, 8, 0, 1}, {60, 15, 17, 0, 2}, {60, 15, 20, 0, 2}};

/* task, job, r, s, e, core */
static const struct octalmure_record records[RECORDS] = {
    {0, 0, 1, 15, 17, 2}, {0, 1, 10, 17, 19, 1}, {1, 0, 1, 17, 25, 2}, {2, 0, 0, 0, 17, 1}, {3, 0, 0, 0, 15, 2},
};

static void make(uint8_t *at) {
    struct octalmure_setting setting = {2, 20}; /* N, H */
    at = octalmure_put_setting(at, setting);
    at = octalmure_put_number(at, TASKS);
    for (int i = 0; i < TASKS; i++) {
        at = octalmure_put_task(at, tasks[i]);
    }
    at = octalmure_put_number(at, RECORDS);
    for (int k = 0; k < RECORDS; k++) {
        at = octalmure_put_record(at, records[k]);
    }
}

int main(void) {
    uint8_t file[BYTES], answer[OCTALMURE_ANSWER_BYTES] = {0};
    make(file);
    octalmure_guarded_check(file, sizeof file, answer, sizeof answer);
    struct octalmure_answer five = octalmure_decode(answer);
    printf("%u %u %u %u %u\n", (unsigned)five.answer, (unsigned)five.code, (unsigned)five.place[0], (unsigned)five.place[1],
           (unsigned)five.place[2]);
    return five.answer <= OCTALMURE_LATE_FROM_H ? 0 : 1;
}
