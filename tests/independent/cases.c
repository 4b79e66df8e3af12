#include "cases.h"

#include <string.h>

#include "filed.h"
#include "server.h"
#include "spoil.h"

/* ---- the file ---- */

static void put(Case *made, uint32_t number) {
    for (uint32_t i = 0; i < 4; i++) {
        made->file[made->length] = (uint8_t)(number >> (8 * i));
        made->length++;
    }
}

void write_file(const Run *run, Case *made) {
    made->length = 0;
    put(made, 2);
    put(made, run->cores);
    put(made, run->horizon);
    put(made, run->task_count);
    for (uint32_t i = 0; i < run->task_count; i++) {
        const Task *t = &run->tasks[i];
        const uint32_t numbers[] = {t->period, t->least, t->greatest, t->offset, t->jitter};
        for (uint32_t n = 0; n < 5; n++) {
            put(made, numbers[n]);
        }
    }
    put(made, run->record_count);
    for (uint32_t k = 0; k < run->record_count; k++) {
        const Record *r = &run->records[k];
        const uint32_t numbers[] = {r->task, r->job, r->release, r->start, r->end, r->core};
        for (uint32_t n = 0; n < 6; n++) {
            put(made, numbers[n]);
        }
    }
}

static void patch(Case *made, size_t at, uint32_t number) {
    size_t length = made->length;
    made->length = at;
    put(made, number);
    made->length = length;
}

static void append_bytes(Case *made, size_t count, Chance *chance) {
    for (size_t i = 0; i < count && made->length < MOST_CASE_BYTES; i++) {
        made->file[made->length] = (uint8_t)below(chance, one_in(chance, 2) ? 3 : 256);
        made->length++;
    }
}

static void cut_to(Case *made, size_t length) {
    made->length = length < made->length ? length : made->length;
}

/* ---- faults of the file itself ---- */

static uint32_t any_of(Chance *chance, const uint32_t *numbers, size_t count) {
    return numbers[below(chance, count)];
}

#define ANY_OF(chance, ...) any_of(chance, (const uint32_t[]){__VA_ARGS__}, sizeof((const uint32_t[]){__VA_ARGS__}) / 4)

enum { AT_SETTING_COUNT = 0, AT_CORES = 4, AT_HORIZON = 8, AT_TASK_COUNT = 12, AT_TASKS = 16, TASK_BYTES = 20, RECORD_BYTES = 24 };

static size_t record_count_at(const Run *run) {
    return AT_TASKS + (size_t)run->task_count * TASK_BYTES;
}

/* Cuts anywhere, or just around the border of a count or an entry. */
static void fault_cut(Case *made, const Run *run, Chance *chance) {
    size_t at = record_count_at(run);
    switch (below(chance, 5)) {
    case 0: at = ANY_OF(chance, 0, 1, 3, 4, 5, 8, 11, 12, 13, 15, 16, 17); break;
    case 1: at = AT_TASKS + (size_t)below(chance, run->task_count + 1) * TASK_BYTES; break;
    case 2: at += below(chance, 6); break;
    case 3: at += 4 + (size_t)below(chance, run->record_count + 1) * RECORD_BYTES; break;
    default: at = between(chance, 0, (uint32_t)made->length); break;
    }
    if (at > 0 && one_in(chance, 2)) {
        at--;
    }
    cut_to(made, at);
}

static void fault_setting_count(Case *made, const Run *run, Chance *chance) {
    (void)run;
    patch(made, AT_SETTING_COUNT, ANY_OF(chance, 0, 1, 3, 4, 0x102, 0x10002, 0x02000000, 0x80000002, UINT32_MAX));
}

static void fault_setting(Case *made, const Run *run, Chance *chance) {
    (void)run;
    if (one_in(chance, 2)) {
        patch(made, AT_CORES, ANY_OF(chance, 0, 16, 17, 17, 32, 257, 0x10001, UINT32_MAX));
    } else {
        patch(made, AT_HORIZON, ANY_OF(chance, 0, 1000000, 1000001, 1000001, 0x1000001, UINT32_MAX));
    }
}

static void fault_task_count(Case *made, const Run *run, Chance *chance) {
    uint32_t near = one_in(chance, 2) ? run->task_count + 1 : run->task_count - 1;
    patch(made, AT_TASK_COUNT, ANY_OF(chance, 0, 0, 32, 33, 33, 34, 288, 0x10001, UINT32_MAX, near));
}

static void fault_task(Case *made, const Run *run, Chance *chance) {
    uint32_t i = below(chance, run->task_count), field = below(chance, 8), any = below(chance, 5);
    const Task *task = &run->tasks[i];
    size_t at = AT_TASKS + (size_t)i * TASK_BYTES;
    switch (field) {
    case 0: patch(made, at, ANY_OF(chance, 0, 1000000, 1000001, UINT32_MAX)); break;
    case 1: patch(made, at, task->jitter + below(chance, 2)); break;
    case 2: patch(made, at + 4, ANY_OF(chance, 0, task->greatest, task->greatest + 1, UINT32_MAX)); break;
    case 3: patch(made, at + 8, ANY_OF(chance, 0, task->least - 1, task->least, 1000000, 1000001, UINT32_MAX)); break;
    case 4: patch(made, at + 12, ANY_OF(chance, 1000000, 1000001, 1000001, UINT32_MAX)); break;
    case 5: patch(made, at + 16, ANY_OF(chance, task->period - 1, task->period, task->period + 1, UINT32_MAX)); break;
    default: patch(made, at + 4 * (size_t)any, one_in(chance, 2) ? (uint32_t)chance_next(chance) : 0); break;
    }
    if (one_in(chance, 4)) {
        fault_task(made, run, chance);
    }
}

/* The least horizon with too many jobs, or the greatest without. */
static void fault_job_count(Case *made, const Run *run, Chance *chance) {
    uint32_t greatest = greatest_horizon(run, MOST_JOBS);
    uint32_t above = greatest < MOST_TICKS ? greatest + 1 : greatest;
    patch(made, AT_HORIZON, ANY_OF(chance, greatest, above, above, above, MOST_TICKS));
}

static void fault_record_count(Case *made, const Run *run, Chance *chance) {
    uint32_t near = one_in(chance, 2) ? run->record_count + 1 : run->record_count - 1;
    uint32_t count = ANY_OF(chance, 512, 513, 513, 514, 1024, 0x10000, UINT32_MAX, near);
    patch(made, record_count_at(run), count);
    /* the count is judged before its entries, whether or not they are there */
    size_t whole = record_count_at(run) + 4 + (size_t)count * RECORD_BYTES;
    if (count <= 514 && whole > made->length && one_in(chance, 3)) {
        append_bytes(made, whole - made->length, chance);
    }
}

static void fault_appended(Case *made, const Run *run, Chance *chance) {
    (void)run;
    switch (below(chance, 4)) {
    case 0: append_bytes(made, 1, chance); break;
    case 1: append_bytes(made, RECORD_BYTES, chance); break;
    case 2: append_bytes(made, between(chance, 1, 40), chance); break;
    default: append_bytes(made, one_in(chance, 8) ? 17000 : 4, chance); break;
    }
}

static void fault_byte(Case *made, const Run *run, Chance *chance) {
    (void)run;
    if (made->length > 0) {
        made->file[below(chance, made->length)] ^= (uint8_t)(1u << below(chance, 8));
    }
}

typedef void FileFault(Case *, const Run *, Chance *);

/* Often two at once, or one in a file that is cut: the fault nearer to the front must be the one that is told. */
static void refuse(Case *made, const Run *run, Chance *chance) {
    static FileFault *const faults[] = {fault_cut,       fault_setting_count, fault_setting,  fault_task_count, fault_task,
                                        fault_job_count, fault_record_count,  fault_appended, fault_task,       fault_byte};
    uint32_t more = below(chance, 6);
    faults[below(chance, sizeof faults / sizeof *faults)](made, run, chance);
    if (more == 0) {
        faults[below(chance, sizeof faults / sizeof *faults)](made, run, chance);
    } else if (more < 3) {
        fault_cut(made, run, chance);
    }
}

static void random_file(Case *made, Chance *chance) {
    bool small = one_in(chance, 2);
    made->length = 0;
    for (uint32_t left = below(chance, 100); left > 0; left--) {
        put(made, small ? below(chance, 4) : (uint32_t)chance_next(chance));
    }
    append_bytes(made, below(chance, 4), chance);
    if (made->length >= 4 && !one_in(chance, 4)) {
        patch(made, 0, 2);
    }
}

/* ---- what else is lent ---- */

static uint32_t later_horizon(const Run *run, uint32_t more_jobs, Chance *chance) {
    uint64_t most = jobs_before(run, run->horizon) + more_jobs;
    return between(chance, run->horizon, greatest_horizon(run, most > MOST_JOBS ? MOST_JOBS : (uint32_t)most));
}

/* The nominal release of some later job, before which it does not exist, or the instant after. */
static uint32_t border_horizon(const Run *run, Chance *chance) {
    uint32_t task = below(chance, run->task_count);
    uint64_t job = 0;
    while (nominal_release(run, task, job) < run->horizon) {
        job++;
    }
    job += below(chance, 3);
    uint64_t horizon = nominal_release(run, task, job) + below(chance, 2);
    return horizon > MOST_TICKS ? MOST_TICKS : (uint32_t)horizon;
}

static uint32_t draw_new_horizon(const Run *run, Chance *chance) {
    uint32_t option = below(chance, 64);
    if (option < 10) {
        return run->horizon;
    }
    if (option < 16) {
        return run->horizon + 1;
    }
    if (option < 36) {
        return later_horizon(run, 12, chance);
    }
    if (option < 50) {
        return border_horizon(run, chance);
    }
    switch (option) {
    case 50: return run->horizon - 1;
    case 51: return between(chance, 0, run->horizon);
    case 52: return MOST_TICKS + 1;
    case 53: return ANY_OF(chance, UINT32_MAX, MOST_TICKS, 0, (uint32_t)chance_next(chance));
    case 54: return one_in(chance, 8) ? greatest_horizon(run, MOST_JOBS) : later_horizon(run, 12, chance);
    case 55: return greatest_horizon(run, MOST_JOBS) + 1;
    case 56: return between(chance, run->horizon, MOST_TICKS);
    case 57: return later_horizon(run, 200, chance);
    default: return later_horizon(run, 40, chance);
    }
}

static size_t draw_room(const Run *run, uint32_t horizon, Chance *chance) {
    uint64_t jobs = jobs_before(run, horizon);
    size_t exact = record_count_at(run) + 4 + RECORD_BYTES * (size_t)(jobs > MOST_JOBS ? MOST_JOBS : jobs);
    switch (below(chance, 16)) {
    case 0: return exact - 1;
    case 1: return one_in(chance, 2) ? 0 : below(chance, exact);
    case 2: return MOST_OUTPUT_BYTES;
    case 3:
    case 4:
    case 5: return exact + below(chance, 64);
    case 6: return exact + below(chance, 800);
    default: return exact;
    }
}

static size_t draw_answer_length(Chance *chance) {
    uint32_t option = below(chance, 16);
    if (option == 0) {
        return one_in(chance, 3) ? 19 : below(chance, 20);
    }
    return option < 9 ? 20 : between(chance, 20, MOST_ANSWER_BYTES);
}

static void draw_slices(Case *made, const Run *run, Chance *chance) {
    made->horizon = draw_new_horizon(run, chance);
    made->output_length = draw_room(run, made->horizon, chance);
    made->check_answer_length = draw_answer_length(chance);
    made->carry_answer_length = draw_answer_length(chance);
}

/* ---- cases ---- */

/* Most are small; the greatest are few, since a checker may need time that grows with the cube of the records. */
static Shape draw_shape(Chance *chance) {
    uint32_t option = below(chance, 1000);
    if (option == 0) {
        return GREATEST;
    }
    if (option < 80) {
        return WIDE;
    }
    if (option < 140) {
        return LONG;
    }
    return option < 310 ? MIDDLE : option < 620 ? TINY : SMALL;
}

/* No task has a job before the horizon. */
static void draw_empty_set(Run *run, Chance *chance) {
    for (uint32_t i = 0; i < run->task_count; i++) {
        run->tasks[i].offset = between(chance, run->horizon, one_in(chance, 2) ? run->horizon : MOST_TICKS);
    }
}

static void spoiled_case(Run *run, uint32_t option, uint32_t rule, Chance *chance) {
    if (option < 78) {
        spoil_rule(run, rule, chance);
    } else if (option < 87) {
        for (uint32_t left = between(chance, 1, 3); left > 0; left--) {
            spoil_number(run, chance);
        }
    } else {
        spoil_to_the_top(run, chance);
    }
}

/* Some faults need jobs that wait for the ones before them. Others have such sets, too, but seldom. */
static bool needs_overrun(Fault fault, uint32_t rule, Chance *chance) {
    bool sure = fault == WAITS_BEHIND || fault == BESIDE_ITSELF || rule == 9;
    return sure || one_in(chance, rule == 7 || rule == 8 ? 2 : 6);
}

/* The option, below 100, says what becomes of the run: permitted runs, each rule and each refusal have their share. */
static void mixed_case(Chance *chance, Case *made) {
    Run run;
    uint32_t option = below(chance, 100), rule = between(chance, 1, RULES);
    bool faulty_server = 34 <= option && option < 48;
    Fault fault = faulty_server ? between(chance, 1, FAULTS - 1) : NO_FAULT;
    draw_set(&run, draw_shape(chance), chance);
    if (option == 0) {
        draw_empty_set(&run, chance);
    } else if (needs_overrun(fault, 48 <= option && option < 78 ? rule : 0, chance)) {
        make_overrun(&run, chance);
    }
    serve(&run, fault, chance);
    made->permitted = option < 34;
    if (48 <= option && option < 89) {
        spoiled_case(&run, option, rule, chance);
    }
    write_file(&run, made);
    if (89 <= option && option < 99) {
        refuse(made, &run, chance);
    } else if (option == 99) {
        random_file(made, chance);
    }
    draw_slices(made, &run, chance);
}

/* Some blocks of cases cut one small file at every length, and go on by appending bytes to it. */
static void cut_case(Chance *of_block, Chance *chance, size_t length, Case *made) {
    Run run;
    draw_set(&run, TINY, of_block);
    serve(&run, NO_FAULT, of_block);
    write_file(&run, made);
    made->permitted = length == made->length;
    if (length <= made->length) {
        cut_to(made, length);
    } else {
        append_bytes(made, length - made->length, chance);
    }
    draw_slices(made, &run, chance);
}

void make_case(uint64_t seed, uint64_t number, Case *made) {
    enum { BLOCK = 256, CUT_BLOCKS = 24 };
    uint64_t block = number / BLOCK;
    Chance chance = chance_of(seed, 2 * number);
    if (block % CUT_BLOCKS == 1) {
        Chance of_block = chance_of(seed, 2 * block + 1);
        cut_case(&of_block, &chance, number % BLOCK, made);
    } else {
        mixed_case(&chance, made);
    }
}
