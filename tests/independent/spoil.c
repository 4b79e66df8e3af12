#include "spoil.h"

enum { TRIES = 40 };

static Record *any_record(Run *run, Chance *chance) {
    return &run->records[below(chance, run->record_count)];
}

/* The record of the job before, or NULL. The run is a server's, so that it stands just before. */
static Record *record_before(Record *record) {
    return record->job > 0 ? record - 1 : NULL;
}

/* Whether the job is ready at the instant. */
static bool ready_by(Record *record, uint32_t instant) {
    const Record *before = record_before(record);
    return record->release <= instant && (before == NULL || before->end <= instant);
}

/* One that started as the one before it ended, which was after its release; any record if none is met soon. */
static Record *record_that_followed(Run *run, Chance *chance) {
    Record *record = any_record(run, chance);
    for (uint32_t tries = 0; tries < TRIES; tries++) {
        const Record *before = record_before(record);
        if (before != NULL && record->release < before->end && before->end == record->start) {
            break;
        }
        record = any_record(run, chance);
    }
    return record;
}

static uint32_t neighbour(uint32_t number, Chance *chance) {
    return one_in(chance, 2) ? number + 1 : number - 1;
}

/* ---- rule 1 ---- */

static void drop_record(Run *run, uint32_t k) {
    run->record_count--;
    for (; k < run->record_count; k++) {
        run->records[k] = run->records[k + 1];
    }
}

static void add_record(Run *run, uint32_t k, Record record) {
    if (run->record_count == MOST_JOBS + SPARE_RECORDS) {
        return;
    }
    for (uint32_t i = run->record_count; i > k; i--) {
        run->records[i] = run->records[i - 1];
    }
    run->records[k] = record;
    run->record_count++;
}

/* The first job of a task that does not exist, where it would stand if it did. */
static void add_next_job(Run *run, uint32_t task, Chance *chance) {
    uint32_t k = 0, job = 0;
    while (k < run->record_count && run->records[k].task <= task) {
        job = run->records[k].task == task ? run->records[k].job + 1 : job;
        k++;
    }
    Record record = {.task = task, .job = job, .core = between(chance, 1, run->cores)};
    record.release = record.start = (uint32_t)nominal_release(run, task, job);
    record.end = record.start + run->tasks[task].greatest;
    add_record(run, k, record);
}

static void swap_records(Run *run, uint32_t a, uint32_t b) {
    Record record = run->records[a];
    run->records[a] = run->records[b];
    run->records[b] = record;
}

/* The horizon falls to the nominal release of a job, which then does not exist, or to the instant after. */
static void move_horizon(Run *run, Chance *chance) {
    const Record *record = any_record(run, chance);
    uint64_t job = record->job + below(chance, 2);
    uint64_t horizon = nominal_release(run, record->task, job) + below(chance, 2);
    if (horizon > 0 && horizon <= MOST_TICKS && jobs_before(run, (uint32_t)horizon) <= MOST_JOBS) {
        run->horizon = (uint32_t)horizon;
    }
}

static void spoil_jobs(Run *run, Chance *chance) {
    uint32_t k = below(chance, run->record_count), last = run->record_count - 1;
    switch (below(chance, 10)) {
    case 0: drop_record(run, k); break;
    case 1: drop_record(run, last); break;
    case 2: add_record(run, k, run->records[k]); break;
    case 3: add_record(run, last + 1, run->records[last]); break;
    case 4: add_next_job(run, below(chance, run->task_count), chance); break;
    case 5: swap_records(run, k, k < last ? k + 1 : k); break;
    case 6: swap_records(run, k, below(chance, run->record_count)); break;
    case 7: run->records[k].task = one_in(chance, 4) ? UINT32_MAX : neighbour(run->records[k].task, chance); break;
    case 8: run->records[k].job = one_in(chance, 4) ? UINT32_MAX : neighbour(run->records[k].job, chance); break;
    default: move_horizon(run, chance); break;
    }
}

/* ---- rules 2 to 5 ---- */

static void spoil_release(Run *run, Chance *chance) {
    Record *record = any_record(run, chance);
    uint32_t nominal = (uint32_t)nominal_release(run, record->task, record->job), jitter = run->tasks[record->task].jitter;
    switch (below(chance, 6)) {
    case 0: record->release = UINT32_MAX - below(chance, 3); break;
    case 1: record->release = (uint32_t)chance_next(chance); break;
    case 2:
    case 3:
        if (nominal > 0) {
            record->release = nominal - 1;
            break;
        }
        /* fall through */
    default: record->release = nominal + jitter + 1; break;
    }
    if (one_in(chance, 2) && record->start < record->release) {
        record->end += record->release - record->start;
        record->start = record->release;
    }
}

/* A release that is allowed, but after the start; else a start before the release. */
static void spoil_start(Run *run, Chance *chance) {
    for (uint32_t tries = 0; tries < TRIES; tries++) {
        Record *record = any_record(run, chance);
        uint32_t last = (uint32_t)nominal_release(run, record->task, record->job) + run->tasks[record->task].jitter;
        if (record->start < last && one_in(chance, 2)) {
            record->release = one_in(chance, 2) ? record->start + 1 : between(chance, record->start + 1, last);
            return;
        }
        if (record->release > 0) {
            record->start = one_in(chance, 4) ? 0 : record->release - 1;
            record->end -= one_in(chance, 2);
            return;
        }
    }
}

static void spoil_length(Run *run, Chance *chance) {
    Record *record = any_record(run, chance);
    const Task *task = &run->tasks[record->task];
    switch (below(chance, 10)) {
    case 0: record->end = record->start - (record->start > 0); break;
    case 1: record->end = record->start; break;
    case 2: record->end = one_in(chance, 2) ? 0 : UINT32_MAX; break;
    case 3: record->end = (uint32_t)chance_next(chance); break;
    case 4: record->start = record->end - task->least + 1; break;
    case 5:
    case 6: record->end = record->start + task->least - 1; break;
    default: record->end = record->start + task->greatest + 1; break;
    }
}

static void spoil_core(Run *run, Chance *chance) {
    Record *record = any_record(run, chance);
    switch (below(chance, 6)) {
    case 0:
    case 1: record->core = 0; break;
    case 2:
    case 3: record->core = run->cores + 1; break;
    case 4: record->core += 1u << between(chance, 4, 31); break;
    default: record->core = one_in(chance, 2) ? UINT32_MAX : MOST_CORES + 1; break;
    }
}

/* ---- rule 6 ---- */

static bool overlap(const Record *a, const Record *b) {
    return a->core == b->core && a->start < b->end && b->start < a->end;
}

static bool overlaps_some(const Run *run, const Record *record) {
    for (uint32_t k = 0; k < run->record_count; k++) {
        if (&run->records[k] != record && overlap(&run->records[k], record)) {
            return true;
        }
    }
    return false;
}

/* Moves a start or an end by little, within rules 2 to 5; or gives the record another core. */
static void nudge(const Run *run, Record *record, Chance *chance) {
    const Task *task = &run->tasks[record->task];
    uint32_t length = record->end - record->start;
    uint32_t earlier = record->start - record->release, step = one_in(chance, 2) ? 1 : between(chance, 1, 4);
    switch (below(chance, 4)) {
    case 0: record->end += length + step <= task->greatest ? step : 0; break;
    case 1: record->start -= step <= earlier && length + step <= task->greatest ? step : 0; break;
    case 2:
        if (step <= earlier) {
            record->start -= step;
            record->end -= step;
        }
        break;
    default: record->core = between(chance, 1, run->cores); break;
    }
}

static void spoil_overlap(Run *run, Chance *chance) {
    for (uint32_t tries = 0; tries < TRIES; tries++) {
        Record *record = any_record(run, chance), before = *record;
        nudge(run, record, chance);
        if (overlaps_some(run, record)) {
            return;
        }
        *record = before;
    }
}

/* ---- rule 7 ---- */

/* b is overtaken by a, which is due later, and which started when b was not ready. */
static bool overtaken(const Run *run, const Record *a, Record *b) {
    return a->start < b->start && deadline(run, a) > deadline(run, b) && !ready_by(b, a->start);
}

/* b was released only after a had started: now it is released as a starts, if its jitter allows. */
static bool release_as_it_starts(Run *run, Record *a, Record *b, Chance *chance) {
    uint32_t nominal = (uint32_t)nominal_release(run, b->task, b->job);
    bool fits = overtaken(run, a, b) && a->start < b->release && nominal <= a->start;
    if (fits) {
        b->release = one_in(chance, 4) ? between(chance, nominal, a->start) : a->start;
    }
    return fits;
}

static bool takes(const Run *run, const Record *record, uint32_t length) {
    const Task *task = &run->tasks[record->task];
    return task->least <= length && length <= task->greatest;
}

/* b was released and waited for the one before it, which ran on as a started: now that one ends as a starts, or just after, where
   the order is still right. */
static bool end_as_it_starts(Run *run, Record *a, Record *b, Chance *chance) {
    Record *before = record_before(b);
    uint32_t end = a->start + one_in(chance, 4);
    bool fits = overtaken(run, a, b) && b->release <= a->start && before != NULL && before->start < end && end < before->end &&
                takes(run, before, end - before->start);
    if (fits) {
        before->end = end;
    }
    return fits;
}

/* b was ready when a, due earlier, was started: now b takes the place of a. */
static bool exchange(Run *run, Record *a, Record *b, Chance *chance) {
    (void)chance;
    Record was = *a;
    bool fits = a->start < b->start && deadline(run, a) < deadline(run, b) && ready_by(b, a->start) &&
                takes(run, a, b->end - b->start) && takes(run, b, a->end - a->start);
    if (fits) {
        a->start = b->start, a->end = b->end, a->core = b->core;
        b->start = was.start, b->end = was.end, b->core = was.core;
    }
    return fits;
}

static void spoil_order(Run *run, Chance *chance) {
    enum { WAYS = 3 };
    static bool (*const ways[WAYS])(Run *, Record *, Record *, Chance *) = {exchange, release_as_it_starts, end_as_it_starts};
    uint32_t way = below(chance, WAYS);
    /* where one way is not to be had, the next */
    for (uint32_t tries = 0; tries < WAYS * 4 * TRIES; tries++) {
        Record *a = any_record(run, chance);
        Record *b = any_record(run, chance);
        if (ways[(way + tries / (4 * TRIES)) % WAYS](run, a, b, chance)) {
            return;
        }
    }
}

/* ---- rule 8 ---- */

/* The record that starts last can be moved to a later start without breaking an earlier rule, if it is due last. */
static Record *last_started(Run *run) {
    Record *last = &run->records[0];
    for (uint32_t k = 0; k < run->record_count; k++) {
        last = run->records[k].start >= last->start ? &run->records[k] : last;
    }
    return last;
}

static void start_later(Run *run, Record *record, Chance *chance) {
    uint32_t by = one_in(chance, 2) ? 1 : between(chance, 1, 9), length = record->end - record->start;
    if (one_in(chance, 8)) {
        by = UINT32_MAX - record->end - below(chance, 3);
    }
    if (takes(run, record, length - 1) && one_in(chance, 3)) {
        record->start++;
        return;
    }
    record->start += by;
    record->end += by;
}

static void release_earlier(Run *run, Record *record, Chance *chance) {
    uint32_t nominal = (uint32_t)nominal_release(run, record->task, record->job);
    if (record->release > nominal) {
        record->release = one_in(chance, 2) ? record->release - 1 : between(chance, nominal, record->release - 1);
    }
}

static void end_earlier(Run *run, Record *record) {
    record->end -= takes(run, record, record->end - record->start - 1);
}

/* A job that started as the one before it ended: that one ends earlier, or the job starts later. */
static void follow_later(Run *run, Chance *chance) {
    Record *record = record_that_followed(run, chance), *before = record_before(record);
    if (before != NULL && one_in(chance, 2)) {
        end_earlier(run, before);
    } else {
        start_later(run, record, chance);
    }
}

static void idle_somehow(Run *run, Chance *chance) {
    Record *record = any_record(run, chance);
    switch (below(chance, 6)) {
    case 0: start_later(run, last_started(run), chance); break;
    case 1: start_later(run, record, chance); break;
    case 2: release_earlier(run, record, chance); break;
    case 3: end_earlier(run, record); break;
    case 4: follow_later(run, chance); break;
    default: record->core = between(chance, 1, run->cores); break;
    }
}

static void spoil_idling(Run *run, Chance *chance) {
    idle_somehow(run, chance);
    if (one_in(chance, 4)) {
        idle_somehow(run, chance);
    }
}

/* ---- rule 9 ---- */

/* The job starts before the end of the one before it: a tick, or with it, or at any instant; its end stays, or it runs as long as
   it did. */
static void begin_beside(const Run *run, Record *record, const Record *before, Chance *chance) {
    uint32_t was = record->start, last = before->end - 1, early = before->start;
    if (last < record->release) {
        return;
    }
    switch (below(chance, 6)) {
    case 0: record->start = between(chance, record->release, last); break;
    case 1: record->start = early > record->release ? early : record->release; break;
    default: record->start = last; break;
    }
    if (!takes(run, record, record->end - record->start) || one_in(chance, 4)) {
        record->end -= was - record->start;
    }
    if (one_in(chance, 3)) {
        record->core = between(chance, 1, run->cores);
    }
}

/* The one before runs on, mostly for one tick more than the job left it. */
static void end_beside(const Run *run, Record *record, Record *before, Chance *chance) {
    uint32_t end = record->start + (one_in(chance, 3) ? between(chance, 1, 9) : 1);
    if (before->end < end && takes(run, before, end - before->start)) {
        before->end = end;
    }
}

static void spoil_beside(Run *run, Chance *chance) {
    bool beginning = !one_in(chance, 3);
    for (uint32_t tries = 0; tries < TRIES; tries++) {
        Record *record = record_that_followed(run, chance), *before = record_before(record);
        if (before == NULL) {
            continue;
        }
        const Record was = *record, before_was = *before;
        if (beginning) {
            begin_beside(run, record, before, chance);
        } else {
            end_beside(run, record, before, chance);
        }
        if (record->start < before->end && !overlaps_some(run, record) && !overlaps_some(run, before)) {
            return;
        }
        *record = was;
        *before = before_was;
    }
}

/* ---- */

void spoil_rule(Run *run, uint32_t rule, Chance *chance) {
    static void (*const spoil[RULES])(Run *, Chance *) = {spoil_jobs,    spoil_release, spoil_start,  spoil_length, spoil_core,
                                                          spoil_overlap, spoil_order,   spoil_idling, spoil_beside};
    if (run->record_count > 0) {
        spoil[rule - 1](run, chance);
    } else {
        add_next_job(run, below(chance, run->task_count), chance);
    }
}

static void spoil_field(uint32_t *number, Chance *chance) {
    switch (below(chance, 8)) {
    case 0: *number = (uint32_t)chance_next(chance); break;
    case 1: *number = one_in(chance, 2) ? 0 : UINT32_MAX; break;
    default: *number = neighbour(*number, chance); break;
    }
}

/* Tasks stay within their ranges here, so that the rules are what judges the run. */
static void spoil_task(Run *run, Chance *chance) {
    Task *task = &run->tasks[below(chance, run->task_count)], was = *task;
    uint32_t *const fields[] = {&task->period, &task->least, &task->greatest, &task->offset, &task->jitter};
    uint32_t *field = fields[below(chance, 5)];
    *field = neighbour(*field, chance);
    bool in_ranges = task->period >= 1 && task->period <= MOST_TICKS && task->least >= 1 && task->least <= task->greatest &&
                     task->greatest <= MOST_TICKS && task->offset <= MOST_TICKS && task->jitter < task->period;
    if (!in_ranges || jobs_before(run, run->horizon) > MOST_JOBS) {
        *task = was;
    }
}

void spoil_number(Run *run, Chance *chance) {
    if (run->record_count == 0 || one_in(chance, 6)) {
        spoil_task(run, chance);
    } else if (one_in(chance, 10)) {
        run->cores = run->cores > 1 ? run->cores - 1 : run->cores + 1;
    } else {
        Record *record = any_record(run, chance);
        uint32_t *const fields[] = {&record->task, &record->job, &record->release, &record->start, &record->end, &record->core};
        /* a wrong task or job hides all else: seldom */
        spoil_field(fields[one_in(chance, 12) ? below(chance, 2) : between(chance, 2, 5)], chance);
    }
}

void spoil_to_the_top(Run *run, Chance *chance) {
    if (run->record_count == 0) {
        return;
    }
    for (uint32_t left = between(chance, 1, 3); left > 0; left--) {
        Record *record = one_in(chance, 2) ? last_started(run) : any_record(run, chance);
        uint32_t length = record->end - record->start;
        record->end = UINT32_MAX - below(chance, 4);
        record->start = record->end - length;
        if (one_in(chance, 6)) {
            record->release = record->start;
        }
    }
}
