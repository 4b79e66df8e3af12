#include "waits.h"

#include <string.h>

#include "parts.h"

/* ---- a record's wait, and what all others take ---- */

/* A job becomes ready when it is released, or when the job before it of its task ends if that is later. */
static uint32_t ready(const Run *run, const Record *record) {
    uint32_t at = record->release;
    for (uint32_t k = 0; k < run->record_count; k++) {
        const Record *other = &run->records[k];
        if (other->task == record->task && other->job + 1 == record->job && other->end > at) {
            at = other->end;
        }
    }
    return at;
}

static Bound bound_of(const Run *run, uint32_t record) {
    const Record *waiting = &run->records[record];
    uint64_t wait = waiting->start - ready(run, waiting);
    Bound bound = {.wait = wait, .on_cores = run->cores * wait};
    for (uint32_t k = 0; k < run->record_count; k++) {
        const Record *other = &run->records[k];
        if (k != record) {
            bound.lengths += other->end - other->start;
            bound.greatest += run->tasks[other->task].greatest;
        }
    }
    return bound;
}

uint32_t oracle_bounds(const uint8_t *file, size_t length, Bound bounds[MOST_JOBS]) {
    static Run run;
    oracle_read(file, length, &run);
    for (uint32_t k = 0; k < run.record_count; k++) {
        bounds[k] = bound_of(&run, k);
    }
    return run.record_count;
}

/* ---- what is promised ---- */

const char *waits_wrong(const uint8_t *file, size_t length) {
    static Run run;
    oracle_read(file, length, &run);
    for (uint32_t k = 0; k < run.record_count; k++) {
        if (run.records[k].start < ready(&run, &run.records[k])) {
            return "a job of an accepted run starts before it is ready";
        }
        Bound bound = bound_of(&run, k);
        if (bound.on_cores > bound.lengths) {
            return "N times a wait is more than the lengths of all other records";
        }
        if (bound.on_cores > bound.greatest) {
            return "N times a wait is more than the greatest times of all other records";
        }
    }
    return NULL;
}

static uint32_t running_at(const Run *run, uint32_t instant) {
    uint32_t running = 0;
    for (uint32_t k = 0; k < run->record_count; k++) {
        running += run->records[k].start <= instant && instant < run->records[k].end;
    }
    return running;
}

/* At each instant at which a job is ready and has not started N records run; all instants of all records but this one are no fewer
   than N for each of these. */
static const char *ticks_wrong(const Run *run, uint32_t k) {
    uint64_t waited = 0, taken = 0;
    for (uint32_t t = ready(run, &run->records[k]); t < run->records[k].start; t++) {
        if (running_at(run, t) != run->cores) {
            return "while a job waits, not N records run";
        }
        waited += run->cores;
    }
    for (uint32_t other = 0; other < run->record_count; other++) {
        for (uint32_t t = run->records[other].start; other != k && t < run->records[other].end; t++) {
            taken++;
        }
    }
    Bound bound = bound_of(run, k);
    return waited != bound.on_cores || taken != bound.lengths ? "the numbers of a wait, read tick by tick, are others" : NULL;
}

const char *waits_wrong_by_ticks(const uint8_t *file, size_t length) {
    static Run run;
    const char *wrong = NULL;
    oracle_read(file, length, &run);
    for (uint32_t k = 0; wrong == NULL && k < run.record_count; k++) {
        wrong = ticks_wrong(&run, k);
    }
    return wrong;
}

bool of_one_set(const uint8_t *file, size_t length, const uint8_t *other, size_t other_length) {
    static Run run, beside;
    oracle_read(file, length, &run);
    oracle_read(other, other_length, &beside);
    return run.cores == beside.cores && run.horizon == beside.horizon && run.task_count == beside.task_count &&
           memcmp(run.tasks, beside.tasks, run.task_count * sizeof *run.tasks) == 0;
}

const char *waits_wrong_by_set(const uint8_t *file, size_t length, const uint8_t *other, size_t other_length) {
    static Run run, beside;
    oracle_read(file, length, &run);
    oracle_read(other, other_length, &beside);
    for (uint32_t k = 0; k < run.record_count; k++) {
        const Record *here = &run.records[k], *there = &beside.records[k];
        if (k >= beside.record_count || here->task != there->task || here->job != there->job) {
            return "two accepted runs of one set have other jobs";
        }
        if (bound_of(&run, k).on_cores > bound_of(&beside, k).greatest) {
            return "N times a wait is more than the greatest times in another run of the set";
        }
    }
    return NULL;
}
