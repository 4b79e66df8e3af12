#include "reason.h"

#include "library.h"

static Job job_of(const Layout *layout, uint32_t number) {
    Job job = {.number = number, .record = record_of(layout, number), .ready = ready_of(layout, number)};
    job.length = job.record.end - job.record.start;
    deadline_of(layout, &job.record, &job.deadline);
    return job;
}

/* ---- the late ones ---- */

/* Each is put behind those that are due no later: of equal ones those before it in the file. */
uint32_t late_records(const Layout *layout, uint32_t numbers[OCTALMURE_MOST_JOBS]) {
    uint64_t due[OCTALMURE_MOST_JOBS];
    uint32_t count = 0;
    for (uint32_t k = 0; k < layout->record_count; k++) {
        struct octalmure_record record = record_of(layout, k);
        uint64_t late = late_by(layout, &record);
        if (late > 0) {
            uint32_t at = count++;
            for (; at > 0 && due[at - 1] > record.end - late; at--) {
                due[at] = due[at - 1];
                numbers[at] = numbers[at - 1];
            }
            due[at] = record.end - late;
            numbers[at] = k;
        }
    }
    return count;
}

/* ---- the chain of one ---- */

/* The library's cause is the preceding job of the task if that ended at this start, and else a job on the same core: so it is that of
   the core exactly if it is not the preceding job. */
static void join(Link *link, const Job *cause) {
    const struct octalmure_record *record = &link->job.record, *other = &cause->record;
    bool preceding = other->task == record->task && other->job + 1 == record->job;
    link->began = preceding ? AFTER_PRECEDING_JOB : AFTER_JOB_ON_CORE;
    link->due_sooner = link->job.deadline < cause->deadline;
}

Status find_reason(const Layout *layout, uint32_t number, Reason *reason) {
    uint8_t chain[OCTALMURE_MOST_CHAIN_BYTES];
    struct octalmure_answer answer = why_bytes(layout->bytes, layout->length, number, chain);
    if (answer.answer != OCTALMURE_CHAIN || answer.code == 0 || answer.code > OCTALMURE_MOST_JOBS) {
        return trouble("the library", "it gives no chain for a record of an accepted run");
    }
    reason->count = answer.code;
    for (uint32_t i = 0; i < reason->count; i++) {
        uint32_t record = octalmure_number(chain + OCTALMURE_NUMBER_BYTES * (size_t)i);
        reason->links[i] = (Link){.job = job_of(layout, record), .began = AT_RELEASE, .due_sooner = false};
        if (i > 0) {
            join(&reason->links[i - 1], &reason->links[i].job);
        }
    }
    return FINE;
}
