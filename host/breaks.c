#include "breaks.h"

#include <inttypes.h>

/* ---- the records and the jobs ---- */

static void say_jobs_place(FILE *out, const Said *of, uint32_t number) {
    fprintf(out, "The records and the existing jobs first differ at number %" PRIu32 ", counted from 0: ", number);
    if (number < of->layout->record_count) {
        struct octalmure_record record = record_of(of->layout, number);
        fputs("the record there is of ", out);
        call_job(out, of->names, record.task, record.job);
        fputs(".\n", out);
    } else {
        fputs("there the records have ended.\n", out);
    }
}

/* ---- one record; where rule 1 holds, it is that of a job ---- */

/* From one number to another, or the one that they both are. */
static void say_range(FILE *out, uint64_t least, uint64_t greatest) {
    fprintf(out, "%" PRIu64, least);
    if (greatest > least) {
        fprintf(out, " to %" PRIu64, greatest);
    }
}

static void say_release(FILE *out, const struct octalmure_record *record, const struct octalmure_task *task) {
    uint64_t from = (uint64_t)record->job * task->period + task->offset;
    fprintf(out, "it is released at %" PRIu32 ", and its task allows ", record->release);
    say_range(out, from, from + task->jitter);
    fputs(" for this job.\n", out);
}

static void say_length(FILE *out, const struct octalmure_record *record, const struct octalmure_task *task) {
    if (record->end < record->start) {
        fprintf(out, "it ends at %" PRIu32 ", before its start at %" PRIu32 ".\n", record->end, record->start);
        return;
    }
    uint32_t length = record->end - record->start;
    fprintf(out, "it runs from %" PRIu32 " to %" PRIu32 ", for %" PRIu32 " %s, and its task takes ", record->start, record->end, length,
            length == 1 ? "tick" : "ticks");
    say_range(out, task->least, task->greatest);
    fputs(".\n", out);
}

static void say_core(FILE *out, const struct octalmure_record *record, uint32_t cores) {
    fprintf(out, "it is on core %" PRIu32 ", and the run has %s ", record->core, cores == 1 ? "core" : "cores");
    say_range(out, 1, cores);
    fputs(".\n", out);
}

static void say_idling(FILE *out, const Said *of, const uint32_t place[3]) {
    fprintf(out, "it is ready at %" PRIu32 " and starts at %" PRIu32 ", and at instant %" PRIu32 " core %" PRIu32 " is idle.\n",
            ready_of(of->layout, place[0]), record_of(of->layout, place[0]).start, place[1], place[2]);
}

/* The record before is that of the job before. */
static void say_in_turn(FILE *out, const Said *of, uint32_t number) {
    fprintf(out, "it starts at %" PRIu32 ", and the job before it, ", record_of(of->layout, number).start);
    name_record(out, of, number - 1);
    fprintf(out, ", ends at %" PRIu32 ".\n", record_of(of->layout, number - 1).end);
}

static void say_record_place(FILE *out, const Said *of, uint32_t rule, const uint32_t place[3]) {
    struct octalmure_record record = record_of(of->layout, place[0]);
    struct octalmure_task task = task_of(of->layout, record.task);
    fputs("The lowest-numbered record that breaks it is ", out);
    name_record(out, of, place[0]);
    fputs(": ", out);
    switch (rule) {
    case OCTALMURE_RULE_RELEASE: say_release(out, &record, &task); break;
    case OCTALMURE_RULE_START:
        fprintf(out, "it starts at %" PRIu32 ", before its release at %" PRIu32 ".\n", record.start, record.release);
        break;
    case OCTALMURE_RULE_LENGTH: say_length(out, &record, &task); break;
    case OCTALMURE_RULE_CORE: say_core(out, &record, of->layout->setting.cores); break;
    case OCTALMURE_RULE_NO_IDLING: say_idling(out, of, place); break;
    default: say_in_turn(out, of, place[0]); break;
    }
}

/* ---- two records ---- */

static void say_overlap(FILE *out, const Said *of, const uint32_t place[3]) {
    struct octalmure_record first = record_of(of->layout, place[0]), second = record_of(of->layout, place[1]);
    name_record(out, of, place[0]);
    fprintf(out, " runs on core %" PRIu32 " from %" PRIu32 " to %" PRIu32 ", and ", first.core, first.start, first.end);
    name_record(out, of, place[1]);
    fprintf(out, " from %" PRIu32 " to %" PRIu32 ".\n", second.start, second.end);
}

static void say_order(FILE *out, const Said *of, const uint32_t place[3]) {
    name_record(out, of, place[0]);
    fprintf(out, " started at %" PRIu32 ", before ", record_of(of->layout, place[0]).start);
    name_record(out, of, place[1]);
    fprintf(out, ", which was ready at %" PRIu32 " and is due sooner.\n", ready_of(of->layout, place[1]));
}

static void say_pair_place(FILE *out, const Said *of, uint32_t rule, const uint32_t place[3]) {
    fputs("The first pair that breaks it: ", out);
    if (rule == OCTALMURE_RULE_NO_OVERLAP) {
        say_overlap(out, of, place);
    } else {
        say_order(out, of, place);
    }
}

/* ---- all of it ---- */

void say_where_it_breaks(FILE *out, const Said *of, const struct octalmure_answer *answer) {
    switch (answer->code) {
    case OCTALMURE_RULE_JOBS: say_jobs_place(out, of, answer->place[0]); break;
    case OCTALMURE_RULE_NO_OVERLAP:
    case OCTALMURE_RULE_ORDER: say_pair_place(out, of, answer->code, answer->place); break;
    default: say_record_place(out, of, answer->code, answer->place); break;
    }
    if (answer->code + 1 < OCTALMURE_RULES_END) {
        fprintf(out, "Rules after %" PRIu32 " may be broken too; the lowest-numbered is named.\n", answer->code);
    }
}
