#include "because.h"

#include <inttypes.h>

void say_before_reasons(FILE *out, const Said *of, const struct octalmure_answer *answer) {
    say_verdict(out, of->layout, answer);
    if (answer->answer == OCTALMURE_BROKEN || answer->answer == OCTALMURE_REFUSED) {
        say_details(out, of, answer);
    }
    if (answer->answer == OCTALMURE_BROKEN) {
        fputs("No reasons are given for a run that is not permitted.\n", out);
    }
}

void say_how_late(FILE *out, const Said *of, const Job *late) {
    uint64_t by = late->record.end - late->deadline;
    fputs("Late: ", out);
    name_record(out, of, late->number);
    fprintf(out, " was released at %" PRIu32 " and due at %" PRIu64 "; it began at %" PRIu32 " and ended at %" PRIu32 ": %" PRIu64
            " %s late.\n", late->record.release, late->deadline, late->record.start, late->record.end, by, by == 1 ? "tick" : "ticks");
    say_whether_it_stays(out, of, &late->record);
}

/* ---- link by link ---- */

static void say_preceding(FILE *out, const Said *of, const Job *before) {
    fputs("it waited for its own preceding job, ", out);
    name_record(out, of, before->number);
    fprintf(out, ", which ran from %" PRIu32 " to %" PRIu32 ".\n", before->record.start, before->record.end);
}

/* By rule 8 every core was busy from when the job was ready to its start. A job that is ready after its release became so when the
   preceding one ended. If the job was due sooner than the one that held the core, then by rule 7 that one had begun before the job was
   ready. */
static void say_core(FILE *out, const Said *of, const Link *link, const Job *holder) {
    const Job *job = &link->job;
    fprintf(out, "it waited for core %" PRIu32 ", on which ", job->record.core);
    name_record(out, of, holder->number);
    fprintf(out, " ran from %" PRIu32 " to %" PRIu32 ".\n", holder->record.start, holder->record.end);
    fprintf(out, "    Every core was busy from %" PRIu32 ", when %sit was ready, to %" PRIu32 ".\n", job->ready,
            job->ready > job->record.release ? "its preceding job had ended and " : "", job->record.start);
    if (link->due_sooner) {
        fprintf(out, "    It was due at %" PRIu64 ", sooner than the other, which was due at %" PRIu64 "; but the other had begun at %"
                PRIu32 ", before this one was ready at %" PRIu32 ".\n", job->deadline, holder->deadline, holder->record.start, job->ready);
    }
}

void say_link(FILE *out, const Said *of, const Reason *reason, uint32_t number) {
    const Link *link = &reason->links[number];
    fputs("  Why ", out);
    if (number == 0) {
        fputs("it", out);
    } else {
        name_record(out, of, link->job.number);
    }
    fprintf(out, " began at %" PRIu32 ": ", link->job.record.start);
    switch (link->began) {
    case AT_RELEASE: fputs("it was released then.\n", out); break;
    case AFTER_PRECEDING_JOB: say_preceding(out, of, &link[1].job); break;
    case AFTER_JOB_ON_CORE: say_core(out, of, link, &link[1].job); break;
    }
}

/* The release of the first job of the chain, and the lengths from there to the late one. */
void say_sum(FILE *out, const Reason *reason) {
    const Job *late = &reason->links[0].job, *first = &reason->links[reason->count - 1].job;
    fprintf(out, "  The sum: %" PRIu32, first->record.release);
    for (uint32_t i = reason->count; i > 0; i--) {
        fprintf(out, " + %" PRIu32, reason->links[i - 1].job.length);
    }
    fprintf(out, " = %" PRIu32 ", due %" PRIu64 ": %" PRIu64 " late.\n", late->record.end, late->deadline,
            late->record.end - late->deadline);
}

void say_reason(FILE *out, const Said *of, const Reason *reason) {
    say_how_late(out, of, &reason->links[0].job);
    for (uint32_t i = 0; i < reason->count; i++) {
        say_link(out, of, reason, i);
    }
    say_sum(out, reason);
}
