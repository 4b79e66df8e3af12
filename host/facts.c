#include "facts.h"

#include <inttypes.h>
#include <stdlib.h>

#include "because.h"
#include "json.h"
#include "output.h"
#include "reason.h"

/* ---- what the check said ---- */

static const char *verdict_of(const struct octalmure_answer *answer) {
    return answer->answer == OCTALMURE_BROKEN ? "not_permitted" : answer->answer == OCTALMURE_REFUSED ? "refused" : "accepted";
}

static void print_answer(FILE *out, const struct octalmure_answer *answer) {
    fprintf(out, "\"octalmure\": \"%s\", \"answer\": %" PRIu32 ", \"code\": %" PRIu32 ", \"place\": [%" PRIu32 ", %" PRIu32 ", %" PRIu32
            "], \"verdict\": \"%s\"", OCTALMURE_VERSION, answer->answer, answer->code, answer->place[0], answer->place[1],
            answer->place[2], verdict_of(answer));
}

/* Every rule has the first of these numbers; which others, its number says. */
static void print_rule(FILE *out, const struct octalmure_answer *answer) {
    bool pair = answer->code == OCTALMURE_RULE_NO_OVERLAP || answer->code == OCTALMURE_RULE_ORDER;
    bool idle = answer->code == OCTALMURE_RULE_NO_IDLING;
    fputs(", \"rule\": ", out);
    if (answer->answer != OCTALMURE_BROKEN) {
        fputs("null", out);
        return;
    }
    fprintf(out, "{\"number\": %" PRIu32 ", \"text\": ", answer->code);
    put_string(out, octalmure_rule_text(answer->code));
    put_number(out, "record", true, answer->place[0]);
    put_number(out, "other_record", pair, answer->place[1]);
    put_number(out, "instant", idle, answer->place[1]);
    put_number(out, "core", idle, answer->place[2]);
    fputc('}', out);
}

static void print_refusal(FILE *out, const struct octalmure_answer *answer) {
    fputs(", \"refusal\": ", out);
    if (answer->answer != OCTALMURE_REFUSED) {
        fputs("null", out);
        return;
    }
    fprintf(out, "{\"number\": %" PRIu32 ", \"text\": ", answer->code);
    put_string(out, octalmure_refusal_text(answer->code));
    put_number(out, "task", answer->code == OCTALMURE_REFUSAL_TASK_RANGE, answer->place[0]);
    fputc('}', out);
}

/* ---- the run ---- */

static void print_task(FILE *out, const Said *of, uint32_t number) {
    struct octalmure_task task = task_of(of->layout, number);
    fprintf(out, "{\"task\": %" PRIu32 ", \"name\": ", number);
    put_string(out, name_of(of->names, number));
    fprintf(out, ", \"period\": %" PRIu32 ", \"least\": %" PRIu32 ", \"greatest\": %" PRIu32 ", \"offset\": %" PRIu32
            ", \"jitter\": %" PRIu32 "}", task.period, task.least, task.greatest, task.offset, task.jitter);
}

/* Of a file that is refused, what could be read is no run. */
static void print_run(FILE *out, const Said *of, bool is_run) {
    put_number(out, "cores", is_run, of->layout->setting.cores);
    put_number(out, "horizon", is_run, of->layout->setting.horizon);
    put_number(out, "record_count", is_run, of->layout->record_count);
    fputs(is_run ? ", \"tasks\": [" : ", \"tasks\": null", out);
    for (uint32_t i = 0; is_run && i < of->layout->task_count; i++) {
        fputs(i > 0 ? ", " : "", out);
        print_task(out, of, i);
    }
    fputs(is_run ? "]" : "", out);
}

/* ---- a late record ---- */

static void print_job(FILE *out, const Said *of, const Job *job) {
    const struct octalmure_record *record = &job->record;
    fprintf(out, "\"record\": %" PRIu32 ", \"task\": %" PRIu32 ", \"job\": %" PRIu32 ", \"name\": ", job->number, record->task,
            record->job);
    put_string(out, name_of(of->names, record->task));
    fprintf(out, ", \"release\": %" PRIu32 ", \"ready\": %" PRIu32 ", \"start\": %" PRIu32 ", \"end\": %" PRIu32
            ", \"length\": %" PRIu32 ", \"core\": %" PRIu32 ", \"deadline\": %" PRIu64, record->release, job->ready, record->start,
            record->end, job->length, record->core, job->deadline);
}

static void print_link(FILE *out, const Said *of, const Reason *reason, uint32_t number) {
    static const char *const began[] = {
        [AT_RELEASE] = "at_release", [AFTER_PRECEDING_JOB] = "after_preceding_job", [AFTER_JOB_ON_CORE] = "after_job_on_core"};
    const Link *link = &reason->links[number];
    bool waited = link->began != AT_RELEASE;
    fputc('{', out);
    print_job(out, of, &link->job);
    fprintf(out, ", \"began\": \"%s\"", began[link->began]);
    put_number(out, "waited_for", waited, waited ? link[1].job.number : 0);
    fprintf(out, ", \"due_sooner\": %s}", !waited ? "null" : link->due_sooner ? "true" : "false");
}

static void print_sum(FILE *out, const Reason *reason) {
    fprintf(out, ", \"sum\": {\"first_release\": %" PRIu32 ", \"lengths\": [", reason->links[reason->count - 1].job.record.release);
    for (uint32_t i = reason->count; i > 0; i--) {
        fprintf(out, "%s%" PRIu32, i < reason->count ? ", " : "", reason->links[i - 1].job.length);
    }
    fprintf(out, "], \"end\": %" PRIu32 "}", reason->links[0].job.record.end);
}

/* What was said, as a list of its lines. */
static Status print_said(FILE *out, Output *said) {
    Status status = gather_output(said);
    if (status == FINE) {
        fputs(", \"sentences\": ", out);
        put_lines(out, said->bytes);
    }
    free(said->bytes);
    return status;
}

static Status print_late(FILE *out, const Said *of, const Reason *reason) {
    const Job *late = &reason->links[0].job;
    Output said;
    fputc('{', out);
    print_job(out, of, late);
    fprintf(out, ", \"late_by\": %" PRIu64 ", \"begins_before_horizon\": %s, \"chain\": [", late->record.end - late->deadline,
            late->record.start < of->recorded ? "true" : "false");
    for (uint32_t i = 0; i < reason->count; i++) {
        fputs(i > 0 ? ", " : "", out);
        print_link(out, of, reason, i);
    }
    fputc(']', out);
    print_sum(out, reason);
    if (open_output(&said) != FINE) {
        return TROUBLE;
    }
    say_reason(said.text, of, reason);
    Status status = print_said(out, &said);
    fputc('}', out);
    return status;
}

static Status print_every_late(FILE *out, const Said *of) {
    uint32_t late[OCTALMURE_MOST_JOBS], count = late_records(of->layout, late);
    Reason reason;
    for (uint32_t i = 0; i < count; i++) {
        fputs(i > 0 ? ", " : "", out);
        if (find_reason(of->layout, late[i], &reason) != FINE || print_late(out, of, &reason) != FINE) {
            return TROUBLE;
        }
    }
    return FINE;
}

/* ---- all of it ---- */

Status print_facts(FILE *out, const Said *of, const struct octalmure_answer *answer) {
    bool accepted = answer->answer <= OCTALMURE_LATE_FROM_H;
    Output said;
    fputc('{', out);
    print_answer(out, answer);
    if (open_output(&said) != FINE) {
        return TROUBLE;
    }
    say_before_reasons(said.text, of, answer);
    if (print_said(out, &said) != FINE) {
        return TROUBLE;
    }
    print_rule(out, answer);
    print_refusal(out, answer);
    print_run(out, of, answer->answer != OCTALMURE_REFUSED);
    fputs(accepted ? ", \"late\": [" : ", \"late\": null", out);
    if (accepted && print_every_late(out, of) != FINE) {
        return TROUBLE;
    }
    fputs(accepted ? "]}\n" : "}\n", out);
    return FINE;
}
