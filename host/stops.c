#include "stops.h"

#include <inttypes.h>

#include "input.h"

/* The part in which the bytes end; of a section, in which of its entries. */
static void say_part(FILE *out, const Layout *layout, const Names *names) {
    switch (layout->part) {
    case SETTING_COUNT: fputs("the setting's count", out); break;
    case SETTING: fputs("the setting, N and H", out); break;
    case TASK_COUNT: fputs("the task count", out); break;
    case TASKS:
        call_task(out, names, layout->tasks);
        fprintf(out, ", and the task count says %" PRIu32, layout->task_count);
        break;
    case RECORD_COUNT: fputs("the record count", out); break;
    default: fprintf(out, "record %" PRIu32 ", and the record count says %" PRIu32, layout->records, layout->record_count); break;
    }
}

static void say_cut_short(FILE *out, const Layout *layout, const Names *names) {
    fprintf(out, "The file has %zu bytes; they end inside ", layout->length);
    say_part(out, layout, names);
    fputs(".\n", out);
}

static void say_task(FILE *out, const Layout *layout, const Names *names, uint32_t number) {
    if (number < layout->tasks) {
        struct octalmure_task task = task_of(layout, number);
        fputs("The lowest-numbered such task is ", out);
        call_task(out, names, number);
        fprintf(out, ": P %" PRIu32 ", B %" PRIu32 ", W %" PRIu32 ", O %" PRIu32 ", J %" PRIu32 ".\n", task.period, task.least,
                task.greatest, task.offset, task.jitter);
        fputs("P, B and W must be 1 to 1000000 and B at most W, O at most 1000000, J below P.\n", out);
    }
}

/* What was not read is not counted: a file may be longer than what is read of it. */
static void say_trailing(FILE *out, const Layout *layout) {
    size_t more = layout->length - layout->begin;
    fprintf(out, "The last section ends after %zu bytes, and %s%zu more %s.\n", layout->begin,
            layout->length < MOST_RUN ? "" : "at least ", more, more == 1 ? "follows" : "follow");
}

void say_where_it_stops(FILE *out, const Layout *layout, const Names *names, const struct octalmure_answer *answer) {
    switch (answer->code) {
    case OCTALMURE_REFUSAL_CUT_SHORT: say_cut_short(out, layout, names); break;
    case OCTALMURE_REFUSAL_SETTING_COUNT: fprintf(out, "The first number is %" PRIu32 ".\n", layout->setting_count); break;
    case OCTALMURE_REFUSAL_SETTING_RANGE:
        fprintf(out, "N is %" PRIu32 " and must be 1 to 16; H is %" PRIu32 " and must be 1 to 1000000.\n", layout->setting.cores,
                layout->setting.horizon);
        break;
    case OCTALMURE_REFUSAL_TASK_COUNT: fprintf(out, "It is %" PRIu32 " and must be 1 to 32.\n", layout->task_count); break;
    case OCTALMURE_REFUSAL_TASK_RANGE: say_task(out, layout, names, answer->place[0]); break;
    case OCTALMURE_REFUSAL_TOO_MANY_JOBS:
        fprintf(out, "Its tasks have that many before H = %" PRIu32 ".\n", layout->setting.horizon);
        break;
    case OCTALMURE_REFUSAL_RECORD_COUNT: fprintf(out, "The record count is %" PRIu32 ".\n", layout->record_count); break;
    case OCTALMURE_REFUSAL_TRAILING_BYTES: say_trailing(out, layout); break;
    default: break;
    }
}
