#include "sentences.h"

#include <inttypes.h>

#include "breaks.h"
#include "stops.h"

void name_record(FILE *out, const Said *of, uint32_t number) {
    struct octalmure_record record = record_of(of->layout, number);
    call_record(out, of->names, number, record.task, record.job);
}

/* ---- accepted ---- */

static void say_none_late(FILE *out) {
    fputs("Accepted: this run obeys all rules, and none of its jobs is late.\n", out);
    fputs("That says nothing about other runs of these tasks.\n", out);
}

static void say_late_count(FILE *out, const Layout *layout, uint32_t late) {
    fprintf(out, "Accepted: this run obeys all rules. %" PRIu32 " of its %" PRIu32 " %s %s late.\n", late, layout->record_count,
            layout->record_count == 1 ? "record" : "records", late == 1 ? "is" : "are");
}

/* Only the lateness of a record which begins before the recorded H is sure to stay. */
void say_whether_it_stays(FILE *out, const Said *of, const struct octalmure_record *record) {
    bool before = record->start < of->recorded;
    if (of->carried) {
        fprintf(out, before ? "  It began before the recorded H = %" PRIu32 " and stands here as it was recorded.\n"
                            : "  It began in the carried part, from H = %" PRIu32 " on: another way on may differ.\n", of->recorded);
    } else {
        fprintf(out, before ? "  It began before H = %" PRIu32 ": its lateness stands unchanged in every carry of this run.\n"
                            : "  It did not begin before H = %" PRIu32 ": a carry of this run may change it.\n", of->recorded);
    }
}

static void say_late(FILE *out, const Said *of, uint32_t number) {
    struct octalmure_record record = record_of(of->layout, number);
    uint64_t late = late_by(of->layout, &record);
    fputs("Late: ", out);
    name_record(out, of, number);
    fprintf(out, " was due at %" PRIu64 ", began at %" PRIu32 " and ended at %" PRIu32 ": %" PRIu64 " %s late.\n", record.end - late,
            record.start, record.end, late, late == 1 ? "tick" : "ticks");
    say_whether_it_stays(out, of, &record);
}

static void say_every_late(FILE *out, const Said *of) {
    for (uint32_t k = 0; k < of->layout->record_count; k++) {
        struct octalmure_record record = record_of(of->layout, k);
        if (late_by(of->layout, &record) > 0) {
            say_late(out, of, k);
        }
    }
}

/* ---- all of it ---- */

void say_verdict(FILE *out, const Layout *layout, const struct octalmure_answer *answer) {
    switch (answer->answer) {
    case OCTALMURE_NONE_LATE: say_none_late(out); break;
    case OCTALMURE_LATE_BEFORE_H:
    case OCTALMURE_LATE_FROM_H: say_late_count(out, layout, answer->code); break;
    case OCTALMURE_BROKEN:
        fprintf(out, "Not permitted: rule %" PRIu32 " (%s) is broken.\n", answer->code, octalmure_rule_text(answer->code));
        break;
    default: fprintf(out, "Refused: %s (refusal %" PRIu32 ").\n", octalmure_refusal_text(answer->code), answer->code); break;
    }
}

void say_details(FILE *out, const Said *of, const struct octalmure_answer *answer) {
    switch (answer->answer) {
    case OCTALMURE_NONE_LATE: break;
    case OCTALMURE_LATE_BEFORE_H:
    case OCTALMURE_LATE_FROM_H: say_every_late(out, of); break;
    case OCTALMURE_BROKEN: say_where_it_breaks(out, of, answer); break;
    default: say_where_it_stops(out, of->layout, of->names, answer); break;
    }
}

void say_carried(FILE *out, const Number *horizon, const struct octalmure_answer *answer) {
    if (answer->answer == OCTALMURE_CARRIED) {
        fprintf(out, "Carried to H = %s, %" PRIu32 " bytes: one way on of those that the rules permit. Of that run:\n", horizon->digits,
                answer->code);
    } else {
        fprintf(out, "Not carried to H = %s: %s (refusal %" PRIu32 ").\n", horizon->digits, octalmure_refusal_text(answer->code),
                answer->code);
    }
}
