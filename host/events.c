#include "events.h"

#include <inttypes.h>

#include "json.h"

/* The format knows processes and their threads. Here the cores are the threads of the first process; jobs wait in the second. */
enum { CORES = 1, WAITING = 2 };

/* A record, and what is known of it. */
typedef struct {
    uint32_t number;
    struct octalmure_record record;
    bool has_ready, has_deadline, has_lateness;
    uint64_t ready, deadline, late_by;
} Known;

/* When a job is ready is known of a run that obeys rule 1, and whether it is late of one that is accepted. */
static Known known_of(const Said *of, const struct octalmure_answer *answer, uint32_t number) {
    bool accepted = answer->answer <= OCTALMURE_LATE_FROM_H;
    Known known = {.number = number, .record = record_of(of->layout, number), .has_lateness = accepted};
    known.has_ready = accepted || (answer->answer == OCTALMURE_BROKEN && answer->code > OCTALMURE_RULE_JOBS);
    known.ready = known.has_ready ? ready_of(of->layout, number) : 0;
    known.has_deadline = deadline_of(of->layout, &known.record, &known.deadline);
    known.late_by = accepted ? late_by(of->layout, &known.record) : 0;
    return known;
}

/* ---- the lanes ---- */

static void put_process(FILE *out, uint32_t process, const char *name) {
    fprintf(out, "{\"name\": \"process_name\", \"ph\": \"M\", \"pid\": %" PRIu32 ", \"args\": {\"name\": \"%s\"}}", process, name);
}

static void begin_lane(FILE *out, const char *name, uint32_t core) {
    fprintf(out, ",\n{\"name\": \"%s\", \"ph\": \"M\", \"pid\": %d, \"tid\": %" PRIu32 ", \"args\": {", name, CORES, core);
}

static void put_lane(FILE *out, uint32_t core) {
    begin_lane(out, "thread_name", core);
    fprintf(out, "\"name\": \"core %" PRIu32 "\"}}", core);
    begin_lane(out, "thread_sort_index", core);
    fprintf(out, "\"sort_index\": %" PRIu32 "}}", core);
}

static void put_lanes(FILE *out, uint32_t cores) {
    put_process(out, CORES, "cores");
    fputs(",\n", out);
    put_process(out, WAITING, "waiting");
    for (uint32_t core = 1; core <= cores; core++) {
        put_lane(out, core);
    }
}

/* ---- what happened ---- */

/* Where an event stands in time and among the lanes. */
static void put_place(FILE *out, uint64_t instant, uint32_t process, uint32_t thread) {
    put_number(out, "ts", true, instant);
    put_number(out, "pid", true, process);
    put_number(out, "tid", true, thread);
}

/* The front of an event that is named after a record's job. */
static void begin_event(FILE *out, const Said *of, const Known *known, const char *before) {
    const char *name = name_of(of->names, known->record.task);
    fprintf(out, ",\n{\"name\": \"%s", before);
    if (name != NULL) {
        put_text(out, name);
    } else {
        fprintf(out, "task %" PRIu32, known->record.task);
    }
    fprintf(out, ", job %" PRIu32 "\"", known->record.job);
}

static void put_job(FILE *out, const Said *of, const Known *known) {
    const struct octalmure_record *record = &known->record;
    begin_event(out, of, known, "");
    fprintf(out, ", \"cat\": \"%s\", \"ph\": \"X\"", known->late_by > 0 ? "job,late" : "job");
    put_place(out, record->start, CORES, record->core);
    put_number(out, "dur", true, record->end > record->start ? record->end - record->start : 0);
    fprintf(out, ", \"args\": {\"record\": %" PRIu32, known->number);
    put_number(out, "task", true, record->task);
    put_number(out, "job", true, record->job);
    put_number(out, "release", true, record->release);
    put_number(out, "ready", known->has_ready, known->ready);
    put_number(out, "start", true, record->start);
    put_number(out, "end", true, record->end);
    put_number(out, "core", true, record->core);
    put_number(out, "deadline", known->has_deadline, known->deadline);
    put_number(out, "late_by", known->has_lateness, known->late_by);
    fputs("}}", out);
}

/* From ready to start: a pair of events that belong together by their number, since many jobs may wait for one core. */
static void put_wait(FILE *out, const Said *of, const Known *known) {
    const uint64_t instants[] = {known->ready, known->record.start};
    for (int i = 0; i < 2; i++) {
        begin_event(out, of, known, "");
        fprintf(out, ", \"cat\": \"wait\", \"ph\": \"%c\", \"id\": %" PRIu32, "be"[i], known->number);
        put_place(out, instants[i], WAITING, known->record.core);
        fputc('}', out);
    }
}

static void put_deadline(FILE *out, const Said *of, const Known *known) {
    begin_event(out, of, known, "due: ");
    fputs(", \"cat\": \"deadline\", \"ph\": \"i\", \"s\": \"t\"", out);
    put_place(out, known->deadline, CORES, known->record.core);
    fprintf(out, ", \"args\": {\"record\": %" PRIu32 "}}", known->number);
}

static void put_record(FILE *out, const Said *of, const Known *known) {
    put_job(out, of, known);
    if (known->has_ready && known->ready < known->record.start) {
        put_wait(out, of, known);
    }
    if (known->has_deadline) {
        put_deadline(out, of, known);
    }
}

/* It goes through all lanes. An event has a thread all the same, and every run has a core 1. */
static void put_horizon(FILE *out, uint32_t horizon) {
    fprintf(out, ",\n{\"name\": \"H = %" PRIu32 "\", \"cat\": \"horizon\", \"ph\": \"i\", \"s\": \"g\"", horizon);
    put_place(out, horizon, CORES, 1);
    fputc('}', out);
}

/* ---- all of it ---- */

static void put_other(FILE *out, const Layout *layout, const struct octalmure_answer *answer) {
    fprintf(out, "\"otherData\": {\"octalmure\": \"%s\", \"tick\": \"1 us\"", OCTALMURE_VERSION);
    put_number(out, "cores", true, layout->setting.cores);
    put_number(out, "horizon", true, layout->setting.horizon);
    fprintf(out, ", \"answer\": [%" PRIu32 ", %" PRIu32 ", %" PRIu32 ", %" PRIu32 ", %" PRIu32 "]}", answer->answer, answer->code,
            answer->place[0], answer->place[1], answer->place[2]);
}

void print_events(FILE *out, const Said *of, const struct octalmure_answer *answer) {
    fputs("{\"traceEvents\": [\n", out);
    put_lanes(out, of->layout->setting.cores);
    put_horizon(out, of->layout->setting.horizon);
    for (uint32_t k = 0; k < of->layout->record_count; k++) {
        Known known = known_of(of, answer, k);
        put_record(out, of, &known);
    }
    fputs("\n], ", out);
    put_other(out, of->layout, answer);
    fputs("}\n", out);
}
