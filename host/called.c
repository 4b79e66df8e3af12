#include "called.h"

#include <inttypes.h>

#include "status.h"

static void put_mark(FILE *out, const Names *names, char mark) {
    if (names->marked) {
        fputc(mark, out);
    }
}

static void put_name(FILE *out, const Names *names, const char *name) {
    fputc('"', out);
    put_mark(out, names, NAME_BEGINS);
    put_visible(out, name);
    put_mark(out, names, NAME_ENDS);
    fputc('"', out);
}

void call_task(FILE *out, const Names *names, uint32_t task) {
    const char *name = name_of(names, task);
    if (name == NULL) {
        fprintf(out, "task %" PRIu32, task);
    } else {
        put_name(out, names, name);
        fprintf(out, " (task %" PRIu32 ")", task);
    }
}

void call_job(FILE *out, const Names *names, uint32_t task, uint32_t job) {
    const char *name = name_of(names, task);
    if (name == NULL) {
        fprintf(out, "task %" PRIu32, task);
    } else {
        put_name(out, names, name);
    }
    fprintf(out, ", job %" PRIu32, job);
}

void call_record(FILE *out, const Names *names, uint32_t number, uint32_t task, uint32_t job) {
    if (name_of(names, task) == NULL) {
        fprintf(out, "record %" PRIu32 " (", number);
        call_job(out, names, task, job);
        fputc(')', out);
    } else {
        call_job(out, names, task, job);
        fprintf(out, " (record %" PRIu32 ")", number);
    }
}
