#include "tables.h"

#include <inttypes.h>

#include "rows.h"

static void put_cells(Row *row, const uint32_t *numbers, size_t count) {
    for (size_t i = 0; i < count; i++) {
        snprintf(row->cells[i], CELL, "%" PRIu32, numbers[i]);
    }
}

static void fill_task(const void *of, size_t number, Row *row) {
    struct octalmure_task task = task_of(of, (uint32_t)number);
    const uint32_t numbers[] = {(uint32_t)number, task.period, task.least, task.greatest, task.offset, task.jitter};
    put_cells(row, numbers, sizeof numbers / sizeof numbers[0]);
}

static void fill_record(const void *of, size_t number, Row *row) {
    struct octalmure_record record = record_of(of, (uint32_t)number);
    const uint32_t numbers[] = {(uint32_t)number, record.task, record.job, record.release, record.start, record.end, record.core};
    enum { NUMBERS = sizeof numbers / sizeof numbers[0] };
    uint64_t deadline, late = late_by(of, &record);
    put_cells(row, numbers, NUMBERS);
    if (deadline_of(of, &record, &deadline)) {
        snprintf(row->cells[NUMBERS], CELL, "%" PRIu64, deadline);
    } else {
        snprintf(row->cells[NUMBERS], CELL, "no such task");
    }
    if (late > 0) {
        snprintf(row->cells[NUMBERS + 1], CELL, "late by %" PRIu64, late);
    } else {
        snprintf(row->cells[NUMBERS + 1], CELL, "in time");
    }
}

/* What the count says, and the rows that could be read. */
static void print_section(FILE *out, const char *name, uint32_t count, const Rows *rows) {
    fprintf(out, "\n%s: %" PRIu32, name, count);
    if (rows->rows > 0 && rows->rows < count) {
        fprintf(out, ", of which %zu could be read", rows->rows);
    }
    fputc('\n', out);
    if (rows->rows > 0) {
        print_rows(out, rows);
    }
}

static void print_tasks(FILE *out, const Layout *layout) {
    Rows rows = {{"task", "P", "B", "W", "O", "J"}, 6, layout->tasks, fill_task, layout};
    print_section(out, "Tasks", layout->task_count, &rows);
}

static void print_records(FILE *out, const Layout *layout, Status status) {
    Rows rows = {{"record", "task", "job", "r", "s", "e", "core", "deadline", "lateness"},
                 status == FINE ? 9 : status == BROKEN ? 8 : 7, layout->records, fill_record, layout};
    print_section(out, "Records", layout->record_count, &rows);
}

void print_tables(FILE *out, const Layout *layout, Status status) {
    if (read_through(layout, SETTING)) {
        fprintf(out, "\nSetting: N = %" PRIu32 ", H = %" PRIu32 "\n", layout->setting.cores, layout->setting.horizon);
    }
    if (read_through(layout, TASK_COUNT)) {
        print_tasks(out, layout);
    }
    if (read_through(layout, RECORD_COUNT)) {
        print_records(out, layout, status);
    }
}
