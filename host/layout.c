#include "layout.h"

/* Goes on to a part of so many bytes. */
static bool take(Layout *layout, Part part, size_t bytes) {
    layout->part = part;
    layout->cut = layout->length - layout->begin < bytes;
    return !layout->cut;
}

static bool take_count(Layout *layout, Part part, uint32_t *count) {
    if (!take(layout, part, OCTALMURE_NUMBER_BYTES)) {
        return false;
    }
    *count = octalmure_number(layout->bytes + layout->begin);
    return true;
}

/* The entries behind their count: how many whole ones are there, and whether that is all of them. */
static bool take_entries(Layout *layout, Part part, uint32_t count, size_t each, uint32_t *whole) {
    layout->begin += OCTALMURE_NUMBER_BYTES;
    size_t there = (layout->length - layout->begin) / each;
    *whole = there < count ? (uint32_t)there : count;
    return take(layout, part, each * count);
}

static bool take_setting(Layout *layout) {
    enum { NUMBERS = 2 };
    uint32_t whole;
    if (!take_count(layout, SETTING_COUNT, &layout->setting_count) || layout->setting_count != NUMBERS ||
        !take_entries(layout, SETTING, NUMBERS, OCTALMURE_NUMBER_BYTES, &whole)) {
        return false;
    }
    layout->setting.cores = octalmure_number(layout->bytes + layout->begin);
    layout->setting.horizon = octalmure_number(layout->bytes + layout->begin + OCTALMURE_NUMBER_BYTES);
    layout->begin += NUMBERS * OCTALMURE_NUMBER_BYTES;
    return true;
}

static bool take_tasks(Layout *layout) {
    if (!take_count(layout, TASK_COUNT, &layout->task_count) || layout->task_count == 0 ||
        layout->task_count > OCTALMURE_MOST_TASKS) {
        return false;
    }
    bool all = take_entries(layout, TASKS, layout->task_count, OCTALMURE_TASK_BYTES, &layout->tasks);
    layout->tasks_at = layout->begin;
    layout->begin += all ? OCTALMURE_TASK_BYTES * (size_t)layout->task_count : 0;
    return all;
}

static bool take_records(Layout *layout) {
    if (!take_count(layout, RECORD_COUNT, &layout->record_count) || layout->record_count > OCTALMURE_MOST_JOBS) {
        return false;
    }
    bool all = take_entries(layout, RECORDS, layout->record_count, OCTALMURE_RECORD_BYTES, &layout->records);
    layout->records_at = layout->begin;
    layout->begin += all ? OCTALMURE_RECORD_BYTES * (size_t)layout->record_count : 0;
    return all;
}

Layout layout_of(const uint8_t *bytes, size_t length) {
    Layout layout = {.bytes = bytes, .length = length, .part = SETTING_COUNT};
    if (take_setting(&layout) && take_tasks(&layout) && take_records(&layout)) {
        layout.part = END;
    }
    return layout;
}

bool read_through(const Layout *layout, Part part) {
    return layout->part > part || (layout->part == part && !layout->cut);
}

struct octalmure_task task_of(const Layout *layout, uint32_t number) {
    return octalmure_task_at(layout->bytes + layout->tasks_at + OCTALMURE_TASK_BYTES * (size_t)number);
}

struct octalmure_record record_of(const Layout *layout, uint32_t number) {
    return octalmure_record_at(layout->bytes + layout->records_at + OCTALMURE_RECORD_BYTES * (size_t)number);
}

uint32_t ready_of(const Layout *layout, uint32_t number) {
    struct octalmure_record record = record_of(layout, number);
    uint32_t before = record.job > 0 ? record_of(layout, number - 1).end : 0;
    return before > record.release ? before : record.release;
}

bool deadline_of(const Layout *layout, const struct octalmure_record *record, uint64_t *deadline) {
    if (record->task >= layout->tasks) {
        return false;
    }
    struct octalmure_task task = task_of(layout, record->task);
    *deadline = ((uint64_t)record->job + 1) * task.period + task.offset;
    return true;
}

uint64_t late_by(const Layout *layout, const struct octalmure_record *record) {
    uint64_t deadline;
    return deadline_of(layout, record, &deadline) && record->end > deadline ? record->end - deadline : 0;
}
