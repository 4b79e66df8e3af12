#include "scale.h"

/* A tick is no wider than this; a deadline so many times as far as all else is not drawn at its place. */
enum { MOST_WIDE = 8, FAR = 3 };

bool drawable(const Layout *layout, const struct octalmure_record *record) {
    return record->core >= 1 && record->core <= layout->setting.cores && record->start < record->end;
}

static uint64_t lower(uint64_t a, uint64_t b) {
    return a < b ? a : b;
}

static uint64_t higher(uint64_t a, uint64_t b) {
    return a > b ? a : b;
}

/* From the first start to the last end, with H between. What begins soon after 0 is shown from 0 on. */
static void span_of(const Layout *layout, Scale *scale) {
    bool any = false;
    scale->from = scale->to = layout->setting.horizon;
    for (uint32_t k = 0; k < layout->records; k++) {
        struct octalmure_record record = record_of(layout, k);
        if (drawable(layout, &record)) {
            scale->from = lower(scale->from, record.start);
            scale->to = higher(scale->to, record.end);
            any = true;
        }
    }
    if (!any || scale->from <= scale->to / 4) {
        scale->from = 0;
    }
}

static void span_deadlines(const Layout *layout, Scale *scale) {
    uint64_t far = scale->from + FAR * (scale->to - scale->from), deadline;
    for (uint32_t k = 0; k < layout->records; k++) {
        struct octalmure_record record = record_of(layout, k);
        if (drawable(layout, &record) && deadline_of(layout, &record, &deadline) && deadline <= far) {
            scale->to = higher(scale->to, deadline);
        }
    }
}

/* The least round number from this one on: a digit or two, and zeros. */
static uint64_t rounded(uint64_t number) {
    static const uint64_t digits[] = {10, 12, 15, 20, 25, 30, 40, 50, 60, 80, 100};
    uint64_t ten = 1;
    if (number <= 10) {
        return number;
    }
    while (100 * ten < number) {
        ten *= 10;
    }
    size_t i = 0;
    while (digits[i] * ten < number) {
        i++;
    }
    return digits[i] * ten;
}

Scale scale_of(const Layout *layout, size_t most) {
    Scale scale = {.wide = 1, .ticks = 1};
    span_of(layout, &scale);
    span_deadlines(layout, &scale);
    uint64_t instants = scale.to - scale.from + 1;
    if (instants <= most) {
        scale.wide = lower(most / instants, MOST_WIDE);
    } else {
        scale.ticks = rounded((instants + most - 1) / most);
    }
    scale.columns = column_of(&scale, scale.to) + 1;
    return scale;
}

size_t column_of(const Scale *scale, uint64_t instant) {
    return (size_t)((instant - scale->from) * scale->wide / scale->ticks);
}

size_t last_column_of(const Scale *scale, uint64_t end) {
    return (size_t)(((end - scale->from) * scale->wide - 1) / scale->ticks);
}
