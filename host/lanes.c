#include "lanes.h"

#include <stdlib.h>

/* Heights of a lane's parts, in pixels: a bar with two lines of text in it, a wait, and the most that rows of them take together. */
enum { BAR = 32, MOST_BARS = 96, WAIT = 5, MOST_WAITS = 40, NO_WAITS = 4, GAP = 2, DUE = 12, BETWEEN = 10 };

/* What one record takes of a strip. */
typedef struct {
    uint64_t from, to;
    uint32_t record, row;
} Taken;

/* What a lane has of one kind, and in how many rows it stands. */
typedef struct {
    Taken taken[OCTALMURE_MOST_JOBS];
    uint32_t count, rows;
} Strip;

uint32_t bar_end(const struct octalmure_record *record) {
    return record->end > record->start ? record->end : record->start;
}

bool waited(const Layout *layout, bool ready, uint32_t number) {
    return ready && ready_of(layout, number) < record_of(layout, number).start;
}

static int by_beginning(const void *one, const void *other) {
    const Taken *a = one, *b = other;
    return a->from != b->from ? (a->from > b->from) - (a->from < b->from) : (a->record > b->record) - (a->record < b->record);
}

/* Each stands in the lowest row that is free from its beginning on. */
static void stack(Strip *strip) {
    uint64_t free_from[OCTALMURE_MOST_JOBS] = {0};
    qsort(strip->taken, strip->count, sizeof strip->taken[0], by_beginning);
    strip->rows = 0;
    for (uint32_t i = 0; i < strip->count; i++) {
        Taken *taken = &strip->taken[i];
        taken->row = 0;
        while (taken->row < strip->rows && free_from[taken->row] > taken->from) {
            taken->row++;
        }
        free_from[taken->row] = taken->to > taken->from ? taken->to : taken->from + 1;
        strip->rows = taken->row == strip->rows ? strip->rows + 1 : strip->rows;
    }
}

static void take(Strip *strip, uint32_t record, uint64_t from, uint64_t to) {
    strip->taken[strip->count] = (Taken){.from = from, .to = to, .record = record};
    strip->count++;
}

/* The height of so many rows of one height. */
static double height_of(uint32_t rows, double each, double most) {
    return rows * each < most ? rows * each : most;
}

/* Shares the band among the rows, and gives each record its own. */
static void share(const Strip *strip, const Band *band, Band own[OCTALMURE_MOST_JOBS]) {
    for (uint32_t i = 0; i < strip->count; i++) {
        double each = band->height / strip->rows, gap = each > 2 * GAP ? GAP : each / 2;
        own[strip->taken[i].record] = (Band){band->top + each * strip->taken[i].row, each - gap};
    }
}

/* A record on a core that the run does not have is in the last lane, which is there for such only. */
static uint32_t lane_for(const Layout *layout, const struct octalmure_record *record) {
    bool there = record->core >= 1 && record->core <= layout->setting.cores;
    return there ? record->core - 1 : layout->setting.cores;
}

/* One lane from this height down; gives where it ends. */
static double set_lane(Lanes *lanes, const Layout *layout, bool ready, uint32_t number, double top) {
    Strip bars = {.count = 0}, waits = {.count = 0};
    Lane *lane = &lanes->lanes[number];
    for (uint32_t k = 0; k < layout->records; k++) {
        struct octalmure_record record = record_of(layout, k);
        if (lanes->lane[k] == number) {
            take(&bars, k, record.start, bar_end(&record));
            if (waited(layout, ready, k)) {
                take(&waits, k, ready_of(layout, k), record.start);
            }
        }
    }
    stack(&bars);
    stack(&waits);
    lane->core = number < layout->setting.cores ? number + 1 : 0;
    lane->waits = (Band){top, waits.rows > 0 ? height_of(waits.rows, WAIT, MOST_WAITS) : NO_WAITS};
    lane->bars = (Band){top + lane->waits.height, bars.rows > 0 ? height_of(bars.rows, BAR + GAP, MOST_BARS) : BAR + GAP};
    lane->due = lane->bars.top + lane->bars.height;
    share(&bars, &lane->bars, lanes->bars);
    share(&waits, &lane->waits, lanes->waits);
    return lane->due + DUE + BETWEEN;
}

void set_lanes(Lanes *lanes, const Layout *layout, bool ready, double top) {
    lanes->count = layout->setting.cores;
    lanes->bottom = top;
    for (uint32_t k = 0; k < layout->records; k++) {
        struct octalmure_record record = record_of(layout, k);
        lanes->lane[k] = lane_for(layout, &record);
        lanes->count = lanes->lane[k] == layout->setting.cores ? layout->setting.cores + 1 : lanes->count;
    }
    for (uint32_t lane = 0; lane < lanes->count; lane++) {
        lanes->bottom = set_lane(lanes, layout, ready, lane, lanes->bottom);
    }
}
