#include "window.h"

#include <inttypes.h>

#include "lanes.h"

/* A deadline that is further behind all else than one part in so many of it is not in the window. */
enum { PART = 3 };

static uint64_t lower(uint64_t a, uint64_t b) {
    return a < b ? a : b;
}

static uint64_t higher(uint64_t a, uint64_t b) {
    return a > b ? a : b;
}

/* The records and H. What begins soon after 0 is shown from 0 on. */
static void open_window(Window *window, const Layout *layout, bool ready) {
    window->from = window->to = layout->setting.horizon;
    for (uint32_t k = 0; k < layout->records; k++) {
        struct octalmure_record record = record_of(layout, k);
        window->from = lower(window->from, waited(layout, ready, k) ? ready_of(layout, k) : record.start);
        window->to = higher(window->to, bar_end(&record));
    }
    if (window->from <= window->to / 4 || layout->records == 0) {
        window->from = 0;
    }
    window->to = higher(window->to, window->from + 1);
}

Window window_of(const Layout *layout, bool ready) {
    Window window;
    open_window(&window, layout, ready);
    uint64_t far = window.to + (window.to - window.from) / PART, deadline, near = window.to;
    window.earliest = window.from;
    window.last = window.to;
    for (uint32_t k = 0; k < layout->records; k++) {
        struct octalmure_record record = record_of(layout, k);
        if (deadline_of(layout, &record, &deadline)) {
            near = deadline <= far ? higher(near, deadline) : near;
            window.earliest = lower(window.earliest, deadline);
            window.last = higher(window.last, deadline);
        }
    }
    window.to = near;
    return window;
}

double x_of(const Window *window, uint64_t instant) {
    uint64_t at = lower(higher(instant, window->from), window->to);
    return LEFT + (double)(at - window->from) / (double)(window->to - window->from) * (WIDTH - LEFT - RIGHT);
}

bool is_thin(const Window *window, uint64_t from, uint64_t to) {
    return x_of(window, to) - x_of(window, from) < THIN;
}

void put_span(FILE *out, const Window *window, uint64_t from, uint64_t to) {
    double x = x_of(window, from), width = x_of(window, to) - x;
    fprintf(out, " data-a=\"%" PRIu64 "\" data-b=\"%" PRIu64 "\" x=\"%.2f\" width=\"%.2f\"", from, to, x, width > LEAST ? width : LEAST);
}

void put_instant(FILE *out, const Window *window, uint64_t instant) {
    fprintf(out, " data-a=\"%" PRIu64 "\" x=\"%.2f\"", instant, x_of(window, instant));
}

void put_endless(FILE *out, const Window *window, uint64_t from) {
    double x = x_of(window, from);
    fprintf(out, " data-a=\"%" PRIu64 "\" data-b=\"Infinity\" x=\"%.2f\" width=\"%.2f\"", from, x, WIDTH - x);
}
