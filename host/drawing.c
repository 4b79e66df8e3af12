/* The run as a drawing of lanes, in SVG. Each mark carries the instants that it stands for. */
#include <inttypes.h>

#include "lanes.h"
#include "page.h"
#include "window.h"

/* In pixels: the rulers above and below the lanes, and the lines of text in a bar. */
enum { ABOVE = 48, BELOW = 24, RULER = 34, FIRST_LINE = 13, SECOND_LINE = 27, LABEL = 24 };

typedef struct {
    const Page *page;
    Window window;
    Lanes lanes;
} Drawing;

static void put_band(FILE *out, const Band *band) {
    fprintf(out, " y=\"%.2f\" height=\"%.2f\"", band->top, band->height);
}

/* ---- the rulers, and H ---- */

/* The ticks from one number to the next: 1, 2 or 5 and zeros, so that the longest number has room. */
static uint64_t step_of(const Window *window) {
    char label[LABEL];
    double room = 7.0 * snprintf(label, sizeof label, "%" PRIu64, window->to) + 24;
    double least = (double)(window->to - window->from) * room / (WIDTH - LEFT - RIGHT);
    uint64_t ten = 1;
    while ((double)(10 * ten) < least) {
        ten *= 10;
    }
    return (double)ten >= least ? ten : (double)(2 * ten) >= least ? 2 * ten : (double)(5 * ten) >= least ? 5 * ten : 10 * ten;
}

static void draw_rulers(const Drawing *drawing) {
    const Window *window = &drawing->window;
    double bottom = drawing->lanes.bottom;
    uint64_t step = step_of(window), first = (window->from + step - 1) / step * step;
    FILE *out = drawing->page->out;
    fputs("<g id=\"ruler\">\n", out);
    for (uint64_t t = first; t <= window->to; t += step) {
        double x = x_of(window, t);
        fprintf(out, "<path d=\"M%.2f %dV%.2f\"/><text x=\"%.2f\" y=\"%d\">%" PRIu64 "</text><text x=\"%.2f\" y=\"%.2f\">%" PRIu64
                "</text>\n", x, RULER + 4, bottom, x, RULER, t, x, bottom + 14, t);
    }
    fputs("</g>\n", out);
}

static void draw_beyond(const Drawing *drawing) {
    FILE *out = drawing->page->out;
    fputs("<svg class=\"beyond\"", out);
    put_endless(out, &drawing->window, drawing->page->layout->setting.horizon);
    fprintf(out, " y=\"0\" height=\"%.2f\"><rect width=\"100%%\" height=\"100%%\"/><text x=\"6\" y=\"12\">beyond H</text></svg>\n",
            drawing->lanes.bottom);
}

static void draw_horizon(const Drawing *drawing) {
    uint32_t horizon = drawing->page->layout->setting.horizon;
    FILE *out = drawing->page->out;
    fputs("<svg class=\"horizon\"", out);
    put_instant(out, &drawing->window, horizon);
    fprintf(out, " y=\"0\" overflow=\"visible\"><path d=\"M0 0V%.2f\"/><text x=\"-5\" y=\"12\">H = %" PRIu32 "</text></svg>\n",
            drawing->lanes.bottom, horizon);
}

/* ---- the place at which a rule is broken ---- */

/* The records that the rule's place names, or its sentence: of rule 9 the job before, too. */
static bool is_place(const Page *page, uint32_t number) {
    const struct octalmure_answer *answer = &page->answer;
    bool pair = answer->code == OCTALMURE_RULE_NO_OVERLAP || answer->code == OCTALMURE_RULE_ORDER;
    return page->broken && (number == answer->place[0] || (pair && number == answer->place[1]) ||
                            (answer->code == OCTALMURE_RULE_IN_TURN && number + 1 == answer->place[0]));
}

/* Of rule 8: the core that is idle, and the instant. */
static void draw_idle(const Drawing *drawing) {
    const Page *page = drawing->page;
    if (!page->broken || page->answer.code != OCTALMURE_RULE_NO_IDLING) {
        return;
    }
    uint32_t instant = page->answer.place[1];
    fputs("<svg class=\"instant\"", page->out);
    put_instant(page->out, &drawing->window, instant);
    fprintf(page->out, " y=\"0\" overflow=\"visible\"><path d=\"M0 %dV%.2f\"/></svg>\n<svg class=\"idle\"", RULER, drawing->lanes.bottom);
    put_span(page->out, &drawing->window, instant, (uint64_t)instant + 1);
    put_band(page->out, &drawing->lanes.lanes[page->answer.place[2] - 1].bars);
    fprintf(page->out, " data-core=\"%" PRIu32 "\" overflow=\"visible\"><rect width=\"100%%\" height=\"100%%\"/>"
            "<text x=\"3\" y=\"%d\">idle at %" PRIu32 "</text></svg>\n", page->answer.place[2], FIRST_LINE, instant);
}

/* ---- a record ---- */

static uint64_t lateness(const Page *page, const struct octalmure_record *record) {
    return page->accepted ? late_by(page->layout, record) : 0;
}

/* What a pointer that rests on a bar is told, and a reader of the page that sees no picture. */
static void put_title(const Drawing *drawing, uint32_t number, const struct octalmure_record *record) {
    const Page *page = drawing->page;
    uint64_t deadline, late = lateness(page, record);
    fputs("<title>", page->out);
    put_record(page, number);
    fprintf(page->out, ": released at %" PRIu32, record->release);
    if (page->ready) {
        fprintf(page->out, ", ready at %" PRIu32, ready_of(page->layout, number));
    }
    fprintf(page->out, ", on core %" PRIu32 " from %" PRIu32 " to %" PRIu32, record->core, record->start, record->end);
    if (deadline_of(page->layout, record, &deadline)) {
        fprintf(page->out, ", due at %" PRIu64, deadline);
    }
    if (late > 0) {
        fputs(", ", page->out);
        put_late(page, late);
    }
    fputs("</title>", page->out);
}

/* What stands in a bar: which job it is, and if it is late, by how much, or if it is where a rule is broken, which one. */
static void put_label(const Drawing *drawing, uint32_t number, const struct octalmure_record *record) {
    const Page *page = drawing->page;
    uint64_t late = lateness(page, record);
    fputs("<svg class=\"label\"", page->out);
    put_span(page->out, &drawing->window, record->start, bar_end(record));
    put_band(page->out, &drawing->lanes.bars[number]);
    fprintf(page->out, "><text x=\"4\" y=\"%d\">", FIRST_LINE);
    put_job(page, record);
    fputs("</text>", page->out);
    if (late > 0) {
        fprintf(page->out, "<text class=\"how\" x=\"4\" y=\"%d\">late by %" PRIu64 "</text>", SECOND_LINE, late);
    } else if (is_place(page, number)) {
        fprintf(page->out, "<text class=\"how\" x=\"4\" y=\"%d\">rule %" PRIu32 "</text>", SECOND_LINE, page->answer.code);
    }
    fputs("</svg>\n", page->out);
}

/* The bar, and of a late one what of it is behind the deadline. */
static void put_body(const Drawing *drawing, uint32_t number, const struct octalmure_record *record) {
    const Page *page = drawing->page;
    uint64_t late = lateness(page, record), due = record->end - late;
    fprintf(page->out, "<rect class=\"body%s\"", is_thin(&drawing->window, record->start, bar_end(record)) ? " thin" : "");
    put_span(page->out, &drawing->window, record->start, bar_end(record));
    put_band(page->out, &drawing->lanes.bars[number]);
    fputs("/>", page->out);
    if (late > 0) {
        fputs("<rect class=\"over\"", page->out);
        put_span(page->out, &drawing->window, due > record->start ? due : record->start, record->end);
        put_band(page->out, &drawing->lanes.bars[number]);
        fputs("/>", page->out);
    }
}

/* A deadline that is not in the window is at its edge, and points there. */
static void put_due(const Drawing *drawing, const struct octalmure_record *record, uint32_t lane) {
    const Page *page = drawing->page;
    uint64_t deadline;
    if (deadline_of(page->layout, record, &deadline)) {
        const char *away = deadline < drawing->window.from ? " earlier" : deadline > drawing->window.to ? " further" : "";
        fprintf(page->out, "<svg class=\"due%s\"", away);
        put_instant(page->out, &drawing->window, deadline);
        fprintf(page->out, " y=\"%.2f\" overflow=\"visible\"><path d=\"M0 0L-4 9H4Z\"/></svg>\n", drawing->lanes.lanes[lane].due);
    }
}

static void draw_record(const Drawing *drawing, uint32_t number) {
    const Page *page = drawing->page;
    struct octalmure_record record = record_of(page->layout, number);
    bool late = lateness(page, &record) > 0;
    fprintf(page->out, "<a class=\"job%s%s\" id=\"bar-%" PRIu32 "\" href=\"#%s-%" PRIu32 "\" data-record=\"%" PRIu32 "\">",
            late ? " late" : "", is_place(page, number) ? " place" : "", number, late ? "reason" : "row", number, number);
    put_title(drawing, number, &record);
    if (waited(page->layout, page->ready, number)) {
        fputs("<rect class=\"wait\"", page->out);
        put_span(page->out, &drawing->window, ready_of(page->layout, number), record.start);
        put_band(page->out, &drawing->lanes.waits[number]);
        fputs("/>", page->out);
    }
    put_body(drawing, number, &record);
    put_due(drawing, &record, drawing->lanes.lane[number]);
    put_label(drawing, number, &record);
    fputs("</a>\n", page->out);
}

/* ---- a lane ---- */

/* Behind what is beyond H, so that this shows. */
static void draw_ground(const Drawing *drawing, uint32_t number) {
    fprintf(drawing->page->out, "<rect class=\"ground\" x=\"%d\" width=\"100%%\"", LEFT);
    put_band(drawing->page->out, &drawing->lanes.lanes[number].bars);
    fputs("/>\n", drawing->page->out);
}

static void draw_lane(const Drawing *drawing, uint32_t number) {
    const Lane *lane = &drawing->lanes.lanes[number];
    FILE *out = drawing->page->out;
    fprintf(out, "<g class=\"lane\" data-core=\"%" PRIu32 "\"><text class=\"core\" x=\"4\" y=\"%.2f\">", lane->core, lane->bars.top + 21);
    if (lane->core > 0) {
        fprintf(out, "core %" PRIu32, lane->core);
    } else {
        fputs("no core", out);
    }
    fputs("</text>\n", out);
    for (uint32_t k = 0; k < drawing->page->layout->records; k++) {
        if (drawing->lanes.lane[k] == number) {
            draw_record(drawing, k);
        }
    }
    fputs("</g>\n", out);
}

/* ---- all of it ---- */

void put_drawing(Page *page) {
    Drawing drawing = {.page = page, .window = window_of(page->layout, page->ready)};
    const Window *window = &drawing.window;
    set_lanes(&drawing.lanes, page->layout, page->ready, ABOVE);
    fprintf(page->out, "<svg id=\"drawing\" viewBox=\"0 0 %d %.2f\" data-from=\"%" PRIu64 "\" data-to=\"%" PRIu64 "\" data-earliest=\"%"
            PRIu64 "\" data-last=\"%" PRIu64 "\" data-left=\"%d\" data-right=\"%d\" data-width=\"%d\" data-least=\"%d\" data-thin=\"%d\">\n",
            WIDTH, drawing.lanes.bottom + BELOW, window->from, window->to, window->earliest, window->last, LEFT, RIGHT, WIDTH, LEAST, THIN);
    fputs("<defs><pattern id=\"hatch\" width=\"6\" height=\"6\" patternUnits=\"userSpaceOnUse\" patternTransform=\"rotate(45)\">"
          "<path d=\"M1.5 0V6\"/></pattern></defs>\n", page->out);
    for (uint32_t lane = 0; lane < drawing.lanes.count; lane++) {
        draw_ground(&drawing, lane);
    }
    draw_beyond(&drawing);
    draw_rulers(&drawing);
    for (uint32_t lane = 0; lane < drawing.lanes.count; lane++) {
        draw_lane(&drawing, lane);
    }
    draw_horizon(&drawing);
    draw_idle(&drawing);
    fputs("<g id=\"thread\"></g>\n</svg>\n", page->out);
}
