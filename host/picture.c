#include "picture.h"

#include <inttypes.h>
#include <string.h>

#include "scale.h"

/* 'core 16  ' stands before each line; numbers of the ruler are at least so far from each other. */
enum { MARGIN = 9, LABEL = 24, APART = 8 };

typedef struct {
    const Layout *layout;
    bool accepted;
    Scale scale;
    char line[MOST_WIDTH]; /* what is being drawn: a character for each column, and one for what lies behind the last */
} Picture;

static void clear(Picture *picture, char with) {
    memset(picture->line, with, picture->scale.columns);
    picture->line[picture->scale.columns] = ' ';
}

/* Without the blanks at its end. */
static void print(FILE *out, const Picture *picture, const char *before) {
    size_t length = picture->scale.columns + 1;
    while (length > 0 && picture->line[length - 1] == ' ') {
        length--;
    }
    fprintf(out, "%-*s%.*s\n", MARGIN, before, (int)length, picture->line);
}

static bool blank(const Picture *picture, size_t from, size_t length) {
    for (size_t c = from; c < from + length; c++) {
        if (c >= picture->scale.columns || picture->line[c] != ' ') {
            return false;
        }
    }
    return true;
}

/* Puts a text between two columns, the second not counted, if there it has room and a column beside each end is blank or an edge. A
   mark that the text belongs to may stand at one end: it is not looked at. */
static bool put_text(Picture *picture, size_t from, size_t end, const char *text, size_t mark) {
    bool left = from == 0 || from - 1 == mark || picture->line[from - 1] == ' ';
    bool right = end >= picture->scale.columns || end == mark || picture->line[end] == ' ';
    bool room = left && right && blank(picture, from, end - from);
    if (room) {
        memcpy(picture->line + from, text, end - from);
    }
    return room;
}

static void name_job(char *label, const struct octalmure_record *record) {
    snprintf(label, LABEL, "%" PRIu32 ".%" PRIu32, record->task, record->job);
}

static bool is_late(const Picture *picture, const struct octalmure_record *record) {
    return picture->accepted && late_by(picture->layout, record) > 0;
}

/* ---- the ruler, and H ---- */

/* The ticks from one number of the ruler to the next, so that the longest has room. */
static uint64_t step_of(const Scale *scale) {
    static const uint64_t steps[] = {1, 2, 5, 10, 15, 20};
    char label[LABEL];
    uint64_t room = (uint64_t)snprintf(label, sizeof label, "%" PRIu64, scale->to) + 2;
    size_t i = scale->wide > 1 ? 0 : 3;
    while (i + 1 < sizeof steps / sizeof steps[0] && steps[i] * scale->wide < (room > APART ? room : APART)) {
        i++;
    }
    return steps[i] * scale->ticks;
}

static void print_ruler(FILE *out, Picture *picture) {
    const Scale *scale = &picture->scale;
    uint64_t step = step_of(scale);
    char label[LABEL];
    clear(picture, ' ');
    for (uint64_t t = scale->from; t <= scale->to; t += step) {
        snprintf(label, sizeof label, "%" PRIu64, t);
        size_t from = column_of(scale, t);
        put_text(picture, from, from + strlen(label), label, from);
    }
    print(out, picture, "");
    clear(picture, '-');
    for (uint64_t t = scale->from; t <= scale->to; t += step) {
        picture->line[column_of(scale, t)] = '+';
    }
    print(out, picture, "");
}

static void print_horizon(FILE *out, Picture *picture) {
    clear(picture, ' ');
    picture->line[column_of(&picture->scale, picture->layout->setting.horizon)] = 'H';
    print(out, picture, "");
}

/* ---- a core ---- */

static void draw_bar(Picture *picture, const struct octalmure_record *record) {
    size_t first = column_of(&picture->scale, record->start), last = last_column_of(&picture->scale, record->end);
    bool late = is_late(picture, record);
    char label[LABEL];
    if (first == last) {
        picture->line[first] = late ? '!' : '#';
        return;
    }
    memset(picture->line + first, '=', last - first + 1);
    picture->line[first] = late ? '{' : '[';
    picture->line[last] = late ? '}' : ']';
    name_job(label, record);
    if (strlen(label) <= last - first - 1) {
        memcpy(picture->line + first + 1, label, strlen(label));
    }
}

/* How many records of the core have each column, so that none hides another. */
static void mark_shared(Picture *picture, uint32_t core) {
    unsigned char had[MOST_WIDTH] = {0};
    for (uint32_t k = 0; k < picture->layout->records; k++) {
        struct octalmure_record record = record_of(picture->layout, k);
        if (record.core == core && drawable(picture->layout, &record)) {
            size_t last = last_column_of(&picture->scale, record.end);
            for (size_t c = column_of(&picture->scale, record.start); c <= last; c++) {
                picture->line[c] = had[c] ? '*' : picture->line[c];
                had[c] = 1;
            }
        }
    }
}

static void print_lane(FILE *out, Picture *picture, uint32_t core) {
    char before[LABEL];
    clear(picture, '.');
    picture->line[column_of(&picture->scale, picture->layout->setting.horizon)] = '|';
    for (uint32_t k = 0; k < picture->layout->records; k++) {
        struct octalmure_record record = record_of(picture->layout, k);
        if (record.core == core && drawable(picture->layout, &record)) {
            draw_bar(picture, &record);
        }
    }
    mark_shared(picture, core);
    snprintf(before, sizeof before, "core %" PRIu32, core);
    print(out, picture, before);
}

/* ---- the deadlines of a core's records ---- */

/* In place of a column: before the first one. */
static const size_t EARLIER = SIZE_MAX;

/* The column of a record's deadline, one more than the last if it lies behind; false if the record is not of this core or has none. */
static bool deadline_column(const Picture *picture, const struct octalmure_record *record, uint32_t core, size_t *column) {
    const Scale *scale = &picture->scale;
    uint64_t deadline;
    if (record->core != core || !drawable(picture->layout, record) || !deadline_of(picture->layout, record, &deadline)) {
        return false;
    }
    *column = deadline < scale->from ? EARLIER : deadline > scale->to ? scale->columns : column_of(scale, deadline);
    return true;
}

/* A late one is not hidden by another that is due with it. */
static void mark_deadline(Picture *picture, size_t column, bool late) {
    if (column == picture->scale.columns) {
        picture->line[column] = '>';
    } else if (picture->line[column] != '!') {
        picture->line[column] = late ? '!' : '^';
    }
}

/* Behind the mark, or before it if there is no room. */
static void name_deadline(Picture *picture, size_t mark, const struct octalmure_record *record) {
    char label[LABEL];
    name_job(label, record);
    size_t length = strlen(label);
    if (mark < picture->scale.columns && !put_text(picture, mark + 1, mark + 1 + length, label, mark) && mark >= length) {
        put_text(picture, mark - length, mark, label, mark);
    }
}

/* A mark is named if it is that of one record only. */
static void print_deadlines(FILE *out, Picture *picture, uint32_t core) {
    uint32_t due[MOST_WIDTH] = {0};
    bool earlier = false;
    size_t column;
    clear(picture, ' ');
    for (uint32_t k = 0; k < picture->layout->records; k++) {
        struct octalmure_record record = record_of(picture->layout, k);
        if (deadline_column(picture, &record, core, &column)) {
            if (column == EARLIER) {
                earlier = true;
                continue;
            }
            mark_deadline(picture, column, is_late(picture, &record));
            due[column]++;
        }
    }
    for (uint32_t k = 0; k < picture->layout->records; k++) {
        struct octalmure_record record = record_of(picture->layout, k);
        if (deadline_column(picture, &record, core, &column) && column != EARLIER && due[column] == 1) {
            name_deadline(picture, column, &record);
        }
    }
    print(out, picture, earlier ? "  due   <" : "  due");
}

/* ---- all of it ---- */

static void print_legend(FILE *out, const Picture *picture) {
    const Scale *scale = &picture->scale;
    fprintf(out, "Each %s is %" PRIu64 " %s.", scale->wide > 1 ? "tick" : "column", scale->wide > 1 ? scale->wide : scale->ticks,
            scale->wide > 1 ? "columns" : scale->ticks == 1 ? "tick" : "ticks");
    fputs(" [t.j] is job j of task t, # a record in one column,\n"
          "* more than one there, H and | the horizon. Below a core ^ is where a\n"
          "record of it is due, < one that is due before, > one further on.\n", out);
    if (picture->accepted) {
        fputs("{t.j} is a late one, ! where it was due, or a late one in one column.\n", out);
    }
}

static void print_undrawn(FILE *out, const Layout *layout) {
    for (uint32_t k = 0; k < layout->records; k++) {
        struct octalmure_record record = record_of(layout, k);
        if (!drawable(layout, &record)) {
            fprintf(out, "Record %" PRIu32 " is not drawn: its core is %" PRIu32 ", it starts at %" PRIu32 " and ends at %" PRIu32 ".\n",
                    k, record.core, record.start, record.end);
        }
    }
}

void draw_cores(FILE *out, const Layout *layout, bool accepted, size_t width) {
    width = width < LEAST_WIDTH ? LEAST_WIDTH : width > MOST_WIDTH ? MOST_WIDTH : width;
    Picture picture = {.layout = layout, .accepted = accepted, .scale = scale_of(layout, width - MARGIN - 1)};
    print_ruler(out, &picture);
    print_horizon(out, &picture);
    for (uint32_t core = 1; core <= layout->setting.cores; core++) {
        print_lane(out, &picture, core);
        print_deadlines(out, &picture, core);
    }
    print_legend(out, &picture);
    print_undrawn(out, layout);
}
