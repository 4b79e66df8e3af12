/* Of the page: what stands in the file, as tables. */
#include <inttypes.h>
#include <string.h>

#include "page.h"

static void put_cell(const Page *page, uint64_t number) {
    fprintf(page->out, "<td>%" PRIu64 "</td>", number);
}

/* A number, or that there is none; those stand behind all others when the column is sorted. */
static void put_known(const Page *page, bool known, uint64_t number) {
    if (known) {
        put_cell(page, number);
    } else {
        fputs("<td data-value=\"Infinity\">&ndash;</td>", page->out);
    }
}

static void put_name(const Page *page, const Names *names, uint32_t task) {
    const char *name = name_of(names, task);
    fputs("<td class=\"name\"><bdi>", page->out);
    put_visible(page->text, name != NULL ? name : "");
    fputs("</bdi></td>", page->out);
}

/* ---- the records ---- */

static void put_lateness(const Page *page, uint64_t late) {
    if (late > 0) {
        fprintf(page->out, "<td data-value=\"%" PRIu64 "\">late by %" PRIu64 "</td>", late, late);
    } else {
        fputs("<td data-value=\"0\">in time</td>", page->out);
    }
}

/* It leads to the bar, where there is one. */
static void put_number_of_record(const Page *page, uint32_t number) {
    if (page->refused) {
        put_cell(page, number);
    } else {
        fprintf(page->out, "<td><a href=\"#bar-%" PRIu32 "\">%" PRIu32 "</a></td>", number, number);
    }
}

static void put_row(const Page *page, uint32_t number) {
    struct octalmure_record record = record_of(page->layout, number);
    uint64_t deadline = 0, late = page->accepted ? late_by(page->layout, &record) : 0;
    bool due = !page->refused && deadline_of(page->layout, &record, &deadline);
    fprintf(page->out, "<tr id=\"row-%" PRIu32 "\" data-record=\"%" PRIu32 "\"%s>", number, number, late > 0 ? " class=\"late\"" : "");
    put_number_of_record(page, number);
    put_cell(page, record.task);
    put_cell(page, record.job);
    put_name(page, page->brief.names, record.task);
    put_cell(page, record.release);
    put_known(page, page->ready, page->ready ? ready_of(page->layout, number) : 0);
    put_cell(page, record.start);
    put_cell(page, record.end);
    put_cell(page, record.core);
    put_known(page, due, deadline);
    if (page->accepted) {
        put_lateness(page, late);
    }
    fputs("</tr>\n", page->out);
}

/* The latest first, of equal ones the lowest-numbered: so where no lateness is told, all in their order. */
static uint32_t in_order(const Page *page, uint32_t order[OCTALMURE_MOST_JOBS]) {
    uint64_t late[OCTALMURE_MOST_JOBS];
    for (uint32_t k = 0; k < page->layout->records; k++) {
        struct octalmure_record record = record_of(page->layout, k);
        uint64_t by = page->accepted ? late_by(page->layout, &record) : 0;
        uint32_t at = k;
        for (; at > 0 && late[at - 1] < by; at--) {
            late[at] = late[at - 1];
            order[at] = order[at - 1];
        }
        late[at] = by;
        order[at] = k;
    }
    return page->layout->records;
}

/* ---- the heads ---- */

static void put_heads(const Page *page, const char *const *heads, size_t count, size_t sorted, const char *how) {
    fputs("<thead><tr>", page->out);
    for (size_t i = 0; i < count; i++) {
        fprintf(page->out, "<th scope=\"col\"%s", strcmp(heads[i], "name") == 0 ? " class=\"name\"" : "");
        if (i == sorted) {
            fprintf(page->out, " aria-sort=\"%s\"", how);
        }
        fprintf(page->out, "><button type=\"button\">%s</button></th>", heads[i]);
    }
    fputs("</tr></thead>\n<tbody>\n", page->out);
}

/* What the count says, where it is another number than that of what could be read. */
static void put_caption(const Page *page, const char *what, uint32_t count, uint32_t read) {
    fprintf(page->out, "<h2>%s: %" PRIu32, what, count);
    if (read > 0 && read < count) {
        fprintf(page->out, ", of which %" PRIu32 " could be read", read);
    }
    fputs("</h2>\n", page->out);
}

static void begin_table(const Page *page, const char *id) {
    fprintf(page->out, "<div class=\"wide\"><table id=\"%s\">\n", id);
}

static void end_table(const Page *page) {
    fputs("</tbody></table></div>\n", page->out);
}

void put_records(Page *page) {
    static const char *const heads[] = {"record", "task", "job", "name", "released", "ready", "began", "ended", "core", "due", "lateness"};
    enum { HEADS = sizeof heads / sizeof heads[0] };
    uint32_t order[OCTALMURE_MOST_JOBS], count = in_order(page, order);
    if (!read_through(page->layout, RECORD_COUNT)) {
        return;
    }
    put_caption(page, "Records", page->layout->record_count, count);
    if (count > 0) {
        begin_table(page, "records");
        put_heads(page, heads, page->accepted ? HEADS : HEADS - 1, page->accepted ? HEADS - 1 : 0, page->accepted ? "descending" : "ascending");
        for (uint32_t i = 0; i < count; i++) {
            put_row(page, order[i]);
        }
        end_table(page);
    }
}

/* ---- the setting and the tasks ---- */

static void put_setting(const Page *page) {
    if (read_through(page->layout, SETTING)) {
        fprintf(page->out, "<h2>Setting: N = %" PRIu32 ", H = %" PRIu32 "</h2>\n", page->layout->setting.cores, page->layout->setting.horizon);
    }
}

static void put_task(const Page *page, uint32_t number) {
    struct octalmure_task task = task_of(page->layout, number);
    const uint32_t numbers[] = {task.period, task.least, task.greatest, task.offset, task.jitter};
    fputs("<tr>", page->out);
    put_cell(page, number);
    put_name(page, page->of->names, number);
    for (size_t i = 0; i < sizeof numbers / sizeof numbers[0]; i++) {
        put_cell(page, numbers[i]);
    }
    fputs("</tr>\n", page->out);
}

void put_tasks(Page *page) {
    static const char *const heads[] = {"task", "name", "period P", "least B", "greatest W", "offset O", "jitter J"};
    put_setting(page);
    if (!read_through(page->layout, TASK_COUNT)) {
        return;
    }
    put_caption(page, "Tasks", page->layout->task_count, page->layout->tasks);
    if (page->layout->tasks > 0) {
        begin_table(page, "tasks");
        put_heads(page, heads, sizeof heads / sizeof heads[0], 0, "ascending");
        for (uint32_t i = 0; i < page->layout->tasks; i++) {
            put_task(page, i);
        }
        end_table(page);
    }
}
