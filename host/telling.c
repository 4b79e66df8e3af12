/* Of the page of an accepted run: the late records as a list, and the reason of each, in the sentences of 'explain'. */
#include <inttypes.h>

#include "because.h"
#include "page.h"

/* When so many links have been written, what was told in an earlier reason is not told again: chains that meet have the rest in
   common, and of 512 late records they would come to more than a page can hold. */
enum { MOST_LINKS = 2000 };

/* What was written so far. */
typedef struct {
    uint32_t links;
    bool told[OCTALMURE_MOST_JOBS]; /* the link of this record, by its name */
} Told;

static void begin_said(const Page *page, const char *class, uint32_t number) {
    fprintf(page->out, "<div class=\"said %s\" data-of=\"%" PRIu32 "\">", class, number);
}

static void end_said(const Page *page) {
    fputs("</div>\n", page->out);
}

void put_late_list(Page *page) {
    for (uint32_t i = 0; i < page->late_count; i++) {
        struct octalmure_record record = record_of(page->layout, page->late[i]);
        fprintf(page->out, "<li><a href=\"#reason-%" PRIu32 "\" data-record=\"%" PRIu32 "\">", page->late[i], page->late[i]);
        put_record(page, page->late[i]);
        fputs(": ", page->out);
        put_late(page, late_by(page->layout, &record));
        fputs("</a></li>\n", page->out);
    }
}

/* ---- one reason ---- */

/* The link of a record that was told before. */
static void put_rest(const Page *page, uint32_t record) {
    begin_said(page, "rest", record);
    fputs("  Why ", page->text);
    name_record(page->text, page->of, record);
    fputs(" began when it did is told above.\n", page->text);
    end_said(page);
}

/* From the late job back. */
static void put_links(const Page *page, const Reason *reason, Told *before) {
    bool all = before->links <= MOST_LINKS;
    for (uint32_t i = 0; i < reason->count; i++) {
        uint32_t record = reason->links[i].job.number;
        if (!all && i > 0 && before->told[record]) {
            put_rest(page, record);
            return;
        }
        before->told[record] = before->told[record] || i > 0;
        before->links++;
        begin_said(page, i > 0 ? "link" : "own link", record);
        say_link(page->text, page->of, reason, i);
        end_said(page);
    }
}

static void put_reason(const Page *page, const Reason *reason, Told *before) {
    uint32_t late = reason->links[0].job.number;
    fprintf(page->out, "<article class=\"reason\" id=\"reason-%" PRIu32 "\" data-chain=\"", late);
    for (uint32_t i = 0; i < reason->count; i++) {
        fprintf(page->out, "%s%" PRIu32, i > 0 ? " " : "", reason->links[i].job.number);
    }
    fputs("\">\n", page->out);
    begin_said(page, "how-late", late);
    say_how_late(page->text, page->of, &reason->links[0].job);
    end_said(page);
    put_links(page, reason, before);
    begin_said(page, "sum", late);
    say_sum(page->text, reason);
    end_said(page);
    fputs("</article>\n", page->out);
}

/* ---- all of them ---- */

void put_reasons(Page *page) {
    Told before = {.links = 0};
    Reason reason;
    for (uint32_t i = 0; i < page->late_count; i++) {
        if (find_reason(page->layout, page->late[i], &reason) != FINE) {
            page->status = TROUBLE;
            return;
        }
        put_reason(page, &reason, &before);
    }
}
