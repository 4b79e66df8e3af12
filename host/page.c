/* octalmure page FILE [--names NAMES] [-o OUT] */
#include "page.h"

#include <errno.h>
#include <inttypes.h>
#include <string.h>

#include "because.h"
#include "embedded.h"
#include "html.h"
#include "library.h"
#include "sha256.h"

/* ---- what every part says in one way ---- */

void put_record(const Page *page, uint32_t number) {
    name_record(page->text, &page->brief, number);
}

void put_job(const Page *page, const struct octalmure_record *record) {
    const char *name = name_of(page->brief.names, record->task);
    fprintf(page->out, "<tspan class=\"id\">%" PRIu32 ".%" PRIu32 "</tspan>", record->task, record->job);
    if (name != NULL) {
        fputs(" <tspan class=\"name\">", page->out);
        put_visible(page->text, name);
        fputs("</tspan>", page->out);
    }
}

void put_late(const Page *page, uint64_t by) {
    fprintf(page->out, "%" PRIu64 " %s late", by, by == 1 ? "tick" : "ticks");
}

/* ---- the parts that the template names ---- */

static void put_policy(Page *page) {
    Digest of_script = digest_of(script, strlen(script)), of_style = digest_of(style_sheet, strlen(style_sheet));
    fputs("default-src 'none'; script-src 'sha256-", page->out);
    put_base64(page->out, &of_script);
    fputs("'; style-src 'sha256-", page->out);
    put_base64(page->out, &of_style);
    fputs("'; base-uri 'none'; form-action 'none'", page->out);
}

static void put_style(Page *page) {
    fputs(style_sheet, page->out);
}

static void put_script(Page *page) {
    fputs(script, page->out);
}

static void put_file_name(Page *page) {
    put_visible(page->text, page->file->name);
}

static void put_kind(Page *page) {
    fputs(page->refused ? "is-refused" : page->broken ? "is-broken" : page->late_count > 0 ? "has-late" : "none-late", page->out);
}

static void put_verdict(Page *page) {
    say_before_reasons(page->text, page->of, &page->answer);
}

static void put_answer(Page *page) {
    const struct octalmure_answer *answer = &page->answer;
    fprintf(page->out, "%" PRIu32 " %" PRIu32 " %" PRIu32 " %" PRIu32 " %" PRIu32, answer->answer, answer->code, answer->place[0],
            answer->place[1], answer->place[2]);
}

static void put_length(Page *page) {
    if (page->file->length < MOST_RUN) {
        fprintf(page->out, "%zu bytes", page->file->length);
    } else {
        fprintf(page->out, "more than %d bytes, of which the first %d were read", OCTALMURE_MOST_FILE_BYTES, MOST_RUN);
    }
}

static void put_digest(Page *page) {
    Digest digest = digest_of(page->file->bytes, page->file->length);
    put_hexadecimal(page->out, &digest);
}

static void put_version(Page *page) {
    fputs(OCTALMURE_VERSION, page->out);
}

/* ---- templates ---- */

typedef struct {
    const char *name;
    void (*put)(Page *page);
} Slot;

static const Slot slots[] = {
    {"policy", put_policy},   {"style", put_style},     {"script", put_script},   {"name", put_file_name}, {"kind", put_kind},
    {"verdict", put_verdict}, {"answer", put_answer},   {"picture", put_picture}, {"drawing", put_drawing}, {"late", put_late_list},
    {"reasons", put_reasons}, {"records", put_records}, {"tasks", put_tasks},     {"length", put_length},  {"digest", put_digest},
    {"version", put_version},
};
enum { SLOTS = sizeof slots / sizeof slots[0] };

/* In place of each @NAME@ of a template stands the part of this name. */
static void fill(Page *page, const char *template) {
    const char *at = strchr(template, '@'), *end;
    for (; at != NULL; at = strchr(template, '@')) {
        fwrite(template, 1, (size_t)(at - template), page->out);
        end = strchr(at + 1, '@');
        for (size_t i = 0; i < SLOTS; i++) {
            if (strlen(slots[i].name) == (size_t)(end - at - 1) && strncmp(slots[i].name, at + 1, (size_t)(end - at - 1)) == 0) {
                slots[i].put(page);
            }
        }
        template = end + 1;
    }
    fputs(template, page->out);
}

void put_picture(Page *page) {
    if (!page->refused) {
        fill(page, picture_template);
    }
}

/* ---- the word ---- */

/* The names again, those that are too long cut off with dots. */
static void shorten(Page *page, const Names *names) {
    page->short_names.marked = true;
    for (uint32_t task = 0; task < OCTALMURE_MOST_TASKS; task++) {
        const char *name = name_of(names, task);
        size_t at = 0;
        for (size_t characters = 0; name != NULL && name[at] != '\0'; at++) {
            characters += (name[at] & 0xC0) != 0x80; /* the others go on with a character */
            if (characters > MOST_SHORT) {
                break;
            }
        }
        page->short_names.of[task] = name != NULL ? page->short_text[task] : NULL;
        if (name != NULL) {
            snprintf(page->short_text[task], SHORT_BYTES, "%.*s%s", (int)at, name, name[at] != '\0' ? "\xE2\x80\xA6" : "");
        }
    }
    page->brief = *page->of;
    page->brief.names = &page->short_names;
}

static void judge(Page *page) {
    page->answer = check_bytes(page->layout->bytes, page->layout->length);
    page->status = status_of(&page->answer);
    page->refused = page->status == REFUSED;
    page->broken = page->status == BROKEN;
    page->accepted = page->status == FINE;
    page->ready = page->accepted || (page->broken && page->answer.code > OCTALMURE_RULE_JOBS);
    page->late_count = page->accepted ? late_records(page->layout, page->late) : 0;
}

static Status write_page(Page *page) {
    page->text = open_text(page->out);
    if (page->text == NULL) {
        return system_trouble("memory", errno);
    }
    fill(page, page_template);
    return fclose(page->text) == 0 ? page->status : trouble("memory", "there is not enough for what is to be written");
}

static Status run(const Asked *asked, Output *output) {
    NamedRun run;
    Page page = {.out = output->text, .file = &run.file, .of = &run.said, .layout = &run.layout};
    if (read_named(asked, &run) != FINE) {
        return TROUBLE;
    }
    run.names.marked = true;
    shorten(&page, run.said.names);
    judge(&page);
    output->place = asked->out;
    return page.status != TROUBLE ? write_page(&page) : TROUBLE;
}

const Word page_word = {
    .name = "page",
    .usage = "FILE [--names NAMES] [-o OUT]",
    .summary = "the run as a picture, reasons beside it: writes HTML",
    .help = "Writes a page for a browser: the run in FILE as a picture, a lane for each core, with every wait, deadline\n"
            "and lateness; for each late record of an accepted run the sentences of 'octalmure explain', and its\n"
            "chain lit in the picture; the records and the tasks as tables; the five numbers of 'octalmure check',\n"
            "the length of FILE and its SHA-256. Where a rule is broken, its first place is marked; of a refused\n"
            "file the page says what is wrong and where, and draws nothing. The page is one file that loads nothing\n"
            "and sends nothing. It goes to standard output.\n"
            HELP_OF_NAMES
            HELP_OF_OUT
            "The exit status is that of 'octalmure check FILE'. An accepted run without lateness says nothing about\n"
            "other runs.\n",
    .least = 1,
    .most = 1,
    .writes = true,
    .names = true,
    .run = run,
};
