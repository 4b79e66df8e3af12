/* harness PATH SEED COUNT RUN...: runs the words of the command on files of every kind in this process, and asks of each what must
   hold of every file. PATH is where the files are written, and PATH.csv where tables are; the first that fails stays at PATH.wrong,
   with its table at PATH.wrong.csv. Of each run the front of every length is tried, of a long one of every 101st. Its last line is
   'N passed, M failed'. */
#include <inttypes.h>
#include <octalmure.h>
#include <stdio.h>
#include <stdlib.h>
#include <string.h>
#include <unistd.h>

#include "causes.h"
#include "damage.h"
#include "entries.h"
#include "exchange.h"
#include "oracle.h"
#include "spoken.h"

enum { SHORT_RUN = 1000, LONG_STEP = 101, MOST_REPORTS = 20, TABLE_ROOM = 2 * OCTALMURE_MOST_TABLE_BYTES };
enum { MOST_EXPLAINED = 40 }; /* of more late records 'explain' says so much that it would take too long */

/* What COLUMNS says, NULL for nothing, and how wide a picture may then be: 40 at least, and 80 if it says nothing of use. */
static const struct {
    const char *said;
    size_t width;
} widths[] = {{"80", 80},   {"40", 40},     {"100", 100}, {"41", 41}, {"200", 200}, {"57", 57}, {"1000", 1000},
              {"333", 333}, {"999999", 999999}, {"1", 40},    {"0", 40},  {"", 80},     {"8O", 80}, {NULL, 80}};
enum { WIDTHS = sizeof widths / sizeof widths[0] };

static unsigned long passed, failed, answers[OCTALMURE_WRITTEN + 1], rules[RULES + 1], fine, coarse;
static unsigned long exported, imported, refused[OCTALMURE_REFUSAL_NOT_RISING + 1]; /* refused: of files that are not, for a table */
static unsigned long chains, chainless[OCTALMURE_REFUSAL_NO_SUCH_RECORD + 1], explained, explained_late;
static const char *path;
static char table_path[4096];
static FILE *said;

/* The table of the last file that had one, or what damage made of it. */
static uint8_t table[TABLE_ROOM];
static size_t table_length;

/* ---- a file ---- */

static void write_bytes(const char *name, const uint8_t *bytes, size_t length) {
    FILE *out = fopen(name, "wb");
    if (out == NULL || fwrite(bytes, 1, length, out) != length || fclose(out) != 0) {
        fprintf(said, "harness: %s cannot be written\n", name);
        exit(2);
    }
}

static void hold(const Case *made, bool right, const char *what) {
    char wrong[4096];
    const char *columns = getenv("COLUMNS");
    passed += right;
    failed += !right;
    if (!right && failed == 1) {
        snprintf(wrong, sizeof wrong, "%s.wrong", path);
        write_bytes(wrong, made->file, made->length);
        snprintf(wrong, sizeof wrong, "%s.wrong.csv", path);
        write_bytes(wrong, table, table_length);
    }
    if (!right && failed <= MOST_REPORTS) {
        fprintf(said, "harness: %s (%zu bytes, to %" PRIu32 ", COLUMNS %s)\n", what, made->length, made->horizon,
                columns != NULL ? columns : "unset");
    }
}

/* ---- what must be said of it ---- */

static struct octalmure_answer check_of(const uint8_t *file, size_t length) {
    uint8_t answer[OCTALMURE_ANSWER_BYTES];
    oracle_check(file, length, answer, sizeof answer);
    return octalmure_decode(answer);
}

static Status status_for(uint32_t answer) {
    static const Status statuses[] = {FINE, FINE, FINE, BROKEN, REFUSED, FINE, FINE};
    return statuses[answer];
}

static size_t late_of(struct octalmure_answer answer) {
    return answer.answer == OCTALMURE_LATE_BEFORE_H || answer.answer == OCTALMURE_LATE_FROM_H ? answer.code : 0;
}

static bool is_line(const Spoken *spoken, struct octalmure_answer a) {
    char line[80];
    snprintf(line, sizeof line, "%" PRIu32 " %" PRIu32 " %" PRIu32 " %" PRIu32 " %" PRIu32 "\n", a.answer, a.code, a.place[0],
             a.place[1], a.place[2]);
    return strcmp(spoken->text, line) == 0;
}

/* What was written, or the line. */
static bool is_written(const Spoken *spoken, struct octalmure_answer answer, const uint8_t *written) {
    if (answer.answer != OCTALMURE_WRITTEN) {
        return is_line(spoken, answer);
    }
    return spoken->length == answer.code && memcmp(spoken->text, written, answer.code) == 0;
}

/* ---- the words ---- */

static void try_check(const Case *made, struct octalmure_answer answer) {
    Spoken spoken = speak("check", path, NULL);
    hold(made, spoken.status == status_for(answer.answer) && spoken.quiet, "check: another status, or not quiet");
    hold(made, is_line(&spoken, answer), "check: not the line");
    free(spoken.text);
}

/* Gives the late records of the run that is carried to, or of none; and the status. */
static Status try_carry(const Case *made, const char *horizon, size_t *late) {
    uint8_t output[OCTALMURE_MOST_FILE_BYTES], bytes[OCTALMURE_ANSWER_BYTES];
    oracle_carry(made->file, made->length, made->horizon, output, sizeof output, bytes, sizeof bytes);
    struct octalmure_answer answer = octalmure_decode(bytes);
    bool carried = answer.answer == OCTALMURE_CARRIED;
    Spoken spoken = speak("carry", path, horizon);
    answers[OCTALMURE_CARRIED] += carried;
    hold(made, spoken.status == status_for(answer.answer) && spoken.quiet, "carry: another status, or not quiet");
    hold(made, is_written(&spoken, answer, output), "carry: not the file, or not the line");
    free(spoken.text);
    *late = carried ? late_of(check_of(output, answer.code)) : 0;
    return status_for(answer.answer);
}

static void try_say(const Case *made, struct octalmure_answer answer) {
    char horizon[20];
    size_t later;
    snprintf(horizon, sizeof horizon, "%" PRIu32, made->horizon);
    Status carried = try_carry(made, horizon, &later), status = status_for(answer.answer);
    Spoken spoken = speak("say", path, NULL), on = speak("say", path, horizon);
    hold(made, spoken.status == status && spoken.quiet, "say: another status, or not quiet");
    hold(made, on.status == (status == FINE ? carried : status) && on.quiet, "say, to a horizon: another status, or not quiet");
    hold(made, is_plain(&spoken) && is_plain(&on), "say: no plain text");
    hold(made, lines_that_begin(&spoken, "Late: ") == late_of(answer), "say: not every late record, or more");
    hold(made, lines_that_begin(&on, "Late: ") == late_of(answer) + later, "say, to a horizon: not every late record, or more");
    hold(made, on.length >= spoken.length && memcmp(on.text, spoken.text, spoken.length) == 0,
         "say, to a horizon: it begins in another way");
    hold(made, (on.length > spoken.length) == (status == FINE), "say: a carry of what is not accepted, or none of what is");
    free(spoken.text);
    free(on.text);
}

static void try_show(const Case *made, struct octalmure_answer answer, size_t width) {
    if (widths[width].said != NULL) {
        setenv("COLUMNS", widths[width].said, 1);
    } else {
        unsetenv("COLUMNS");
    }
    Spoken spoken = speak("show", path, NULL);
    hold(made, spoken.status == status_for(answer.answer) && spoken.quiet, "show: another status, or not quiet");
    hold(made, is_plain(&spoken), "show: no plain text");
    if (answer.answer == OCTALMURE_REFUSED) {
        hold(made, lines_that_begin(&spoken, "core ") == 0, "show: a picture of a file that is refused");
    } else {
        uint32_t cores = octalmure_number(made->file + 4), tasks = octalmure_number(made->file + OCTALMURE_SETTING_BYTES);
        uint32_t records = octalmure_number(made->file + OCTALMURE_FILE_BYTES((size_t)tasks, 0) - OCTALMURE_NUMBER_BYTES);
        hold(made, names_records(&spoken, records), "show: not every record is named");
        hold(made, picture_fits(&spoken, cores, widths[width].width), "show: no whole picture, or too wide a one");
        fine += lines_that_begin(&spoken, "Each tick is ");
        coarse += lines_that_begin(&spoken, "Each column is ");
    }
    free(spoken.text);
}

/* Gives whether the records of the file became the table. */
static bool try_export(const Case *made, struct octalmure_answer checked) {
    uint8_t output[OCTALMURE_MOST_TABLE_BYTES], bytes[OCTALMURE_ANSWER_BYTES];
    oracle_export(made->file, made->length, output, sizeof output, bytes, sizeof bytes);
    struct octalmure_answer answer = octalmure_decode(bytes);
    bool written = answer.answer == OCTALMURE_WRITTEN;
    Spoken spoken = speak("export", path, NULL);
    hold(made, spoken.status == status_for(answer.answer) && spoken.quiet, "export: another status, or not quiet");
    hold(made, is_written(&spoken, answer, output), "export: not the table, or not the line");
    hold(made, is_plain(&spoken), "export: no plain text");
    free(spoken.text);
    exported += written;
    refused[answer.answer == OCTALMURE_REFUSED ? answer.code : 0] += checked.answer != OCTALMURE_REFUSED;
    if (written) {
        table_length = answer.code;
        memcpy(table, output, table_length);
    }
    return written;
}

/* The table with the file; it must be the file again where it came from it. All of the table is judged, however long it is. */
static void try_import(const Case *made, struct octalmure_answer checked, bool again) {
    uint8_t output[OCTALMURE_MOST_FILE_BYTES], bytes[OCTALMURE_ANSWER_BYTES];
    write_bytes(table_path, table, table_length);
    oracle_import(made->file, made->length, table, table_length, output, sizeof output, bytes, sizeof bytes);
    struct octalmure_answer answer = octalmure_decode(bytes);
    Spoken spoken = speak("import", path, table_path);
    hold(made, spoken.status == status_for(answer.answer) && spoken.quiet, "import: another status, or not quiet");
    hold(made, is_written(&spoken, answer, output), "import: not the file, or not the line");
    hold(made, !again || (spoken.length == made->length && memcmp(spoken.text, made->file, made->length) == 0),
         "import: not the file that was exported");
    free(spoken.text);
    imported += answer.answer == OCTALMURE_WRITTEN;
    refused[answer.answer == OCTALMURE_REFUSED ? answer.code : 0] += checked.answer != OCTALMURE_REFUSED;
}

static void try_tables(const Case *made, struct octalmure_answer checked) {
    static Chance chance;
    try_import(made, checked, try_export(made, checked));
    table_length = damage_table(table, table_length, sizeof table, &chance);
    try_import(made, checked, false);
}

/* The numbers of the chain on one line. */
static bool is_chain(const Spoken *spoken, const uint8_t *chain, uint32_t count) {
    const char *at = spoken->text;
    for (uint32_t i = 0; i < count; i++) {
        char number[12], behind = i + 1 < count ? ' ' : '\n';
        int length = snprintf(number, sizeof number, "%" PRIu32 "%c", octalmure_number(chain + 4 * (size_t)i), behind);
        if (strncmp(at, number, (size_t)length) != 0) {
            return false;
        }
        at += length;
    }
    return *at == '\0';
}

static void try_why(const Case *made, uint32_t record) {
    uint8_t chain[OCTALMURE_MOST_CHAIN_BYTES], bytes[OCTALMURE_ANSWER_BYTES];
    char number[12];
    snprintf(number, sizeof number, "%" PRIu32, record);
    oracle_why(made->file, made->length, record, chain, sizeof chain, bytes, sizeof bytes);
    struct octalmure_answer answer = octalmure_decode(bytes);
    bool told = answer.answer == OCTALMURE_CHAIN;
    Spoken spoken = speak("why", path, number);
    hold(made, spoken.status == status_for(answer.answer) && spoken.quiet, "why: another status, or not quiet");
    hold(made, told ? is_chain(&spoken, chain, answer.code) : is_line(&spoken, answer), "why: not the chain, or not the line");
    free(spoken.text);
    chains += told;
    chainless[told ? 0 : answer.code]++;
}

/* Some record of the file, and one that there is not. */
static void try_whys(const Case *made, struct octalmure_answer checked) {
    static Chance chance;
    uint32_t records = 0;
    if (checked.answer != OCTALMURE_REFUSED) {
        uint32_t tasks = octalmure_number(made->file + OCTALMURE_SETTING_BYTES);
        records = octalmure_number(made->file + OCTALMURE_FILE_BYTES((size_t)tasks, 0) - OCTALMURE_NUMBER_BYTES);
    }
    try_why(made, below(&chance, (uint64_t)records + 1));
    try_why(made, one_in(&chance, 2) ? records : UINT32_MAX - below(&chance, 2));
}

/* Of every late record there is a paragraph; the document is one line. */
static void try_explain(const Case *made, struct octalmure_answer answer) {
    size_t late = late_of(answer);
    if (late > MOST_EXPLAINED) {
        return;
    }
    Status status = status_for(answer.answer);
    Spoken spoken = speak("explain", path, NULL), json = speak_json(path);
    hold(made, spoken.status == status && spoken.quiet, "explain: another status, or not quiet");
    hold(made, json.status == status && json.quiet, "explain --json: another status, or not quiet");
    hold(made, is_plain(&spoken) && is_plain(&json), "explain: no plain text");
    hold(made, lines_that_begin(&spoken, "Late: ") == late, "explain: not every late record, or more");
    hold(made, lines_that_begin(&spoken, "  The sum: ") == late, "explain: not the sum of every late record, or more");
    hold(made, lines_that_begin(&json, "{\"octalmure\": ") == 1 && strchr(json.text, '\n') == json.text + json.length - 1,
         "explain --json: no document on one line");
    free(spoken.text);
    free(json.text);
    explained++;
    explained_late += late;
}

/* At two widths, which change from file to file. */
static void try_file(const Case *made) {
    static size_t width;
    write_bytes(path, made->file, made->length);
    struct octalmure_answer answer = check_of(made->file, made->length);
    answers[answer.answer]++;
    rules[answer.answer == OCTALMURE_BROKEN ? answer.code : 0]++;
    try_check(made, answer);
    try_say(made, answer);
    try_tables(made, answer);
    try_whys(made, answer);
    try_explain(made, answer);
    try_show(made, answer, width++ % WIDTHS);
    try_show(made, answer, width % WIDTHS);
}

/* ---- files of every kind ---- */

static void try_fronts(const char *name) {
    static uint8_t whole[MOST_CASE_BYTES];
    static Case made;
    FILE *in = fopen(name, "rb");
    size_t length = in != NULL ? fread(whole, 1, sizeof whole, in) : 0;
    if (in == NULL || fclose(in) != 0) {
        fprintf(said, "harness: %s cannot be read\n", name);
        exit(2);
    }
    memcpy(made.file, whole, length);
    for (size_t left = 0; left <= length; left += length > SHORT_RUN && left + LONG_STEP <= length ? LONG_STEP : 1) {
        made.length = left;
        made.horizon = left >= 12 ? octalmure_number(whole + 8) + (uint32_t)(left % 3) : 0;
        try_file(&made);
    }
    for (size_t w = 0; w < WIDTHS; w++) {
        try_show(&made, check_of(made.file, made.length), w);
    }
}

static void try_seed(uint64_t seed, uint64_t count) {
    static Case made;
    for (uint64_t number = 0; number < count; number++) {
        Chance chance = chance_of(~seed, number);
        make_case(seed, number, &made);
        try_file(&made);
        damage(&made, &chance);
        try_file(&made);
        make_wild(&made, &chance);
        try_file(&made);
        if (number % 4 == 0) {
            make_noise(&made, &chance);
            try_file(&made);
        }
    }
}

/* How often a chain was told, and each refusal that can stand in its place but 11: the command lends room for every chain. */
static void print_chains(void) {
    static const uint32_t in_its_place[] = {1, 2, 3, 4, 5, 6, 7, 8, 10, 20};
    fprintf(said, "harness: %lu chains; %lu files explained, with %lu late records\n", chains, explained, explained_late);
    failed += chains == 0 || explained_late == 0;
    for (size_t i = 0; i < sizeof in_its_place / sizeof in_its_place[0]; i++) {
        fprintf(said, "harness: refusal %" PRIu32 " for a chain: %lu\n", in_its_place[i], chainless[in_its_place[i]]);
        failed += chainless[in_its_place[i]] == 0;
    }
}

/* How often each answer was met, each rule, and each refusal that a table adds: none may be missing. */
static void print_met(void) {
    static const uint32_t of_tables[] = {OCTALMURE_REFUSAL_RECORD_COUNT, OCTALMURE_REFUSAL_BAD_LINE, OCTALMURE_REFUSAL_REPEATED_JOB,
                                         OCTALMURE_REFUSAL_NOT_RISING};
    for (size_t i = 0; i <= OCTALMURE_WRITTEN; i++) {
        fprintf(said, "harness: answer %zu: %lu files\n", i, answers[i]);
        failed += answers[i] == 0;
    }
    for (size_t i = 1; i <= RULES; i++) {
        fprintf(said, "harness: rule %zu: %lu files\n", i, rules[i]);
        failed += rules[i] == 0;
    }
    fprintf(said, "harness: %lu tables exported, %lu imported\n", exported, imported);
    failed += exported == 0 || imported == 0;
    for (size_t i = 0; i < sizeof of_tables / sizeof of_tables[0]; i++) {
        fprintf(said, "harness: refusal %" PRIu32 " for a table: %lu\n", of_tables[i], refused[of_tables[i]]);
        failed += refused[of_tables[i]] == 0;
    }
    fprintf(said, "harness: %lu pictures in which a tick has several columns, %lu others\n", fine, coarse);
    failed += fine == 0 || coarse == 0;
}

/* What the words are not to write to takes the place of standard output; this program speaks on what it was. */
static void set_standard_output_aside(void) {
    FILE *empty = tmpfile();
    said = fdopen(dup(STDOUT_FILENO), "w");
    if (said == NULL || empty == NULL || dup2(fileno(empty), STDOUT_FILENO) < 0) {
        exit(2);
    }
    setvbuf(said, NULL, _IOLBF, BUFSIZ);
}

int main(int argc, char **argv) {
    if (argc < 5) {
        fprintf(stderr, "usage: harness PATH SEED COUNT RUN...\n");
        return 2;
    }
    path = argv[1];
    snprintf(table_path, sizeof table_path, "%s.csv", path);
    set_standard_output_aside();
    try_seed(strtoull(argv[2], NULL, 10), strtoull(argv[3], NULL, 10));
    for (int i = 4; i < argc; i++) {
        try_fronts(argv[i]);
    }
    print_met();
    print_chains();
    fprintf(said, "%lu passed, %lu failed\n", passed, failed);
    return failed == 0 ? EXIT_SUCCESS : EXIT_FAILURE;
}
