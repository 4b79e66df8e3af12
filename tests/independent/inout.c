#include "inout.h"

#include <inttypes.h>
#include <stdio.h>
#include <string.h>

#include "call.h"
#include "longtables.h"
#include "parts.h"
#include "reprint.h"
#include "tables.h"
#include "teller.h"

enum { MOST_REPORTS = 20, FILE_REFUSALS = 8, MOST_PATH = 4096 };

/* ---- what was met ---- */

/* Of one of the calls. Borders of the slices are counted where they decide: a room where a file or a table is to be written. */
typedef struct {
    uint64_t written, refused[REFUSALS + 1], short_slices, answer_19, answer_20, answer_21, one_short, exact, longer;
} Met;

typedef struct {
    Met import, export;
    uint64_t sevens;                                                      /* of a table, and not of a file */
    uint64_t good_table[FILE_REFUSALS + 1], bad_table[FILE_REFUSALS + 1]; /* that came with a file refused so */
    uint64_t borders[BORDERS], origins[ORIGINS], given_back, checked[REFUSED];
    uint64_t reprinted_faults, reprinted_imports, reprinted_exports;
} Tally;

static void meet(Met *met, const Call *call, size_t exact) {
    met->short_slices += !call->answered;
    met->answer_19 += call->answer.length == 19;
    met->answer_20 += call->answer.length == 20;
    met->answer_21 += call->answer.length == 21;
    if (call->answered && call->returned == WRITTEN) {
        met->written++;
        met->exact += call->output.length == call->numbers[1];
        met->longer += call->output.length > call->numbers[1];
    } else if (call->answered) {
        met->refused[call->numbers[1] % (REFUSALS + 1)]++;
        met->one_short += call->numbers[1] == 11 && call->output.length + 1 == exact;
    }
}

static void tell_slices(Teller *teller, const Met *met) {
    uint64_t refused = 0;
    for (uint32_t i = 1; i <= REFUSALS; i++) {
        refused += met->refused[i];
    }
    printf("  answers  ");
    tell(teller, "4", refused);
    tell(teller, "5", met->written);
    printf("\n  answer slices");
    tell(teller, "short", met->short_slices);
    tell(teller, "19", met->answer_19);
    tell(teller, "20", met->answer_20);
    tell(teller, "21", met->answer_21);
    printf("; outputs");
    tell(teller, "one byte short", met->one_short);
    tell(teller, "exact", met->exact);
    tell(teller, "longer", met->longer);
    printf("\n");
}

static const char *name_of_origin(uint32_t origin) {
    return origin_name((Origin)origin);
}

/* Prints what was met, and returns how much never was. */
static uint64_t tell_tally(const Tally *tally, bool self) {
    Teller teller = {0};
    printf("import\n");
    tell_slices(&teller, &tally->import);
    TELL_NUMBERS(&teller, "refusals", tally->import.refused, 1, 2, 3, 4, 5, 6, 7, 8, 11, 12, 13);
    printf("  of these");
    tell(&teller, "7 for the table", tally->sevens);
    printf("\n");
    TELL_NUMBERS(&teller, "file refused, good table", tally->good_table, 1, 2, 3, 4, 5, 6, 7, 8);
    TELL_NUMBERS(&teller, "file refused, bad table", tally->bad_table, 1, 2, 3, 4, 5, 6, 7, 8);
    tell_names(&teller, "tables", tally->borders, BORDERS, border_name);
    printf("imported files\n");
    TELL_NUMBERS(&teller, "answers", tally->checked, 0, 1, 2, 3);
    printf("export\n");
    tell_slices(&teller, &tally->export);
    TELL_NUMBERS(&teller, "refusals", tally->export.refused, 1, 2, 3, 4, 5, 6, 7, 8, 11, 14);
    tell_names(&teller, "files", tally->origins, ORIGINS, name_of_origin);
    printf("  imported again");
    tell(&teller, "the same file", tally->given_back);
    printf("\n");
    if (self) {
        printf("printed again");
        tell(&teller, "refused tables", tally->reprinted_faults);
        tell(&teller, "imports", tally->reprinted_imports);
        tell(&teller, "exports", tally->reprinted_exports);
        printf("\n");
    }
    return teller.never;
}

/* ---- the trial of a case ---- */

typedef struct {
    const Asked *asked;
    uint64_t reports;
    Tally tally;
    TableCase made;
    uint8_t long_table[MOST_LONG_BYTES];
    Bytes file, table; /* those of the case */
    uint8_t kept[MOST_LONG_BYTES];
    Call subject, oracle;
} Trial;

/* Reports the first few in full; file and table of the first stay at the path. */
static void report(Trial *trial, uint64_t number, const char *call, const char *wrong) {
    const TableCase *made = &trial->made;
    trial->reports++;
    if (trial->reports > MOST_REPORTS) {
        return;
    }
    const char *which = trial->table.bytes == trial->long_table ? "long table" : "table";
    printf("seed %" PRIu64 " %s %" PRIu64 " %s: %s\n", trial->asked->seed, which, number, call, wrong);
    printf("  file (%s) %zu bytes, table (%s) %zu bytes, outputs %zu and %zu bytes, answer slices %zu and %zu bytes\n",
           origin_name(made->origin), trial->file.length, border_name(made->border), trial->table.length, made->import_room,
           made->export_room, made->import_answer_length, made->export_answer_length);
    print_call(trial->asked->subject->name, &trial->subject);
    print_call(trial->asked->oracle->name, &trial->oracle);
    if (trial->reports == 1 && trial->asked->path != NULL) {
        char path[MOST_PATH];
        snprintf(path, sizeof path, "%s.file", trial->asked->path);
        leave_at(path, trial->file.bytes, trial->file.length);
        snprintf(path, sizeof path, "%s.table", trial->asked->path);
        leave_at(path, trial->table.bytes, trial->table.length);
    }
}

static bool says(const Call *call, uint32_t answer, uint32_t code, uint32_t place) {
    const uint32_t five[5] = {answer, code, place, 0, 0};
    return memcmp(call->numbers, five, sizeof five) == 0;
}

/* What is written if there is room, and otherwise 11. */
static bool says_written(const Call *call, size_t exact) {
    return call->output.length >= exact ? says(call, WRITTEN, (uint32_t)exact, 0) : says(call, REFUSED, 11, 0);
}

/* The file's own refusal comes first, and then what the table was made for. */
static const char *judge_import(Trial *trial, const Answer *of_file) {
    static const char unexpected[] = "what is said is not what the table was made for";
    const TableCase *made = &trial->made;
    Expected expected = made->expected;
    const Call *call = &trial->oracle;
    if (!call->answered) {
        return NULL;
    }
    if (of_file->answer == REFUSED) {
        uint64_t *met = expected.refusal == 0 ? trial->tally.good_table : trial->tally.bad_table;
        met[of_file->code]++;
        return says(call, REFUSED, of_file->code, of_file->place[0]) ? NULL : "what is said is not the file's own refusal";
    }
    if (expected.refusal != 0 && !says(call, REFUSED, expected.refusal, expected.refusal == 7 ? 0 : expected.line)) {
        return unexpected;
    }
    if (expected.refusal == 0 && !says_written(call, made->imported_bytes)) {
        return unexpected;
    }
    trial->tally.sevens += expected.refusal == 7;
    trial->tally.borders[made->border]++;
    return NULL;
}

static const char *reprint_import(Trial *trial, const Answer *of_file) {
    Call *call = &trial->oracle;
    if (!trial->asked->self || !call->answered || of_file->answer == REFUSED) {
        return NULL;
    }
    TableFault fault = reprint_fault(trial->table.bytes, trial->table.length);
    if (fault.number != 0) {
        trial->tally.reprinted_faults++;
        return says(call, REFUSED, fault.number, fault.number == 7 ? 0 : fault.line) ? NULL
                                                                                     : "the table, printed again, says otherwise";
    }
    if (call->returned != WRITTEN) {
        return says(call, REFUSED, 11, 0) ? NULL : "the table, printed again, is not refused";
    }
    trial->tally.reprinted_imports++;
    bool same =
        reprint_imported(trial->file.bytes, trial->table.bytes, trial->table.length, slice(&call->output), call->numbers[1]);
    return same ? NULL : "the imported file, printed again, says otherwise";
}

static const char *try_import(Trial *trial) {
    static Run run;
    const TableCase *made = &trial->made;
    size_t room = made->import_room, answer_length = made->import_answer_length;
    Answer of_file = oracle_read(trial->file.bytes, trial->file.length, &run);
    call_import(trial->asked->subject, trial->file, trial->table, room, answer_length, &trial->subject);
    call_import(trial->asked->oracle, trial->file, trial->table, room, answer_length, &trial->oracle);
    meet(&trial->tally.import, &trial->oracle, made->imported_bytes);
    return first_of(judge_calls(&trial->subject, &trial->oracle),
                    first_of(judge_import(trial, &of_file), reprint_import(trial, &of_file)));
}

/* What the oracle's call wrote, kept while other calls are made. */
static Bytes written(Trial *trial) {
    size_t length = trial->oracle.numbers[1];
    memcpy(trial->kept, slice(&trial->oracle.output), length);
    return (Bytes){trial->kept, length};
}

static bool wrote(const Trial *trial) {
    return trial->oracle.answered && trial->oracle.returned == WRITTEN;
}

/* The outputs are known to be the same file: both checkers must say the same of it. */
static const char *try_imported_file(Trial *trial) {
    Bytes file = written(trial);
    call_check(trial->asked->subject, file, CALL_ANSWER_BYTES, &trial->subject);
    call_check(trial->asked->oracle, file, CALL_ANSWER_BYTES, &trial->oracle);
    if (trial->oracle.returned >= REFUSED) {
        return "the imported file is refused";
    }
    trial->tally.checked[trial->oracle.returned]++;
    return judge_calls(&trial->subject, &trial->oracle);
}

/* What is known of files that were made here; the others are any of the cases. */
static const char *judge_export(Trial *trial) {
    const TableCase *made = &trial->made;
    const Call *call = &trial->oracle;
    if (!call->answered) {
        return NULL;
    }
    bool falls = made->origin == EQUAL_JOBS || made->origin == EXCHANGED || made->origin == FALLING_TASKS;
    if (made->origin != AS_IN_CASES && !(falls ? says(call, REFUSED, 14, 0) : says_written(call, made->exported_bytes))) {
        return "what is said is not what the file was made for";
    }
    trial->tally.origins[made->origin]++;
    return NULL;
}

static const char *reprint_export(Trial *trial) {
    if (!trial->asked->self || !wrote(trial)) {
        return NULL;
    }
    trial->tally.reprinted_exports++;
    bool same = reprint_exported(trial->file.bytes, slice(&trial->oracle.output), trial->oracle.numbers[1]);
    return same ? NULL : "the exported table, printed again, says otherwise";
}

static const char *try_export(Trial *trial) {
    const TableCase *made = &trial->made;
    call_export(trial->asked->subject, trial->file, made->export_room, made->export_answer_length, &trial->subject);
    call_export(trial->asked->oracle, trial->file, made->export_room, made->export_answer_length, &trial->oracle);
    meet(&trial->tally.export, &trial->oracle, made->exported_bytes);
    return first_of(judge_calls(&trial->subject, &trial->oracle), first_of(judge_export(trial), reprint_export(trial)));
}

/* The outputs are known to be the same table: its import is the file. */
static const char *try_exported_table(Trial *trial) {
    Bytes table = written(trial), file = trial->file;
    call_import(trial->asked->subject, file, table, file.length, CALL_ANSWER_BYTES, &trial->subject);
    call_import(trial->asked->oracle, file, table, file.length, CALL_ANSWER_BYTES, &trial->oracle);
    if (!says(&trial->oracle, WRITTEN, (uint32_t)file.length, 0) ||
        memcmp(slice(&trial->oracle.output), file.bytes, file.length) != 0) {
        return "import of export does not give the file back";
    }
    trial->tally.given_back++;
    return judge_calls(&trial->subject, &trial->oracle);
}

/* A call, and what is done with what it wrote. */
typedef struct {
    const char *name, *then_name;
    const char *(*try)(Trial *);
    const char *(*then)(Trial *);
} Step;

static bool try_made(Trial *trial, uint64_t number) {
    static const Step steps[] = {{"import", "check of the imported file", try_import, try_imported_file},
                                 {"export", "import of the exported table", try_export, try_exported_table}};
    bool same = true;
    for (size_t i = 0; i < sizeof steps / sizeof *steps; i++) {
        const char *call = steps[i].name, *wrong = steps[i].try(trial);
        if (wrong == NULL && wrote(trial)) {
            call = steps[i].then_name;
            wrong = steps[i].then(trial);
        }
        if (wrong != NULL) {
            report(trial, number, call, wrong);
            same = false;
        }
    }
    return same;
}

static bool try_case(Trial *trial, uint64_t number) {
    make_table_case(trial->asked->seed, number, &trial->made);
    trial->file = (Bytes){trial->made.file, trial->made.length};
    trial->table = (Bytes){trial->made.table, trial->made.table_length};
    return try_made(trial, number);
}

static bool try_long_table(Trial *trial, uint64_t number) {
    make_long_table(trial->asked->seed, number, &trial->made, trial->long_table);
    trial->file = (Bytes){trial->made.file, trial->made.length};
    trial->table = (Bytes){trial->long_table, trial->made.table_length};
    return try_made(trial, number);
}

/* ---- all cases ---- */

static void count_case(Counted *sum, bool same) {
    sum->passed += same;
    sum->failed += !same;
}

/* They are told apart from the other cases. What is never met there has failed, however many the others are. */
static void try_long_tables(Trial *trial, Counted *sum) {
    Teller teller = {0};
    trial->tally = (Tally){0};
    for (uint64_t number = 0; number < LONG_TABLES; number++) {
        count_case(sum, try_long_table(trial, number));
    }
    printf("long tables: %d cases, to %d bytes\n  answers  ", LONG_TABLES, MOST_LONG_BYTES);
    tell(&teller, "5", trial->tally.import.written);
    printf("\n");
    TELL_NUMBERS(&teller, "refusals", trial->tally.import.refused, 7, 12, 13);
    sum->failed += teller.never;
}

Counted try_tables(const Asked *asked, uint64_t count, bool enough) {
    static Trial trial;
    Counted sum = {0, 0};
    trial.asked = asked;
    for (uint64_t number = 0; number < count; number++) {
        count_case(&sum, try_case(&trial, number));
    }
    uint64_t never = tell_tally(&trial.tally, asked->self);
    try_long_tables(&trial, &sum);
    if (enough) {
        sum.failed += never;
    }
    return sum;
}
