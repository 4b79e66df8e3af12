/* harness SEED COUNT [PATH]         holds the library to the oracle on COUNT files, as many tables, and a quarter as many runs of
                                     which is asked why
   harness --self SEED COUNT [PATH]  holds the oracle to itself, to the laws of the slices and to a word by word reading
   PATH gets the first file that they differ on, PATH.table the first table, and PATH.file the file that was given with it; PATH.why
   the first of which why differs.
   Both try the worked runs of the paper, the runs and tables worked by hand for its requests, and the long files and tables of the
   seed too. */
#include <inttypes.h>
#include <stdbool.h>
#include <stdio.h>
#include <stdlib.h>
#include <string.h>

#include "apart.h"
#include "bounds.h"
#include "call.h"
#include "cases.h"
#include "causes.h"
#include "chains.h"
#include "entries.h"
#include "exchange.h"
#include "following.h"
#include "handmade.h"
#include "inout.h"
#include "literal.h"
#include "long.h"
#include "near.h"
#include "oracle.h"
#include "subject.h"
#include "waits.h"
#include "whys.h"
#include "worked.h"

#ifndef ORACLE_ONLY
extern uint32_t octalmure_check(const uint8_t *file, size_t file_length, uint8_t *answer, size_t answer_length);
extern uint32_t octalmure_carry(const uint8_t *file, size_t file_length, uint32_t horizon, uint8_t *output, size_t output_length,
                                uint8_t *answer, size_t answer_length);
extern uint32_t octalmure_import(const uint8_t *file, size_t file_length, const uint8_t *table, size_t table_length,
                                 uint8_t *output, size_t output_length, uint8_t *answer, size_t answer_length);
extern uint32_t octalmure_export(const uint8_t *file, size_t file_length, uint8_t *output, size_t output_length, uint8_t *answer,
                                 size_t answer_length);
extern uint32_t octalmure_why(const uint8_t *file, size_t file_length, uint32_t record, uint8_t *output, size_t output_length,
                              uint8_t *answer, size_t answer_length);
#endif

enum { RULE_BROKEN = 3, REFUSED = 4, CARRIED = 5, MOST_REPORTS = 20, ENOUGH_CASES = 50000, RULE_ONCE_IN = 100, WHY_ONCE_IN = 4 };

/* ---- what was met ---- */

typedef struct {
    uint64_t answers[6], rules[RULES + 1], refusals[REFUSALS + 1], short_slices;
} Met;

typedef struct {
    Met check, carry, carried;
    Apart apart;
    Near near;
    uint64_t not_carried[RULES + 1]; /* which rule is broken by a run that is refused with 10 */
    uint64_t literal_rules[RULES + 1], literal_carried, literal_waits;
} Tally;

static void meet(Met *met, const Call *call) {
    if (!call->answered) {
        met->short_slices++;
    } else if (call->returned <= CARRIED) {
        met->answers[call->returned]++;
        met->rules[call->returned == RULE_BROKEN ? call->numbers[1] % (RULES + 1) : 0]++;
        met->refusals[call->returned == REFUSED ? call->numbers[1] % (REFUSALS + 1) : 0]++;
    }
}

static void print_counts(const char *what, const uint64_t *counts, uint32_t from, uint32_t to) {
    printf("  %-9s", what);
    for (uint32_t i = from; i <= to; i++) {
        printf(" %" PRIu32 ":%" PRIu64, i, counts[i]);
    }
    printf("\n");
}

static void print_met(const char *name, const Met *met) {
    printf("%s\n", name);
    print_counts("answers", met->answers, 0, 5);
    print_counts("rules", met->rules, 1, RULES);
    print_counts("refusals", met->refusals, 1, CARRY_REFUSALS);
    printf("  short answer slices %" PRIu64 "\n", met->short_slices);
}

static uint64_t never_met(const char *what, const uint64_t *check, const uint64_t *carry, uint32_t from, uint32_t to) {
    uint64_t count = 0;
    for (uint32_t i = from; i <= to; i++) {
        if (check[i] + carry[i] == 0) {
            printf("%s %" PRIu32 " was never met\n", what, i);
            count++;
        }
    }
    return count;
}

/* Fewer than that of each rule would say little of its places and borders. */
static uint64_t seldom_met(const Tally *tally, uint64_t least) {
    uint64_t count = 0;
    for (uint32_t rule = 1; rule <= RULES; rule++) {
        if (tally->check.rules[rule] < least) {
            printf("rule %" PRIu32 " was met %" PRIu64 " times, and not %" PRIu64 "\n", rule, tally->check.rules[rule], least);
            count++;
        }
    }
    return count;
}

static uint64_t never_met_at_all(const Tally *tally, uint64_t cases) {
    const Met *check = &tally->check, *carry = &tally->carry;
    const uint64_t *not_carried = tally->not_carried;
    return never_met("answer", check->answers, carry->answers, 0, 5) + seldom_met(tally, cases / RULE_ONCE_IN) +
           never_met("refusal", check->refusals, carry->refusals, 1, CARRY_REFUSALS) +
           never_met("refusal 10 by rule", not_carried, not_carried, 1, RULES);
}

/* What the oracle's own test read tick by tick. */
static uint64_t never_read(const Tally *tally) {
    const uint64_t *rules = tally->literal_rules, *carried = &tally->literal_carried, *waits = &tally->literal_waits;
    return never_met("tick by tick, broken rule", rules, rules, 0, 0) + never_met("tick by tick, rule", rules, rules, 7, RULES) +
           never_met("tick by tick, carried file", carried, carried, 0, 0) +
           never_met("tick by tick, waits of a file", waits, waits, 0, 0);
}

/* ---- the trial of a case ---- */

typedef struct {
    const Subject *subject;
    bool self;
    uint64_t seed, reports;
    const char *path;
    Tally tally;
    Case made;
    uint8_t long_file[MOST_LONG_BYTES];
    const uint8_t *file; /* of the case that is tried; its length and its slices are those of made */
    Call subject_call, oracle_call;
} Trial;

static const Subject the_oracle = {"oracle", oracle_check, oracle_carry, oracle_import, oracle_export, oracle_why};

/* Reports the first few in full; the file of the first stays at the path. */
static void report(Trial *trial, uint64_t number, const char *call, const char *wrong) {
    const Case *made = &trial->made;
    trial->reports++;
    if (trial->reports > MOST_REPORTS) {
        return;
    }
    const char *which = trial->file == trial->long_file ? "long case" : "case";
    printf("seed %" PRIu64 " %s %" PRIu64 " %s: %s\n", trial->seed, which, number, call, wrong);
    printf("  file %zu bytes, carried to %" PRIu32 ", output %zu bytes, answer slices %zu and %zu bytes\n", made->length,
           made->horizon, made->output_length, made->check_answer_length, made->carry_answer_length);
    print_call(trial->subject->name, &trial->subject_call);
    print_call(the_oracle.name, &trial->oracle_call);
    if (trial->reports == 1 && trial->path != NULL) {
        leave_at(trial->path, trial->file, made->length);
    }
}

static Bytes file_of(const Trial *trial) {
    return (Bytes){trial->file, trial->made.length};
}

/* The oracle said that one of the rules 7 to 9 is broken there, or that no rule is. */
static const char *judge_literally(Trial *trial) {
    const Call *call = &trial->oracle_call;
    uint32_t place[3], rule = call->returned == RULE_BROKEN ? call->numbers[1] : 0;
    bool accepted = call->returned < RULE_BROKEN;
    if (!trial->self || !call->answered || !(accepted || rule >= 7) || !literal_applies(trial->file)) {
        return NULL;
    }
    trial->tally.literal_rules[rule]++;
    bool same = literal_broken(trial->file, place) == rule && (accepted || memcmp(place, call->numbers + 2, sizeof place) == 0);
    return same ? NULL : "rules 7 to 9, read tick by tick, say otherwise";
}

/* What is promised of the waits of a run that the subject accepts. */
static const char *judge_waits(Trial *trial, Bytes file) {
    const Call *call = &trial->subject_call;
    if (!call->answered || call->returned >= RULE_BROKEN) {
        return NULL;
    }
    const char *wrong = waits_wrong(file.bytes, file.length);
    meet_waits(&trial->tally.near, file.bytes, file.length);
    bool by_ticks = trial->self && literal_applies(file.bytes);
    trial->tally.literal_waits += by_ticks;
    return wrong == NULL && by_ticks ? waits_wrong_by_ticks(file.bytes, file.length) : wrong;
}

static const char *try_check(Trial *trial) {
    const Case *made = &trial->made;
    call_check(trial->subject, file_of(trial), made->check_answer_length, &trial->subject_call);
    call_check(&the_oracle, file_of(trial), made->check_answer_length, &trial->oracle_call);
    meet(&trial->tally.check, &trial->oracle_call);
    if (trial->oracle_call.answered) {
        meet_checked(&trial->tally.apart, trial->file, made->length, trial->oracle_call.numbers);
    }
    if (made->permitted && trial->oracle_call.answered && trial->oracle_call.returned >= RULE_BROKEN) {
        return "the run of a server without a fault is not accepted";
    }
    const char *wrong = first_of(judge_calls(&trial->subject_call, &trial->oracle_call), judge_literally(trial));
    return wrong == NULL ? judge_waits(trial, file_of(trial)) : wrong;
}

/* Which rule a run breaks that is not carried for it. */
static void meet_not_carried(Trial *trial) {
    uint8_t answer[CALL_ANSWER_BYTES];
    const Call *call = &trial->oracle_call;
    if (call->answered && call->returned == REFUSED && call->numbers[1] == 10) {
        oracle_check(trial->file, trial->made.length, answer, sizeof answer);
        trial->tally.not_carried[answer[4] % (RULES + 1)]++;
    }
}

static const char *try_carry(Trial *trial) {
    const Case *made = &trial->made;
    size_t room = made->output_length, answer_length = made->carry_answer_length;
    call_carry(trial->subject, file_of(trial), made->horizon, room, answer_length, &trial->subject_call);
    call_carry(&the_oracle, file_of(trial), made->horizon, room, answer_length, &trial->oracle_call);
    meet(&trial->tally.carry, &trial->oracle_call);
    meet_not_carried(trial);
    return judge_calls(&trial->subject_call, &trial->oracle_call);
}

/* A file that is carried to its own H is a run of the same set, and often another one: each is held to the other's greatest times. */
static const char *judge_set(Trial *trial, Bytes carried) {
    Bytes file = file_of(trial);
    if (!of_one_set(file.bytes, file.length, carried.bytes, carried.length)) {
        return NULL;
    }
    meet_set(&trial->tally.near, carried.bytes, carried.length, file.bytes, file.length);
    return first_of(waits_wrong_by_set(carried.bytes, carried.length, file.bytes, file.length),
                    waits_wrong_by_set(file.bytes, file.length, carried.bytes, carried.length));
}

/* The outputs are known to be the same file: both checkers must accept it. */
static const char *try_carried_file(Trial *trial) {
    uint8_t carried[MOST_CASE_BYTES];
    Bytes file = {carried, trial->oracle_call.numbers[1]};
    memcpy(carried, slice(&trial->oracle_call.output), file.length);
    meet_carried(&trial->tally.apart, trial->file, trial->made.length, carried, file.length);
    call_check(trial->subject, file, CALL_ANSWER_BYTES, &trial->subject_call);
    call_check(&the_oracle, file, CALL_ANSWER_BYTES, &trial->oracle_call);
    meet(&trial->tally.carried, &trial->oracle_call);
    if (trial->oracle_call.returned >= RULE_BROKEN) {
        return "the carried run is not accepted";
    }
    if (trial->self && literal_applies(carried)) {
        trial->tally.literal_carried++;
        if (!literal_carried(trial->file, carried)) {
            return "carrying, read tick by tick, says otherwise";
        }
    }
    const char *wrong = judge_calls(&trial->subject_call, &trial->oracle_call);
    wrong = wrong == NULL ? judge_waits(trial, file) : wrong;
    return wrong == NULL ? judge_set(trial, file) : wrong;
}

/* Whether the case went without a difference. Carrying is tried even where checking differs: it tells more. */
static bool try_made(Trial *trial, uint64_t number) {
    const char *wrong = try_check(trial);
    bool same = wrong == NULL;
    if (wrong != NULL) {
        report(trial, number, "check", wrong);
    }
    wrong = try_carry(trial);
    const char *call = "carry";
    if (wrong == NULL && trial->oracle_call.answered && trial->oracle_call.returned == CARRIED) {
        call = "check of the carried file";
        wrong = try_carried_file(trial);
    }
    if (wrong != NULL) {
        report(trial, number, call, wrong);
    }
    return same && wrong == NULL;
}

static bool try_case(Trial *trial, uint64_t number) {
    make_case(trial->seed, number, &trial->made);
    trial->file = trial->made.file;
    return try_made(trial, number);
}

static bool try_long_case(Trial *trial, uint64_t number) {
    make_long_case(trial->seed, number, &trial->made, trial->long_file);
    trial->file = trial->long_file;
    return try_made(trial, number);
}

/* ---- the program ---- */

static void print_tally(const Trial *trial) {
    print_met("check", &trial->tally.check);
    print_met("carry", &trial->tally.carry);
    print_counts("refused with 10 for rule", trial->tally.not_carried, 1, RULES);
    printf("carried files\n");
    print_counts("answers", trial->tally.carried.answers, 0, 3);
    if (trial->self) {
        const uint64_t *rules = trial->tally.literal_rules;
        printf("read tick by tick\n  accepted %" PRIu64 ", carried files %" PRIu64 ", waits of %" PRIu64 " files\n", rules[0],
               trial->tally.literal_carried, trial->tally.literal_waits);
        print_counts("rules", rules, 7, RULES);
    }
}

static void count_case(Counted *sum, bool same) {
    sum->passed += same;
    sum->failed += !same;
}

static void add(Counted *sum, Counted more) {
    sum->passed += more.passed;
    sum->failed += more.failed;
}

/* They are told apart from the other cases: each fault that a long file can have, and a carry into a long output, must be met. */
static void try_long_cases(Trial *trial, Counted *sum) {
    static const uint32_t refusals[] = {2, 4, 7, 8};
    Tally others = trial->tally;
    trial->tally = (Tally){0};
    for (uint64_t number = 0; number < LONG_CASES; number++) {
        count_case(sum, try_long_case(trial, number));
    }
    const Met *check = &trial->tally.check, *carry = &trial->tally.carry;
    printf("long files: %d cases, to %d bytes\n", LONG_CASES, MOST_LONG_BYTES);
    print_counts("answers", carry->answers, 0, 5);
    print_counts("refusals", check->refusals, 1, CARRY_REFUSALS);
    for (size_t i = 0; i < sizeof refusals / sizeof *refusals; i++) {
        sum->failed += never_met("in a long file refusal", check->refusals, carry->refusals, refusals[i], refusals[i]);
    }
    sum->failed += never_met("with long slices answer", check->answers, carry->answers, CARRIED, CARRIED);
    trial->tally = others;
}

static int try_all(Trial *trial, uint64_t count) {
    Counted sum = try_worked_runs(trial->subject);
    add(&sum, try_following_runs(trial->subject));
    add(&sum, try_handmade_tables(trial->subject));
    add(&sum, try_chains(trial->subject));
    add(&sum, try_bounds(trial->subject, &trial->tally.near));
    for (uint64_t number = 0; number < count; number++) {
        count_case(&sum, try_case(trial, number));
    }
    print_tally(trial);
    uint64_t never = tell_apart(&trial->tally.apart) + tell_near(&trial->tally.near);
    try_long_cases(trial, &sum);
    if (count >= ENOUGH_CASES) {
        sum.failed += never + never_met_at_all(&trial->tally, count) + (trial->self ? never_read(&trial->tally) : 0);
    }
    const Asked asked = {trial->subject, &the_oracle, trial->self, trial->seed, trial->path};
    add(&sum, try_tables(&asked, count, count >= ENOUGH_CASES));
    add(&sum, try_whys(&asked, count / WHY_ONCE_IN, count >= ENOUGH_CASES));
    printf("%" PRIu64 " passed, %" PRIu64 " failed\n", sum.passed, sum.failed);
    return sum.failed == 0 ? EXIT_SUCCESS : EXIT_FAILURE;
}

static const Subject *the_library(void) {
#ifdef ORACLE_ONLY
    return NULL;
#else
    static const Subject library = {"library", octalmure_check, octalmure_carry, octalmure_import, octalmure_export, octalmure_why};
    return &library;
#endif
}

static bool read_number(const char *text, uint64_t *number) {
    char *end;
    *number = strtoull(text, &end, 10);
    return *text != '\0' && *end == '\0';
}

int main(int argc, char **argv) {
    static Trial trial;
    uint64_t count;
    trial.self = argc > 1 && strcmp(argv[1], "--self") == 0;
    int first = trial.self ? 2 : 1;
    trial.subject = trial.self ? &the_oracle : the_library();
    bool right = (argc == first + 2 || argc == first + 3) && read_number(argv[first], &trial.seed);
    if (!right || !read_number(argv[first + 1], &count) || trial.subject == NULL) {
        const char *only = the_library() == NULL ? " (this one only with --self)" : "";
        fprintf(stderr, "usage: harness [--self] SEED COUNT [PATH]%s\n", only);
        return 2;
    }
    trial.path = argc == first + 3 ? argv[first + 2] : NULL;
    setvbuf(stdout, NULL, _IOLBF, BUFSIZ); /* so that reports are seen even if a later call does not return */
    return try_all(&trial, count);
}
