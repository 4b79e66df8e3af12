#include "whys.h"

#include <inttypes.h>
#include <stdio.h>
#include <string.h>

#include "asks.h"
#include "call.h"
#include "causes.h"
#include "closing.h"
#include "links.h"
#include "parts.h"
#include "teller.h"

enum { MOST_REPORTS = 20, MOST_PATH = 4096, FILE_REFUSALS = 8, NUMBER_BYTES = 4, ALL_ASKED = 8, MANY = 100 };

/* ---- what was met ---- */

/* Which of several refusals is the one that is told. */
enum { OWN_OF_ALL, BROKEN_AND_NONE, BROKEN_AND_NO_ROOM, NONE_AND_NO_ROOM, NONE_OF_NO_RECORD, CLASHES };

static const char *clash_name(uint32_t clash) {
    static const char *const clashes[CLASHES] = {
        [OWN_OF_ALL] = "the file's own, of no record and without room",
        [BROKEN_AND_NONE] = "10 where there is no such record",
        [BROKEN_AND_NO_ROOM] = "10 without room",
        [NONE_AND_NO_ROOM] = "20 without room",
        [NONE_OF_NO_RECORD] = "20 in a run without a record",
    };
    return clashes[clash];
}

typedef struct {
    uint64_t chains, refused[REFUSALS + 1], broken[RULES + 1], short_slices, answer_19, answer_20, answer_21;
    uint64_t whichs[WHICHS], rooms[ROOMS], clashes[CLASHES];
    Links links;
} Tally;

/* Prints what was met, and returns how much never was. */
static uint64_t tell_tally(const Tally *tally) {
    Teller teller = {0};
    uint64_t refused = 0;
    for (uint32_t i = 1; i <= REFUSALS; i++) {
        refused += tally->refused[i];
    }
    printf("why\n  answers  ");
    tell(&teller, "4", refused);
    tell(&teller, "6", tally->chains);
    printf("\n  answer slices");
    tell(&teller, "short", tally->short_slices);
    tell(&teller, "19", tally->answer_19);
    tell(&teller, "20", tally->answer_20);
    tell(&teller, "21", tally->answer_21);
    printf("\n");
    TELL_NUMBERS(&teller, "refusals", tally->refused, 1, 2, 3, 4, 5, 6, 7, 8, 10, 11, 20);
    TELL_NUMBERS(&teller, "refused with 10 for rule", tally->broken, 1, 2, 3, 4, 5, 6, 7, 8, 9);
    tell_names(&teller, "of several", tally->clashes, CLASHES, clash_name);
    tell_names(&teller, "records of accepted runs", tally->whichs, WHICHS, which_name);
    tell_names(&teller, "outputs for a chain", tally->rooms, ROOMS, room_name);
    return teller.never + tell_links(&tally->links);
}

/* ---- the trial of a question ---- */

typedef struct {
    const Asked *asked;
    uint64_t number, reports;
    Tally tally;
    Case made;
    uint8_t long_file[MOST_LONG_BYTES];
    Bytes file;
    uint32_t checked[5];                  /* what is right for a check of the file */
    uint32_t records, lengths[MOST_JOBS]; /* how many there are; of an accepted run, how many numbers the chain of each has */
    Ask ask;
    size_t room;
    Call subject, oracle;
} Trial;

static bool is_accepted(const Trial *trial) {
    return trial->checked[0] < RULE_BROKEN;
}

static void report(Trial *trial, const char *wrong) {
    trial->reports++;
    if (trial->reports > MOST_REPORTS) {
        return;
    }
    const char *which = trial->file.bytes == trial->long_file ? "long run" : "run";
    printf("seed %" PRIu64 " %s %" PRIu64 " why: %s\n", trial->asked->seed, which, trial->number, wrong);
    printf("  file %zu bytes, record %" PRIu32 ", output %zu bytes, answer slice %zu bytes\n", trial->file.length,
           trial->ask.record, trial->room, trial->ask.answer_length);
    print_call(trial->asked->subject->name, &trial->subject);
    print_call(trial->asked->oracle->name, &trial->oracle);
    if (trial->reports == 1 && trial->asked->path != NULL) {
        char path[MOST_PATH];
        snprintf(path, sizeof path, "%s.why", trial->asked->path);
        leave_at(path, trial->file.bytes, trial->file.length);
    }
}

static void meet_refused(Trial *trial, uint32_t number) {
    Tally *tally = &trial->tally;
    bool none = trial->ask.record >= trial->records, no_room = trial->room == 0;
    tally->refused[number]++;
    tally->broken[number == 10 ? trial->checked[1] : 0]++;
    tally->clashes[OWN_OF_ALL] += number <= FILE_REFUSALS && none && no_room;
    tally->clashes[BROKEN_AND_NONE] += number == 10 && none;
    tally->clashes[BROKEN_AND_NO_ROOM] += number == 10 && no_room;
    tally->clashes[NONE_AND_NO_ROOM] += number == 20 && no_room;
    tally->clashes[NONE_OF_NO_RECORD] += number == 20 && trial->records == 0;
}

/* What is right was told by the oracle. */
static void meet(Trial *trial) {
    Tally *tally = &trial->tally;
    Call *call = &trial->oracle;
    tally->short_slices += !call->answered;
    tally->answer_19 += call->answer.length == 19;
    tally->answer_20 += call->answer.length == 20;
    tally->answer_21 += call->answer.length == 21;
    if (!call->answered) {
        return;
    }
    tally->whichs[trial->ask.which] += is_accepted(trial);
    tally->rooms[trial->ask.room] += is_accepted(trial) && trial->ask.record < trial->records;
    if (call->returned == CHAIN) {
        tally->chains++;
        meet_chain(&tally->links, trial->file.bytes, trial->file.length, slice(&call->output), call->numbers[1]);
    } else {
        meet_refused(trial, call->numbers[1] % (REFUSALS + 1));
    }
}

static bool says(const Call *call, uint32_t answer, uint32_t code) {
    const uint32_t five[5] = {answer, code, 0, 0, 0};
    return memcmp(call->numbers, five, sizeof five) == 0;
}

/* The refusals in their turn: the file's own, 10, 20, 11. */
static bool right_answer(const Trial *trial, const Call *call) {
    uint32_t record = trial->ask.record;
    if (trial->checked[0] == REFUSED) {
        return memcmp(call->numbers, trial->checked, sizeof trial->checked) == 0;
    }
    if (trial->checked[0] == RULE_BROKEN) {
        return says(call, REFUSED, 10);
    }
    if (record >= trial->records) {
        return says(call, REFUSED, 20);
    }
    uint32_t numbers = trial->lengths[record];
    return trial->room < NUMBER_BYTES * (size_t)numbers ? says(call, REFUSED, 11) : says(call, CHAIN, numbers);
}

/* The subject's own answer: that it is in turn, and that its chain is one. */
static const char *judge_subject(Trial *trial) {
    Call *call = &trial->subject;
    if (!call->answered) {
        return NULL;
    }
    bool whole = call->returned == CHAIN && is_accepted(trial) && call->numbers[1] <= trial->room / NUMBER_BYTES;
    const char *wrong =
        whole ? chain_wrong(trial->file.bytes, trial->file.length, trial->ask.record, slice(&call->output), call->numbers[1])
              : NULL;
    return first_of(wrong, right_answer(trial, call) ? NULL : "what is said is not what must be, by the order of the refusals");
}

static bool try_ask(Trial *trial, Ask ask, size_t room) {
    trial->ask = ask;
    trial->room = room;
    call_why(trial->asked->subject, trial->file, ask.record, room, ask.answer_length, &trial->subject);
    call_why(trial->asked->oracle, trial->file, ask.record, room, ask.answer_length, &trial->oracle);
    meet(trial);
    const char *wrong = first_of(judge_subject(trial), judge_calls(&trial->subject, &trial->oracle));
    if (wrong != NULL) {
        report(trial, wrong);
    }
    return wrong == NULL;
}

/* ---- the questions about a run ---- */

static void read_run(Trial *trial, Bytes file) {
    static Run run;
    trial->file = file;
    Answer said = oracle_read(file.bytes, file.length, &run);
    trial->records = said.answer == REFUSED ? 0 : run.record_count;
    said = said.answer == REFUSED ? said : oracle_judge(&run);
    const uint32_t five[5] = {said.answer, said.code, said.place[0], said.place[1], said.place[2]};
    memcpy(trial->checked, five, sizeof five);
    if (is_accepted(trial)) {
        oracle_chain_lengths(file.bytes, file.length, trial->lengths);
    }
}

static uint32_t longest_chain(const Trial *trial) {
    uint32_t longest = 0;
    for (uint32_t k = 1; k < trial->records; k++) {
        longest = trial->lengths[k] > trial->lengths[longest] ? k : longest;
    }
    return longest;
}

static bool try_record(Trial *trial, uint32_t record, Chance *chance) {
    Ask ask = ask_about(record, chance);
    bool known = is_accepted(trial) && record < trial->records;
    return try_ask(trial, ask, room_for(ask.room, known ? trial->lengths[record] : 1, chance));
}

/* Of a short run every record; of a longer one some, and the one with the longest chain, which is surely told. */
static bool try_records(Trial *trial, Chance *chance) {
    bool right = true;
    if (trial->records <= ALL_ASKED) {
        for (uint32_t k = 0; k < trial->records; k++) {
            right &= try_record(trial, k, chance);
        }
        return right;
    }
    for (uint32_t left = trial->records < MANY ? 6 : 2; left > 0; left--) {
        right &= try_record(trial, below(chance, trial->records), chance);
    }
    uint32_t longest = longest_chain(trial);
    Ask whole = {.which = A_RECORD, .record = longest, .room = EXACTLY, .answer_length = CALL_ANSWER_BYTES};
    right &= try_ask(trial, whole, room_for(EXACTLY, trial->lengths[longest], chance));
    return try_record(trial, longest, chance) && right;
}

static bool try_none(Trial *trial, Chance *chance) {
    Ask ask = ask_about_none(trial->records, chance);
    return try_ask(trial, ask, room_for(ask.room, 1, chance));
}

static bool try_run(Trial *trial, uint64_t number) {
    Chance chance = make_asked_run(trial->asked->seed, number, &trial->made);
    trial->number = number;
    read_run(trial, (Bytes){trial->made.file, trial->made.length});
    bool right = is_accepted(trial) ? try_records(trial, &chance) : try_record(trial, below(&chance, trial->records + 1), &chance);
    return try_none(trial, &chance) && right;
}

/* ---- all runs ---- */

static void count_case(Counted *sum, bool right) {
    sum->passed += right;
    sum->failed += !right;
}

/* A long file, or a run with long slices for what is written. */
static bool try_long_run(Trial *trial, uint64_t number) {
    Chance chance = chance_of(trial->asked->seed, number);
    make_long_case(trial->asked->seed, number, &trial->made, trial->long_file);
    trial->number = number;
    read_run(trial, (Bytes){trial->long_file, trial->made.length});
    Ask ask = ask_about(trial->records > 0 ? below(&chance, trial->records) : 0, &chance);
    ask.answer_length = trial->made.check_answer_length;
    return try_ask(trial, ask, trial->made.output_length);
}

/* They are told apart from the others. Some of the long files, and every run with long slices, which is the last kind; what is
   never met there has failed. */
static void try_long_runs(Trial *trial, Counted *sum) {
    enum { STEP = 3 };
    Teller teller = {0};
    uint64_t tried = 0;
    trial->tally = (Tally){0};
    for (uint64_t number = 0; number < LONG_CASES; number++) {
        if (number % STEP == 0 || number % LONG_KINDS == LONG_KINDS - 1) {
            count_case(sum, try_long_run(trial, number));
            tried++;
        }
    }
    printf("long asks: %" PRIu64 " cases, to %d bytes\n  answers  ", tried, MOST_LONG_BYTES);
    tell(&teller, "6", trial->tally.chains);
    printf("\n");
    TELL_NUMBERS(&teller, "refusals", trial->tally.refused, 2, 4, 7, 8);
    sum->failed += teller.never;
}

Counted try_whys(const Asked *asked, uint64_t count, bool enough) {
    static Trial trial;
    Counted sum = {0, 0};
    trial.asked = asked;
    for (uint64_t number = 0; number < count; number++) {
        count_case(&sum, try_run(&trial, number));
    }
    uint64_t never = tell_tally(&trial.tally);
    try_long_runs(&trial, &sum);
    if (enough) {
        sum.failed += never;
    }
    return sum;
}
