/* The chain of a record at its borders: which records there are, how much room it needs, what comes first, and that no other byte of the
   output or the answer changes. */
#include <octalmure.h>
#include <string.h>

#include "trial.h"

enum { RECORDS = 4, MOST = 2, BEHIND = 8 };

/* Each of C2's records: it and the one whose end it waited for. Records 2 and 3 start at their release. */
static const struct {
    uint32_t count, numbers[MOST];
} chains[RECORDS] = {{2, {0, 3}}, {2, {1, 2}}, {1, {2, 0}}, {1, {3, 0}}};

/* What is lent to be written, with bytes behind. */
typedef struct {
    uint8_t output[MOST * OCTALMURE_NUMBER_BYTES + BEHIND], answer[OCTALMURE_ANSWER_BYTES + BEHIND];
} Room;

typedef struct {
    Lent file;
    uint32_t record;
    size_t output, answer; /* how much of the room is lent */
} Question;

static void fill(Room *room) {
    memset(room->output, 0xA5, sizeof room->output);
    memset(room->answer, 0x5A, sizeof room->answer);
}

static void put_answer(Room *room, uint32_t answer, uint32_t code) {
    uint8_t *at = octalmure_put_number(octalmure_put_number(room->answer, answer), code);
    for (int i = 0; i < 3; i++) {
        at = octalmure_put_number(at, 0);
    }
}

static void try_why(Count *sum, const Question *asked, uint32_t right, const Room *expected, const char *what) {
    Room room;
    fill(&room);
    uint32_t returned = octalmure_why(asked->file.pointer, asked->file.length, asked->record, room.output, asked->output, room.answer,
                                      asked->answer);
    count(sum, returned == right && memcmp(&room, expected, sizeof room) == 0, what);
}

/* Refused with this code; and with an answer of 19 bytes, which is met first of all, no byte changes. */
static void try_refused(Count *sum, Question asked, uint32_t code, const char *what) {
    Room expected;
    fill(&expected);
    asked.answer = OCTALMURE_ANSWER_BYTES - 1;
    try_why(sum, &asked, OCTALMURE_REFUSED, &expected, "an answer of 19 bytes is not met first of all");
    put_answer(&expected, OCTALMURE_REFUSED, code);
    asked.answer = OCTALMURE_ANSWER_BYTES;
    try_why(sum, &asked, OCTALMURE_REFUSED, &expected, what);
}

/* With just enough room and with more, with one byte less, and with none. */
static void try_told(Count *sum, Question asked) {
    Room expected;
    uint32_t numbers = chains[asked.record].count;
    uint8_t *at = expected.output;
    fill(&expected);
    put_answer(&expected, OCTALMURE_CHAIN, numbers);
    for (uint32_t i = 0; i < numbers; i++) {
        at = octalmure_put_number(at, chains[asked.record].numbers[i]);
    }
    asked.output = sizeof expected.output;
    try_why(sum, &asked, OCTALMURE_CHAIN, &expected, "a chain is another one, or bytes behind it change");
    asked.output = OCTALMURE_NUMBER_BYTES * (size_t)numbers;
    try_why(sum, &asked, OCTALMURE_CHAIN, &expected, "a chain is not told where there is just enough room");
    asked.output--;
    try_refused(sum, asked, OCTALMURE_REFUSAL_SHORT_OUTPUT, "a chain is told where one byte of room is missing");
    asked.output = 0;
    try_refused(sum, asked, OCTALMURE_REFUSAL_SHORT_OUTPUT, "a chain is told where there is no room");
}

void try_whys(Count *sum, const uint8_t *c2, size_t c2_length) {
    static const uint32_t none[] = {RECORDS, RECORDS + 1, OCTALMURE_MOST_JOBS - 1, OCTALMURE_MOST_JOBS, UINT32_MAX - 1, UINT32_MAX};
    uint8_t own[OCTALMURE_MOST_FILE_BYTES];
    Question asked = {.file = {own, c2_length}, .output = 0, .answer = OCTALMURE_ANSWER_BYTES + BEHIND};
    memcpy(own, c2, c2_length);
    for (asked.record = 0; asked.record < RECORDS; asked.record++) {
        try_told(sum, asked);
    }
    for (size_t i = 0; i < sizeof none / sizeof none[0]; i++) {
        asked.record = none[i];
        try_refused(sum, asked, OCTALMURE_REFUSAL_NO_SUCH_RECORD, "a record that there is not is not refused with 20 before 11");
    }
    own[c2_length - OCTALMURE_NUMBER_BYTES] = 3; /* the last record's core, and there are two */
    try_refused(sum, asked, OCTALMURE_REFUSAL_BROKEN_RUN, "a run that breaks a rule is not refused with 10 before 20");
    asked.record = 0;
    try_refused(sum, asked, OCTALMURE_REFUSAL_BROKEN_RUN, "a run that breaks a rule is not refused with 10 before 11");
    asked.file.length--;
    try_refused(sum, asked, OCTALMURE_REFUSAL_CUT_SHORT, "a file that is cut short is not refused with 1 before all else");
}
