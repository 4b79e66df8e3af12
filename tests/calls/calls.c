/* calls C2.run C2.csv C9.run: tries the guarded calls, and what else the header has. Its last line is 'N passed, M failed'. */
#include <octalmure.h>
#include <stdio.h>
#include <stdlib.h>
#include <string.h>

#include "trial.h"

enum { C2_BYTES = 196, C2_TABLE_BYTES = 86, CARRIED_BYTES = 220, CHAIN_BYTES = 8, RUN_AT = 700 };

static uint8_t c2[OCTALMURE_MOST_FILE_BYTES], c2_table[OCTALMURE_MOST_FILE_BYTES], c9[OCTALMURE_MOST_FILE_BYTES];

/* A call of each kind whose slices are apart, and long enough. */
#define ALL_BUT_OUTPUT \
    [RUN] = {RUN_AT, C2_BYTES, false}, [TABLE] = {300, C2_TABLE_BYTES, false}, [ANSWER] = {100, OCTALMURE_ANSWER_BYTES, false}
static const Call whole[KINDS] = {
    [CHECK] = {.kind = CHECK, .slices = {ALL_BUT_OUTPUT}},
    [CARRY] = {.kind = CARRY, .number = 20, .slices = {ALL_BUT_OUTPUT, [OUTPUT] = {1200, CARRIED_BYTES, false}}},
    [IMPORT] = {.kind = IMPORT, .slices = {ALL_BUT_OUTPUT, [OUTPUT] = {1200, C2_BYTES, false}}},
    [EXPORT] = {.kind = EXPORT, .slices = {ALL_BUT_OUTPUT, [OUTPUT] = {1200, C2_TABLE_BYTES, false}}},
    [WHY] = {.kind = WHY, .number = 1, .slices = {ALL_BUT_OUTPUT, [OUTPUT] = {1200, CHAIN_BYTES, false}}},
};

static void try_c2(Count *sum, const Call *call) {
    const Lent contents[OUTPUT] = {[RUN] = {c2, C2_BYTES}, [TABLE] = {c2_table, C2_TABLE_BYTES}};
    try_call(sum, call, contents);
}

/* One slice at every place of the room. */
static void sweep(Count *sum, Call call, Part part) {
    Slice *slice = &call.slices[part];
    for (slice->at = 0; slice->at + slice->length <= ROOM; slice->at++) {
        try_c2(sum, &call);
    }
}

/* One slice before, at, in, over and behind each end of another, with the answer everywhere. */
static void sweep_around(Count *sum, Kind kind, Part part, Part other) {
    Call call = whole[kind];
    Slice *slice = &call.slices[part];
    size_t begin = call.slices[other].at, front = begin - slice->length, back = begin + call.slices[other].length;
    size_t places[] = {front - 50, front, front + 1, begin - 1, begin, begin + 1, back - 1, back, back + 50};
    for (size_t i = 0; i < sizeof places / sizeof places[0]; i++) {
        slice->at = places[i];
        sweep(sum, call, ANSWER);
    }
}

/* Each slice of each call at every place, the others where they are; and where three can meet, two of them. */
static void try_places(Count *sum) {
    for (Kind kind = CHECK; kind < KINDS; kind++) {
        for (Part part = RUN; part < PARTS; part++) {
            if (has(kind, part)) {
                sweep(sum, whole[kind], part);
            }
        }
    }
    sweep_around(sum, CARRY, OUTPUT, RUN);
    sweep_around(sum, IMPORT, OUTPUT, RUN);
    sweep_around(sum, IMPORT, OUTPUT, TABLE);
    sweep_around(sum, IMPORT, TABLE, RUN);
    sweep_around(sum, EXPORT, OUTPUT, RUN);
    sweep_around(sum, WHY, OUTPUT, RUN);
}

/* A slice of this length, within and beside the file, and null. */
static void try_length(Count *sum, Kind kind, Part part, size_t length) {
    Call call = whole[kind];
    Slice *slice = &call.slices[part];
    slice->length = length;
    for (slice->at = RUN_AT - 1; slice->at <= RUN_AT + C2_BYTES; slice->at++) {
        try_c2(sum, &call);
    }
    slice->null = true;
    try_c2(sum, &call);
}

/* Slices of length 0, short and long ones. */
static void try_lengths(Count *sum) {
    static const size_t lengths[] = {0, 1, CHAIN_BYTES - 1, CHAIN_BYTES, 19, 20, 21, C2_TABLE_BYTES - 1, C2_BYTES - 1, C2_BYTES,
                                     CARRIED_BYTES};
    for (size_t i = 0; i < sizeof lengths / sizeof lengths[0]; i++) {
        Call check = whole[CHECK];
        check.slices[ANSWER].length = lengths[i];
        sweep(sum, check, ANSWER);
        for (Kind kind = CHECK; kind < KINDS; kind++) {
            for (Part part = RUN; part < PARTS; part++) {
                if (has(kind, part)) {
                    try_length(sum, kind, part, lengths[i]);
                }
            }
        }
    }
}

static bool all_zero(const uint8_t *bytes, size_t length) {
    bool zero = true;
    for (size_t i = 0; i < length; i++) {
        zero = zero && bytes[i] == 0;
    }
    return zero;
}

/* Lengths that no slice has. No memory is behind them: a call that went on would end the program. */
static void try_impossible(Count *sum) {
    uint8_t *top = (uint8_t *)(UINTPTR_MAX - 7), own[CARRIED_BYTES] = {0}, answer[OCTALMURE_ANSWER_BYTES] = {0};
    const Lent bad[] = {{own, SIZE_MAX}, {own, (size_t)PTRDIFF_MAX + 1}, {top, 8},        {top, 20},
                        {top, SIZE_MAX}, {NULL, 1},                      {NULL, SIZE_MAX}};
    for (size_t i = 0; i < sizeof bad / sizeof bad[0]; i++) {
        for (Kind kind = CHECK; kind < KINDS; kind++) {
            for (Part part = RUN; part < PARTS; part++) {
                Lent lent[PARTS] = {{c2, C2_BYTES}, {c2_table, C2_TABLE_BYTES}, {own, sizeof own}, {answer, sizeof answer}};
                lent[part] = bad[i];
                bool stopped = !has(kind, part) || call_guarded(kind, lent, 20) == OCTALMURE_REFUSED;
                count(sum, stopped && all_zero(own, sizeof own) && all_zero(answer, sizeof answer),
                      "a length that no slice has is not stopped, or a byte is touched");
            }
        }
    }
    count(sum, octalmure_is_slice(top, 7) && octalmure_is_slice(own, 1), "what can be a slice is not let through");
}

/* File and table may be the same bytes: the front of C2, and a table in the place of its records, which may have any numbers. */
static void try_shared(Count *sum) {
    static const char text[] = "task,job,release,start,end,core\n0,0,10,15,170,2\n";
    enum { FRONT = OCTALMURE_FILE_BYTES(4, 0), TEXT = sizeof text - 1, RECORDS = TEXT / OCTALMURE_RECORD_BYTES };
    const struct octalmure_record record = {0, 0, 10, 15, 170, 2};
    uint8_t file[FRONT + TEXT], expected[OCTALMURE_FILE_BYTES(4, 1)], output[sizeof expected], answer[OCTALMURE_ANSWER_BYTES];
    memcpy(file, c2, FRONT);
    octalmure_put_number(file + FRONT - OCTALMURE_NUMBER_BYTES, RECORDS);
    memcpy(file + FRONT, text, TEXT);
    memcpy(expected, c2, FRONT);
    octalmure_put_record(octalmure_put_number(expected + FRONT - OCTALMURE_NUMBER_BYTES, 1), record);
    uint32_t returned =
        octalmure_guarded_import(file, sizeof file, file + FRONT, TEXT, output, sizeof output, answer, sizeof answer);
    count(sum, returned == OCTALMURE_WRITTEN && octalmure_decode(answer).code == sizeof expected &&
                   memcmp(output, expected, sizeof expected) == 0,
          "a table that stands in its file is not imported");
}

static size_t read_file(const char *name, uint8_t *bytes) {
    FILE *in = fopen(name, "rb");
    size_t length = in != NULL ? fread(bytes, 1, OCTALMURE_MOST_FILE_BYTES, in) : 0;
    if (in != NULL) {
        fclose(in);
    }
    return length;
}

int main(int argc, char **argv) {
    Count sum = {0, 0, 0};
    size_t c9_length = argc == 4 ? read_file(argv[3], c9) : 0;
    if (c9_length == 0 || read_file(argv[1], c2) != C2_BYTES || read_file(argv[2], c2_table) != C2_TABLE_BYTES) {
        fprintf(stderr, "usage: calls C2.run C2.csv C9.run\n");
        return 2;
    }
    try_places(&sum);
    try_lengths(&sum);
    try_impossible(&sum);
    try_shared(&sum);
    try_whys(&sum, c2, C2_BYTES);
    try_answers(&sum);
    try_making(&sum, c2, C2_BYTES, c9, c9_length);
    try_small_stack(&sum, c9, c9_length);
    printf("calls: %lu calls were stopped by the guard, as they must be\n", sum.guarded);
    printf("%lu passed, %lu failed\n", sum.passed, sum.failed);
    return sum.failed == 0 ? EXIT_SUCCESS : EXIT_FAILURE;
}
