#include "call.h"

#include <inttypes.h>
#include <stdio.h>
#include <string.h>

enum { REFUSED = 4, WRITTEN = 5, CHAIN = 6, NUMBER_BYTES = 4 };

/* ---- lent slices ---- */

/* What stands in memory that was not written to; it is told only as far as some slice went. */
static const uint8_t *pattern(size_t count) {
    static uint8_t bytes[MOST_LENT_BYTES];
    static size_t told;
    for (; told < count; told++) {
        bytes[told] = (uint8_t)(0xA5 ^ told * 37 ^ told >> 8);
    }
    return bytes;
}

uint8_t *slice(Lent *lent) {
    return lent->memory + lent->front;
}

static size_t all_of(const Lent *lent) {
    return lent->front + lent->length + CANARY;
}

/* Contents may be NULL: then the slice, too, has the pattern, and it shows which bytes were written. */
static void lend(Lent *lent, size_t alignment, size_t length, const uint8_t *contents) {
    lent->front = CANARY + alignment % ALIGNMENTS;
    lent->length = length;
    size_t all = all_of(lent), back = lent->front + length;
    if (contents == NULL) {
        memcpy(lent->memory, pattern(all), all);
        return;
    }
    memcpy(lent->memory, pattern(all), lent->front);
    memcpy(slice(lent), contents, length);
    memcpy(lent->memory + back, pattern(all) + back, all - back);
}

static bool patterned(const Lent *lent, size_t from, size_t to) {
    return from >= to || memcmp(lent->memory + from, pattern(to) + from, to - from) == 0;
}

static bool canaries_whole(const Lent *lent) {
    return patterned(lent, 0, lent->front) && patterned(lent, lent->front + lent->length, all_of(lent));
}

/* Whether the slice and what is around it have their pattern, but for its first bytes. */
static bool changed_only(const Lent *lent, size_t first) {
    return patterned(lent, 0, lent->front) && patterned(lent, lent->front + first, all_of(lent));
}

static bool same_bytes(const Lent *a, const Lent *b) {
    return all_of(a) == all_of(b) && memcmp(a->memory, b->memory, all_of(a)) == 0;
}

/* ---- one call ---- */

static uint32_t number_at(const uint8_t *bytes) {
    return (uint32_t)bytes[0] | (uint32_t)bytes[1] << 8 | (uint32_t)bytes[2] << 16 | (uint32_t)bytes[3] << 24;
}

static void lend_all(Call *call, Bytes file, Bytes table, size_t output_length, size_t answer_length) {
    call->given_file = file;
    call->given_table = table;
    lend(&call->file, file.length, file.length, file.bytes);
    lend(&call->table, file.length + 1, table.length, table.bytes);
    lend(&call->output, file.length + 3, output_length, NULL);
    lend(&call->answer, file.length + 5, answer_length, NULL);
}

static void note_answer(Call *call, uint32_t returned) {
    call->returned = returned;
    call->answered = call->answer.length >= CALL_ANSWER_BYTES;
    for (size_t i = 0; i < 5; i++) {
        call->numbers[i] = call->answered ? number_at(slice(&call->answer) + 4 * i) : 0;
    }
}

static Bytes no_table(void) {
    return (Bytes){(const uint8_t *)"", 0};
}

void call_check(const Subject *subject, Bytes file, size_t answer_length, Call *call) {
    lend_all(call, file, no_table(), 0, answer_length);
    note_answer(call, subject->check(slice(&call->file), file.length, slice(&call->answer), answer_length));
}

void call_carry(const Subject *subject, Bytes file, uint32_t horizon, size_t output_length, size_t answer_length, Call *call) {
    lend_all(call, file, no_table(), output_length, answer_length);
    note_answer(call, subject->carry(slice(&call->file), file.length, horizon, slice(&call->output), output_length,
                                     slice(&call->answer), answer_length));
}

void call_import(const Subject *subject, Bytes file, Bytes table, size_t output_length, size_t answer_length, Call *call) {
    lend_all(call, file, table, output_length, answer_length);
    note_answer(call, subject->import(slice(&call->file), file.length, slice(&call->table), table.length, slice(&call->output),
                                      output_length, slice(&call->answer), answer_length));
}

void call_export(const Subject *subject, Bytes file, size_t output_length, size_t answer_length, Call *call) {
    lend_all(call, file, no_table(), output_length, answer_length);
    note_answer(call, subject->export(slice(&call->file), file.length, slice(&call->output), output_length, slice(&call->answer),
                                      answer_length));
}

void call_why(const Subject *subject, Bytes file, uint32_t record, size_t output_length, size_t answer_length, Call *call) {
    lend_all(call, file, no_table(), output_length, answer_length);
    note_answer(call, subject->why(slice(&call->file), file.length, record, slice(&call->output), output_length,
                                   slice(&call->answer), answer_length));
}

/* ---- what holds of calls ---- */

/* How many bytes of the output the call says that it wrote. */
static size_t written_by(const Call *call) {
    size_t code = call->numbers[1];
    if (!call->answered || call->returned < WRITTEN) {
        return 0;
    }
    return call->returned == CHAIN ? NUMBER_BYTES * code : code;
}

static bool untouched(Lent *lent, Bytes given) {
    return canaries_whole(lent) && (given.length == 0 || memcmp(slice(lent), given.bytes, given.length) == 0);
}

/* What holds of every call, whatever the answer. Returns what is wrong, or NULL. */
static const char *broken_law(Call *call) {
    size_t written = written_by(call);
    if (!untouched(&call->file, call->given_file)) {
        return "the file slice or what is around it changed";
    }
    if (!untouched(&call->table, call->given_table)) {
        return "the table slice or what is around it changed";
    }
    if (!call->answered && call->returned != REFUSED) {
        return "a short answer slice and not answer 4";
    }
    if (!changed_only(&call->answer, call->answered ? CALL_ANSWER_BYTES : 0)) {
        return "bytes of the answer slice, or around it, that must not change";
    }
    if (call->answered && call->returned != call->numbers[0]) {
        return "the number returned is not the first of the answer";
    }
    if (written > call->output.length || !changed_only(&call->output, written)) {
        return "bytes of the output, or around it, that must not change";
    }
    return NULL;
}

static const char *difference(const Call *subject, const Call *oracle) {
    if (subject->returned != oracle->returned) {
        return "the number returned differs";
    }
    if (!same_bytes(&subject->answer, &oracle->answer)) {
        return "the answer slices differ";
    }
    if (!same_bytes(&subject->output, &oracle->output)) {
        return "the outputs differ";
    }
    if (!same_bytes(&subject->table, &oracle->table)) {
        return "the table slices differ";
    }
    return same_bytes(&subject->file, &oracle->file) ? NULL : "the file slices differ";
}

const char *first_of(const char *a, const char *b) {
    return a != NULL ? a : b;
}

const char *judge_calls(Call *subject, Call *oracle) {
    return first_of(first_of(broken_law(oracle), broken_law(subject)), difference(subject, oracle));
}

void print_call(const char *name, const Call *call) {
    printf("  %-8s returned %" PRIu32, name, call->returned);
    if (call->answered) {
        const uint32_t *n = call->numbers;
        printf(": %" PRIu32 " %" PRIu32 " %" PRIu32 " %" PRIu32 " %" PRIu32, n[0], n[1], n[2], n[3], n[4]);
    }
    printf("\n");
}

void leave_at(const char *path, const uint8_t *bytes, size_t length) {
    FILE *out = fopen(path, "wb");
    if (out == NULL || fwrite(bytes, 1, length, out) != length) {
        printf("  the file could not be written to %s\n", path);
    }
    if (out != NULL) {
        fclose(out);
    }
}
