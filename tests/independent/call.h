/* One call: the slices that are lent to it, and what it left of them. */
#ifndef OCTALMURE_CALL_H
#define OCTALMURE_CALL_H

#include <stdbool.h>
#include <stddef.h>
#include <stdint.h>

#include "long.h"
#include "subject.h"

enum { CANARY = 32, ALIGNMENTS = 8, MOST_LENT_BYTES = CANARY + ALIGNMENTS + MOST_LONG_BYTES + CANARY, CALL_ANSWER_BYTES = 20 };

/* A slice with canary bytes in front of it and behind. The front varies, so that slices stand at all alignments. */
typedef struct {
    uint8_t memory[MOST_LENT_BYTES];
    size_t front, length;
} Lent;

typedef struct {
    const uint8_t *bytes;
    size_t length;
} Bytes;

typedef struct {
    Lent file, table, output, answer;
    Bytes given_file, given_table; /* what file and table must still be */
    uint32_t returned, numbers[5];
    bool answered; /* the answer slice was long enough */
} Call;

uint8_t *slice(Lent *lent);
/* Each lends slices that were not written to, and notes what comes back. */
void call_check(const Subject *subject, Bytes file, size_t answer_length, Call *call);
void call_carry(const Subject *subject, Bytes file, uint32_t horizon, size_t output_length, size_t answer_length, Call *call);
void call_import(const Subject *subject, Bytes file, Bytes table, size_t output_length, size_t answer_length, Call *call);
void call_export(const Subject *subject, Bytes file, size_t output_length, size_t answer_length, Call *call);
void call_why(const Subject *subject, Bytes file, uint32_t record, size_t output_length, size_t answer_length, Call *call);

/* Compares a call of the subject and the same call of the oracle, and holds both to what holds of every call. Returns what is
   wrong, or NULL. */
const char *judge_calls(Call *subject, Call *oracle);
const char *first_of(const char *a, const char *b);
void print_call(const char *name, const Call *call);
void leave_at(const char *path, const uint8_t *bytes, size_t length);

#endif
