#include "trial.h"

#include <octalmure.h>
#include <stdio.h>
#include <string.h>

void count(Count *sum, bool right, const char *what) {
    sum->passed += right;
    sum->failed += !right;
    if (!right && sum->failed <= 20) {
        printf("calls: %s\n", what);
    }
}

/* ---- the calls by their kind ---- */

static const struct {
    const char *name;
    bool parts[PARTS];
} kinds[KINDS] = {
    [CHECK] = {"check", {[RUN] = true, [ANSWER] = true}},
    [CARRY] = {"carry", {[RUN] = true, [OUTPUT] = true, [ANSWER] = true}},
    [IMPORT] = {"import", {[RUN] = true, [TABLE] = true, [OUTPUT] = true, [ANSWER] = true}},
    [EXPORT] = {"export", {[RUN] = true, [OUTPUT] = true, [ANSWER] = true}},
    [WHY] = {"why", {[RUN] = true, [OUTPUT] = true, [ANSWER] = true}},
};

bool has(Kind kind, Part part) {
    return kinds[kind].parts[part];
}

uint32_t call_guarded(Kind kind, const Lent lent[PARTS], uint32_t number) {
    Lent run = lent[RUN], table = lent[TABLE], output = lent[OUTPUT], answer = lent[ANSWER];
    switch (kind) {
    case CHECK: return octalmure_guarded_check(run.pointer, run.length, answer.pointer, answer.length);
    case CARRY:
        return octalmure_guarded_carry(run.pointer, run.length, number, output.pointer, output.length, answer.pointer, answer.length);
    case IMPORT:
        return octalmure_guarded_import(run.pointer, run.length, table.pointer, table.length, output.pointer, output.length,
                                        answer.pointer, answer.length);
    case EXPORT: return octalmure_guarded_export(run.pointer, run.length, output.pointer, output.length, answer.pointer, answer.length);
    default:
        return octalmure_guarded_why(run.pointer, run.length, number, output.pointer, output.length, answer.pointer, answer.length);
    }
}

static uint32_t call_plain(Kind kind, const Lent lent[PARTS], uint32_t number) {
    Lent run = lent[RUN], table = lent[TABLE], output = lent[OUTPUT], answer = lent[ANSWER];
    switch (kind) {
    case CHECK: return octalmure_check(run.pointer, run.length, answer.pointer, answer.length);
    case CARRY:
        return octalmure_carry(run.pointer, run.length, number, output.pointer, output.length, answer.pointer, answer.length);
    case IMPORT:
        return octalmure_import(run.pointer, run.length, table.pointer, table.length, output.pointer, output.length, answer.pointer,
                                answer.length);
    case EXPORT: return octalmure_export(run.pointer, run.length, output.pointer, output.length, answer.pointer, answer.length);
    default: return octalmure_why(run.pointer, run.length, number, output.pointer, output.length, answer.pointer, answer.length);
    }
}

/* ---- in a room ---- */

static uint32_t guarded(uint8_t *room, const Call *call) {
    Lent lent[PARTS];
    for (Part part = RUN; part < PARTS; part++) {
        const Slice *slice = &call->slices[part];
        lent[part] = (Lent){slice->null ? NULL : room + slice->at, slice->length};
    }
    return call_guarded(call->kind, lent, call->number);
}

/* The plain call takes no null pointer: a slice of length 0 stands at the room's front then. */
static uint32_t plain(uint8_t *room, const Call *call) {
    Lent lent[PARTS];
    for (Part part = RUN; part < PARTS; part++) {
        const Slice *slice = &call->slices[part];
        lent[part] = (Lent){slice->null ? room : room + slice->at, slice->length};
    }
    return call_plain(call->kind, lent, call->number);
}

/* Marks the bytes of a slice; says whether one was marked before. */
static bool mark(bool *marked, const Slice *slice) {
    bool met = false;
    for (size_t i = 0; i < slice->length; i++) {
        met = met || marked[slice->at + i];
        marked[slice->at + i] = true;
    }
    return met;
}

/* What the guard must stop: told from the bytes that the slices cover, and not from the order of addresses. Those that are read are
   marked first, and may meet each other. */
static bool must_stop(const Call *call) {
    bool marked[ROOM] = {false}, stop = false;
    for (Part part = RUN; part < PARTS; part++) {
        const Slice *slice = &call->slices[part];
        if (!has(call->kind, part)) {
            continue;
        }
        if (slice->null) {
            stop = stop || slice->length != 0;
        } else {
            bool met = mark(marked, slice);
            stop = stop || (met && part >= OUTPUT);
        }
    }
    return stop;
}

static void fill(uint8_t *room, const Call *call, const Lent contents[OUTPUT]) {
    for (size_t i = 0; i < ROOM; i++) {
        room[i] = (uint8_t)(0xA5 ^ i * 37 ^ i >> 8);
    }
    for (Part part = RUN; part < OUTPUT; part++) {
        const Slice *slice = &call->slices[part];
        if (has(call->kind, part) && !slice->null) {
            size_t length = contents[part].length;
            memcpy(room + slice->at, contents[part].pointer, length < slice->length ? length : slice->length);
        }
    }
}

void try_call(Count *sum, const Call *call, const Lent contents[OUTPUT]) {
    uint8_t room[ROOM], expected[ROOM];
    char what[240];
    const Slice *run = &call->slices[RUN], *table = &call->slices[TABLE];
    const Slice *output = &call->slices[OUTPUT], *answer = &call->slices[ANSWER];
    bool stop = must_stop(call);
    fill(room, call, contents);
    memcpy(expected, room, ROOM);
    uint32_t returned = guarded(room, call), right = stop ? OCTALMURE_REFUSED : plain(expected, call);
    snprintf(what, sizeof what,
             "%s: file %zu+%zu, table %zu+%zu, output %zu+%zu, answer %zu+%zu%s: returned %u, and not %u, or other bytes",
             kinds[call->kind].name, run->at, run->length, table->at, table->length, output->at, output->length, answer->at,
             answer->length, stop ? " (must be stopped)" : "", (unsigned)returned, (unsigned)right);
    sum->guarded += stop;
    count(sum, returned == right && memcmp(room, expected, ROOM) == 0, what);
}
