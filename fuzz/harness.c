/* One input, tried: see input.h. */
#include <octalmure.h>
#include <stdbool.h>
#include <stdio.h>
#include <stdlib.h>
#include <string.h>

#include "causes.h"
#include "closing.h"
#include "exchange.h"
#include "input.h"
#include "oracle.h"
#include "waits.h"

/* The archive's code with probes, see probe.py. */
extern uint32_t probed_check(const uint8_t *file, size_t file_length, uint8_t *answer, size_t answer_length);
extern uint32_t probed_carry(const uint8_t *file, size_t file_length, uint32_t horizon, uint8_t *output, size_t output_length,
                             uint8_t *answer, size_t answer_length);
extern uint32_t probed_import(const uint8_t *file, size_t file_length, const uint8_t *table, size_t table_length, uint8_t *output,
                              size_t output_length, uint8_t *answer, size_t answer_length);
extern uint32_t probed_export(const uint8_t *file, size_t file_length, uint8_t *output, size_t output_length, uint8_t *answer,
                              size_t answer_length);
extern uint32_t probed_why(const uint8_t *file, size_t file_length, uint32_t record, uint8_t *output, size_t output_length,
                           uint8_t *answer, size_t answer_length);

typedef struct {
    uint32_t (*check)(const uint8_t *, size_t, uint8_t *, size_t);
    uint32_t (*carry)(const uint8_t *, size_t, uint32_t, uint8_t *, size_t, uint8_t *, size_t);
    uint32_t (*import)(const uint8_t *, size_t, const uint8_t *, size_t, uint8_t *, size_t, uint8_t *, size_t);
    uint32_t (*export)(const uint8_t *, size_t, uint8_t *, size_t, uint8_t *, size_t);
    uint32_t (*why)(const uint8_t *, size_t, uint32_t, uint8_t *, size_t, uint8_t *, size_t);
} Subject;

static const Subject archive = {octalmure_guarded_check, octalmure_guarded_carry, octalmure_guarded_import,
                                octalmure_guarded_export, octalmure_guarded_why},
                     probed = {probed_check, probed_carry, probed_import, probed_export, probed_why},
                     oracle = {oracle_check, oracle_carry, oracle_import, oracle_export, oracle_why};

/* What a call can answer besides a refusal: what is said of a run; that something was written; a chain. */
typedef enum { VERDICT, WRITTEN, CHAIN } Kind;

enum { CANARY = 32, ALIGNMENTS = 16, PATTERN = 0xA5, MOST_BYTES = MOST_OUTPUT };

/* A slice between bytes that must not change. */
typedef struct {
    uint8_t bytes[CANARY + ALIGNMENTS + MOST_BYTES + CANARY];
} Lent;

/* The memory of one call, and what it returned. */
typedef struct {
    Lent file, table, output, answer;
    uint32_t returned;
} Memory;

typedef struct {
    const uint8_t *file, *table;
    size_t length, table_length, output_length, answer_length, front;
    uint32_t horizon, record;
} Call;

static void demand(bool holds, const char *what) {
    if (!holds) {
        fprintf(stderr, "fuzz: %s\n", what);
        abort();
    }
}

/* Only what a call can reach, and the canaries: most slices are short, and a call must be quick. */
static void lend(Lent *lent, const Call *call, size_t length) {
    memset(lent->bytes, PATTERN, call->front + length + CANARY);
}

static void lend_all(Memory *memory, const Call *call) {
    lend(&memory->file, call, call->length);
    lend(&memory->table, call, call->table_length);
    lend(&memory->output, call, call->output_length);
    lend(&memory->answer, call, call->answer_length);
    memcpy(memory->file.bytes + call->front, call->file, call->length);
    memcpy(memory->table.bytes + call->front, call->table, call->table_length);
}

static void check(const Subject *subject, const Call *call, Memory *memory) {
    size_t front = call->front;
    lend_all(memory, call);
    memory->returned = subject->check(memory->file.bytes + front, call->length, memory->answer.bytes + front, call->answer_length);
}

static void carry(const Subject *subject, const Call *call, Memory *memory) {
    size_t front = call->front;
    lend_all(memory, call);
    memory->returned = subject->carry(memory->file.bytes + front, call->length, call->horizon, memory->output.bytes + front,
                                      call->output_length, memory->answer.bytes + front, call->answer_length);
}

static void import(const Subject *subject, const Call *call, Memory *memory) {
    size_t front = call->front;
    lend_all(memory, call);
    memory->returned =
        subject->import(memory->file.bytes + front, call->length, memory->table.bytes + front, call->table_length,
                        memory->output.bytes + front, call->output_length, memory->answer.bytes + front, call->answer_length);
}

static void export(const Subject *subject, const Call *call, Memory *memory) {
    size_t front = call->front;
    lend_all(memory, call);
    memory->returned = subject->export(memory->file.bytes + front, call->length, memory->output.bytes + front, call->output_length,
                                       memory->answer.bytes + front, call->answer_length);
}

static void why(const Subject *subject, const Call *call, Memory *memory) {
    size_t front = call->front;
    lend_all(memory, call);
    memory->returned = subject->why(memory->file.bytes + front, call->length, call->record, memory->output.bytes + front,
                                    call->output_length, memory->answer.bytes + front, call->answer_length);
}

/* Whether the slice and its canaries have the pattern, but for its first bytes. */
static bool changed_only(const Lent *lent, const Call *call, size_t length, size_t first) {
    static Lent pattern;
    if (pattern.bytes[0] != PATTERN) {
        memset(pattern.bytes, PATTERN, sizeof pattern.bytes);
    }
    return memcmp(lent->bytes, pattern.bytes, call->front) == 0 &&
           memcmp(lent->bytes + call->front + first, pattern.bytes, length - first + CANARY) == 0;
}

static bool same_slice(const Lent *a, const Lent *b, const Call *call, size_t length) {
    return memcmp(a->bytes, b->bytes, call->front + length + CANARY) == 0;
}

static bool same(const Memory *a, const Memory *b, const Call *call) {
    return a->returned == b->returned && same_slice(&a->file, &b->file, call, call->length) &&
           same_slice(&a->table, &b->table, call, call->table_length) &&
           same_slice(&a->output, &b->output, call, call->output_length) &&
           same_slice(&a->answer, &b->answer, call, call->answer_length);
}

/* Whether the number is one that such a call can return. */
static bool is_answer(uint32_t returned, Kind kind) {
    static const uint32_t others[] = {[WRITTEN] = OCTALMURE_WRITTEN, [CHAIN] = OCTALMURE_CHAIN};
    return returned == OCTALMURE_REFUSED || (kind == VERDICT ? returned < OCTALMURE_REFUSED : returned == others[kind]);
}

/* How many bytes of the output the call says that it wrote. */
static size_t written_by(const Call *call, const Memory *memory, Kind kind) {
    struct octalmure_answer five = octalmure_decode(memory->answer.bytes + call->front);
    bool wrote = call->answer_length >= OCTALMURE_ANSWER_BYTES && memory->returned != OCTALMURE_REFUSED && kind != VERDICT;
    return !wrote ? 0 : kind == CHAIN ? OCTALMURE_NUMBER_BYTES * (size_t)five.code : five.code;
}

/* What holds of every call, whatever the oracle says. */
static void demand_laws(const Call *call, const Memory *memory, Kind kind) {
    struct octalmure_answer five = octalmure_decode(memory->answer.bytes + call->front);
    bool told = call->answer_length >= OCTALMURE_ANSWER_BYTES;
    size_t written = written_by(call, memory, kind);
    demand(is_answer(memory->returned, kind), "a number that is no answer of the call");
    demand(told ? five.answer == memory->returned : memory->returned == OCTALMURE_REFUSED, "the answer is not the number returned");
    demand(memcmp(memory->file.bytes + call->front, call->file, call->length) == 0, "the file changed");
    demand(memcmp(memory->table.bytes + call->front, call->table, call->table_length) == 0, "the table changed");
    demand(written <= call->output_length, "more is written than there is room for");
    demand(changed_only(&memory->file, call, call->length, call->length), "bytes around the file changed");
    demand(changed_only(&memory->table, call, call->table_length, call->table_length), "bytes around the table changed");
    demand(changed_only(&memory->output, call, call->output_length, written), "bytes of the output that must not change");
    demand(changed_only(&memory->answer, call, call->answer_length, told ? OCTALMURE_ANSWER_BYTES : 0),
           "bytes of the answer that must not change");
}

/* All three say and leave the same; what they left is then in the memory. */
static void agree(const Call *call, void (*make)(const Subject *, const Call *, Memory *), Memory *memory) {
    static Memory other;
    make(&archive, call, memory);
    make(&oracle, call, &other);
    demand(same(memory, &other, call), "the archive and the independent checker differ");
    make(&probed, call, &other);
    demand(same(memory, &other, call), "the archive and its code with probes differ");
}

/* The call again, with what another one wrote in the place of the file. */
static Call with_file(const Call *call, const Memory *memory) {
    Call again = *call;
    again.file = memory->output.bytes + call->front;
    again.length = octalmure_decode(memory->answer.bytes + call->front).code;
    again.output_length = 0;
    return again;
}

/* In an accepted run no job starts before the end of the one before it. */
static void demand_in_turn(const Call *call, const Memory *checked) {
    if (checked->returned > OCTALMURE_LATE_FROM_H) {
        return;
    }
    size_t tasks = octalmure_number(call->file + OCTALMURE_SETTING_BYTES);
    const uint8_t *records = call->file + OCTALMURE_FILE_BYTES(tasks, 0), *end = call->file + call->length;
    for (const uint8_t *at = records; at < end; at += OCTALMURE_RECORD_BYTES) {
        struct octalmure_record record = octalmure_record_at(at);
        demand(record.job == 0 || octalmure_record_at(at - OCTALMURE_RECORD_BYTES).end <= record.start,
               "a job of an accepted run starts before the end of the one before it");
    }
}

/* In an accepted run N times a wait is at most what all other records take. */
static void demand_bounded(const Call *call, const Memory *checked) {
    const char *wrong = checked->returned > OCTALMURE_LATE_FROM_H ? NULL : waits_wrong(call->file, call->length);
    demand(wrong == NULL, wrong);
}

/* The carried run is accepted, and lateness that was shown stays shown. */
static void demand_carried(const Call *call, const Memory *carried, uint32_t before) {
    static Memory memory;
    Call again = with_file(call, carried);
    agree(&again, check, &memory);
    demand(memory.returned <= OCTALMURE_LATE_FROM_H, "the carried run is not accepted");
    demand_in_turn(&again, &memory);
    demand_bounded(&again, &memory);
    demand(before != OCTALMURE_LATE_BEFORE_H || memory.returned == OCTALMURE_LATE_BEFORE_H, "lateness before H did not stay");
}

/* What was imported is a run file. */
static void demand_imported(const Call *call, const Memory *imported) {
    static Memory memory;
    Call again = with_file(call, imported);
    agree(&again, check, &memory);
    demand(memory.returned < OCTALMURE_REFUSED, "the imported file is refused");
}

/* Import of export gives the file back. */
static void demand_exported(const Call *call, const Memory *exported) {
    static Memory memory;
    Call again = *call;
    again.table = exported->output.bytes + call->front;
    again.table_length = octalmure_decode(exported->answer.bytes + call->front).code;
    again.output_length = call->length;
    agree(&again, import, &memory);
    demand(memory.returned == OCTALMURE_CARRIED, "the exported table is not imported");
    demand(memcmp(memory.output.bytes + call->front, call->file, call->length) == 0,
           "import of export does not give the file back");
}

/* Whether a call wrote; then its answer slice is long enough. */
static bool wrote(const Memory *memory) {
    return memory->returned == OCTALMURE_CARRIED;
}

static void try_runs(const Call *call) {
    static Memory checked, carried;
    agree(call, check, &checked);
    demand_laws(call, &checked, VERDICT);
    demand_in_turn(call, &checked);
    demand_bounded(call, &checked);
    agree(call, carry, &carried);
    demand_laws(call, &carried, WRITTEN);
    if (wrote(&carried)) {
        demand_carried(call, &carried, checked.returned);
    }
}

/* What is told is a chain of the run, which is then an accepted one. */
static void demand_chain(const Call *call, const Memory *told) {
    static Memory checked;
    uint32_t count = octalmure_decode(told->answer.bytes + call->front).code;
    check(&archive, call, &checked);
    demand(checked.returned <= OCTALMURE_LATE_FROM_H, "a chain of a run that is not accepted");
    const char *wrong = chain_wrong(call->file, call->length, call->record, told->output.bytes + call->front, count);
    demand(wrong == NULL, wrong);
}

static void try_chain(const Call *call) {
    static Memory told;
    agree(call, why, &told);
    demand_laws(call, &told, CHAIN);
    if (told.returned == OCTALMURE_CHAIN) {
        demand_chain(call, &told);
    }
}

static void try_tables(const Call *call) {
    static Memory imported, exported;
    agree(call, import, &imported);
    demand_laws(call, &imported, WRITTEN);
    if (wrote(&imported)) {
        demand_imported(call, &imported);
    }
    agree(call, export, &exported);
    demand_laws(call, &exported, WRITTEN);
    if (wrote(&exported)) {
        demand_exported(call, &exported);
    }
}

void try_input(const uint8_t *input, size_t length) {
    uint8_t head[INPUT_HEAD] = {0};
    size_t got = length < INPUT_HEAD ? length : INPUT_HEAD, rest = length - got;
    memcpy(head, input, got);
    size_t file_length = head[8] | (size_t)head[9] << 8;
    file_length = file_length < rest ? file_length : rest;
    const Call call = {.file = input + got,
                       .length = file_length,
                       .table = input + got + file_length,
                       .table_length = rest - file_length,
                       .horizon = octalmure_number(head),
                       .record = octalmure_number(head + 10),
                       .output_length = (head[4] | (size_t)head[5] << 8) % (MOST_OUTPUT + 1),
                       .answer_length = answer_length_of(head[6]),
                       .front = CANARY + head[7] % ALIGNMENTS};
    try_runs(&call);
    try_chain(&call);
    try_tables(&call);
}
