/* bench [ROUNDS]: times check and carry of the library beside the independent checker of tests/independent, and import, export and
   why beside straight.c, in one process, and prints a line for each file. Both must say the same of every file, and write the same
   bytes; otherwise nothing more is timed. */
#include <inttypes.h>
#include <stdbool.h>
#include <stdio.h>
#include <stdlib.h>
#include <string.h>
#include <time.h>

#include "../tests/independent/entries.h"
#include "../tests/independent/oracle.h"
#include "files.h"
#include "straight.h"

extern uint32_t octalmure_check(const uint8_t *file, size_t file_length, uint8_t *answer, size_t answer_length);
extern uint32_t octalmure_carry(const uint8_t *file, size_t file_length, uint32_t horizon, uint8_t *output, size_t output_length,
                                uint8_t *answer, size_t answer_length);
extern uint32_t octalmure_import(const uint8_t *file, size_t file_length, const uint8_t *table, size_t table_length,
                                 uint8_t *output, size_t output_length, uint8_t *answer, size_t answer_length);
extern uint32_t octalmure_export(const uint8_t *file, size_t file_length, uint8_t *output, size_t output_length, uint8_t *answer,
                                 size_t answer_length);
extern uint32_t octalmure_why(const uint8_t *file, size_t file_length, uint32_t record, uint8_t *output, size_t output_length,
                              uint8_t *answer, size_t answer_length);

enum { ANSWER_BYTES = 20, MOST_ROUNDS = 1001, BATCH_NANOSECONDS = 2000000 };

/* ---- one call ---- */

typedef struct {
    uint32_t (*check)(const uint8_t *, size_t, uint8_t *, size_t);
    uint32_t (*carry)(const uint8_t *, size_t, uint32_t, uint8_t *, size_t, uint8_t *, size_t);
    uint32_t (*import)(const uint8_t *, size_t, const uint8_t *, size_t, uint8_t *, size_t, uint8_t *, size_t);
    uint32_t (*export)(const uint8_t *, size_t, uint8_t *, size_t, uint8_t *, size_t);
    uint32_t (*why)(const uint8_t *, size_t, uint32_t, uint8_t *, size_t, uint8_t *, size_t);
    uint8_t answer[ANSWER_BYTES], output[MOST_TABLE_BYTES];
} Side;

typedef enum { CHECK, CARRY, IMPORT, EXPORT, WHY } Which;
static const char *const call_names[] = {"check", "carry", "import", "export", "why"};

typedef struct {
    const char *name;
    Which call;
    uint32_t horizon, record, records, cores; /* what it is carried to; the one asked about; those that are checked, or written */
    File file;
    Table table;
} Case;

static void call(Side *side, const Case *c) {
    const uint8_t *file = c->file.bytes;
    size_t length = c->file.length, room = sizeof side->output;
    switch (c->call) {
    case CHECK: side->check(file, length, side->answer, ANSWER_BYTES); break;
    case CARRY: side->carry(file, length, c->horizon, side->output, room, side->answer, ANSWER_BYTES); break;
    case IMPORT:
        side->import(file, length, c->table.bytes, c->table.length, side->output, room, side->answer, ANSWER_BYTES);
        break;
    case EXPORT: side->export(file, length, side->output, room, side->answer, ANSWER_BYTES); break;
    case WHY: side->why(file, length, c->record, side->output, room, side->answer, ANSWER_BYTES); break;
    }
}

/* Both sides once, on cleared slices. */
static void expect_agreement(Side *ours, Side *straight, const Case *c) {
    memset(ours->answer, 0, ANSWER_BYTES), memset(ours->output, 0, MOST_TABLE_BYTES);
    memset(straight->answer, 0, ANSWER_BYTES), memset(straight->output, 0, MOST_TABLE_BYTES);
    call(ours, c), call(straight, c);
    if (memcmp(ours->answer, straight->answer, ANSWER_BYTES) != 0 ||
        memcmp(ours->output, straight->output, MOST_TABLE_BYTES) != 0) {
        printf("bench: the two do not agree on %s %s, %" PRIu32 " records, %" PRIu32 " cores\n", call_names[c->call], c->name,
               c->records, c->cores);
        exit(EXIT_FAILURE);
    }
}

/* ---- time ---- */

/* The time that this process was given, so that others on the machine are not counted. */
static double now(void) {
    struct timespec t;
    clock_gettime(CLOCK_PROCESS_CPUTIME_ID, &t);
    return (double)t.tv_sec * 1e9 + (double)t.tv_nsec;
}

/* Nanoseconds of one call, over so many. */
static double time_calls(Side *side, const Case *c, uint64_t calls) {
    double from = now();
    for (uint64_t i = 0; i < calls; i++) {
        call(side, c);
    }
    return (now() - from) / (double)calls;
}

/* As many calls as fill a batch; to find out is the warm-up as well. */
static uint64_t calls_of_batch(Side *side, const Case *c) {
    uint64_t calls = 1;
    while (time_calls(side, c, calls) * (double)calls < BATCH_NANOSECONDS / 2) {
        calls *= 2;
    }
    return calls;
}

static int rising(const void *a, const void *b) {
    double x = *(const double *)a, y = *(const double *)b;
    return (x > y) - (x < y);
}

static double median(double *times, uint32_t count) {
    qsort(times, count, sizeof *times, rising);
    return times[count / 2];
}

/* ---- the table ---- */

typedef struct {
    Side ours, straight;
    uint32_t rounds;
} Bench;

static uint32_t number_at(const uint8_t *bytes) {
    return (uint32_t)bytes[0] | (uint32_t)bytes[1] << 8 | (uint32_t)bytes[2] << 16 | (uint32_t)bytes[3] << 24;
}

/* The sides take turns, and the one that begins changes from round to round. */
static void time_case(Bench *bench, const Case *c) {
    static double ours[MOST_ROUNDS], straight[MOST_ROUNDS];
    expect_agreement(&bench->ours, &bench->straight, c);
    uint64_t n = calls_of_batch(&bench->ours, c), m = calls_of_batch(&bench->straight, c);
    for (uint32_t round = 0; round < bench->rounds; round++) {
        if (round % 2 == 0) {
            ours[round] = time_calls(&bench->ours, c, n);
        }
        straight[round] = time_calls(&bench->straight, c, m);
        if (round % 2 == 1) {
            ours[round] = time_calls(&bench->ours, c, n);
        }
    }
    double a = median(ours, bench->rounds), b = median(straight, bench->rounds);
    const uint8_t *answer = bench->ours.answer;
    printf("%-6s %-22s %4" PRIu32 " %3" PRIu32 "  %" PRIu32 " %-5" PRIu32 " %10.0f %10.0f %6.2f\n", call_names[c->call], c->name,
           c->records, c->cores, number_at(answer), number_at(answer + 4), a, b, a / b);
}

static void time_check(Bench *bench, const char *name, uint32_t records, uint32_t cores, Case *c) {
    c->name = name, c->call = CHECK, c->records = records, c->cores = cores;
    time_case(bench, c);
}

static void time_carry(Bench *bench, const char *name, uint32_t horizon, uint32_t records, uint32_t cores, Case *c) {
    c->name = name, c->call = CARRY, c->horizon = horizon, c->records = records, c->cores = cores;
    time_case(bench, c);
}

static void time_exchange(Bench *bench, Which which, const char *name, uint32_t records, uint32_t cores, Case *c) {
    c->name = name, c->call = which, c->records = records, c->cores = cores;
    time_case(bench, c);
}

static void time_why(Bench *bench, const char *name, uint32_t record, uint32_t records, uint32_t cores, Case *c) {
    c->name = name, c->call = WHY, c->record = record, c->records = records, c->cores = cores;
    time_case(bench, c);
}

/* ---- what is timed ---- */

static const uint32_t some_cores[] = {1, 16}, some_records[] = {64, 128, 256, 512};

/* A permitted run: checked, carried to its horizon, and its first half carried to twice that one's. */
static void time_permitted(Bench *bench, Load load, const char *name, uint32_t records, uint32_t cores) {
    static Case c;
    char carried[40];
    permitted_file(records, cores, load, &c.file);
    time_check(bench, name, records, cores, &c);
    snprintf(carried, sizeof carried, "%s, to H", name);
    time_carry(bench, carried, c.file.horizon, records, cores, &c);
    half_file(records, cores, load, &c.file);
    snprintf(carried, sizeof carried, "%s, to 2H", name);
    time_carry(bench, carried, 2 * c.file.horizon, records, cores, &c);
}

static void time_rule(Bench *bench, uint32_t records, uint32_t cores, uint32_t rule) {
    static Case c;
    char name[40];
    snprintf(name, sizeof name, "rule %" PRIu32 ", front", rule);
    broken_file(records, cores, rule, AT_THE_FRONT, &c.file);
    time_check(bench, name, records, cores, &c);
    snprintf(name, sizeof name, "rule %" PRIu32 ", back", rule);
    broken_file(records, cores, rule, AT_THE_BACK, &c.file);
    time_check(bench, name, records, cores, &c);
    if (rule >= 8) {
        snprintf(name, sizeof name, "rule %" PRIu32 ", back, to H", rule);
        time_carry(bench, name, c.file.horizon, records, cores, &c);
    }
}

static void time_broken(Bench *bench, uint32_t records, uint32_t cores) {
    for (uint32_t rule = 1; rule <= RULES; rule++) {
        if (rule < 9 || cores > 1) {
            time_rule(bench, records, cores, rule);
        }
    }
}

static void time_small(Bench *bench) {
    static Case c;
    worked_file(&c.file);
    time_check(bench, "worked run", 5, 2, &c);
    time_carry(bench, "worked run, to 30", 30, 6, 2, &c);
    time_carry(bench, "worked run, to 19", 19, 5, 2, &c);
    c.file.length--;
    time_check(bench, "worked run, cut", 5, 2, &c);
    empty_run_file(&c.file);
    time_check(bench, "no record", 0, 1, &c);
    c.file.length = 0;
    time_check(bench, "no byte", 0, 0, &c);
}

/* Import and export ask neither cores nor rules: one run of the most records stands for all. */
static void time_tables(Bench *bench) {
    enum { MOST = 512, CORES = 16 };
    static Case c;
    permitted_file(MOST, CORES, HALF_BUSY, &c.file);
    time_exchange(bench, EXPORT, "in time", MOST, CORES, &c);
    table_of(&c.file, BY_START, &c.table);
    time_exchange(bench, IMPORT, "by start", MOST, CORES, &c);
    table_of(&c.file, BY_JOB, &c.table);
    time_exchange(bench, IMPORT, "by job", MOST, CORES, &c);
    table_of(&c.file, IN_NO_ORDER, &c.table);
    time_exchange(bench, IMPORT, "in no order", MOST, CORES, &c);
    repeat_first_job(&c.table);
    time_exchange(bench, IMPORT, "last line again", MOST, CORES, &c);
    spoil_line(MOST + 1, &c.table);
    time_exchange(bench, IMPORT, "last line bad", MOST, CORES, &c);
    spoil_line(2, &c.table);
    time_exchange(bench, IMPORT, "first line bad", MOST, CORES, &c);
    exchange_last_two(&c.file);
    time_exchange(bench, EXPORT, "last two exchanged", MOST, CORES, &c);
    longest_lines_file(&c.file);
    time_exchange(bench, EXPORT, "longest lines", MOST, CORES, &c);
    table_of(&c.file, BY_START, &c.table);
    time_exchange(bench, IMPORT, "longest lines", MOST, CORES, &c);
}

static void time_small_tables(Bench *bench) {
    static Case c;
    worked_file(&c.file);
    time_exchange(bench, EXPORT, "worked run", 5, 2, &c);
    table_of(&c.file, BY_START, &c.table);
    time_exchange(bench, IMPORT, "worked run", 5, 2, &c);
    c.table.length--;
    time_exchange(bench, IMPORT, "worked run, unclosed", 5, 2, &c);
    empty_run_file(&c.file);
    time_exchange(bench, EXPORT, "no record", 0, 1, &c);
    table_of(&c.file, BY_START, &c.table);
    time_exchange(bench, IMPORT, "header alone", 0, 1, &c);
}

/* The longest chains, and others; the code of the answer is how many records a chain has. */
static void time_chains(Bench *bench) {
    enum { MOST = 512, CORES = 16 };
    static Case c;
    behind_file(CORES, 1, &c.file);
    time_why(bench, "longest, by job", MOST - 1, MOST, CORES, &c);
    behind_file(1, MOST_TASKS, &c.file);
    time_why(bench, "longest, by core", MOST - 1, MOST, 1, &c);
    permitted_file(MOST, 1, OVERLOADED, &c.file);
    time_why(bench, "late", longest_chain(&c.file), MOST, 1, &c);
    permitted_file(MOST, CORES, OVERLOADED, &c.file);
    time_why(bench, "late", longest_chain(&c.file), MOST, CORES, &c);
    permitted_file(MOST, CORES, IN_CHAINS, &c.file);
    time_why(bench, "in chains", longest_chain(&c.file), MOST, CORES, &c);
    permitted_file(MOST, CORES, HALF_BUSY, &c.file);
    time_why(bench, "at its release", first_at_release(&c.file), MOST, CORES, &c);
    time_why(bench, "no such record", MOST, MOST, CORES, &c);
    broken_file(MOST, CORES, 9, AT_THE_BACK, &c.file);
    time_why(bench, "rule 9, back", 0, MOST, CORES, &c);
    worked_file(&c.file);
    time_why(bench, "worked run", 1, 5, 2, &c);
    empty_run_file(&c.file);
    time_why(bench, "no record", 0, 0, 1, &c);
}

int main(int argc, char **argv) {
    static Bench bench = {
        .ours = {.check = octalmure_check, .carry = octalmure_carry, .import = octalmure_import, .export = octalmure_export,
                 .why = octalmure_why},
        .straight = {.check = oracle_check, .carry = oracle_carry, .import = straight_import, .export = straight_export,
                     .why = straight_why},
    };
    bench.rounds = argc > 1 ? (uint32_t)strtoul(argv[1], NULL, 10) : 15;
    if (argc > 2 || bench.rounds == 0 || bench.rounds > MOST_ROUNDS) {
        fprintf(stderr, "usage: bench [ROUNDS]   (1 to %d)\n", MOST_ROUNDS);
        return 2;
    }
    setvbuf(stdout, NULL, _IOLBF, BUFSIZ);
    printf("%-6s %-22s %4s %3s  %-7s %10s %10s %6s\n", "call", "file", "rec.", "N", "answer", "ours ns", "straight", "ratio");
    for (size_t i = 0; i < 2; i++) {
        for (size_t j = 0; j < 4; j++) {
            time_permitted(&bench, HALF_BUSY, "in time", some_records[j], some_cores[i]);
            time_permitted(&bench, OVERLOADED, "late", some_records[j], some_cores[i]);
        }
        time_broken(&bench, 512, some_cores[i]);
    }
    /* only where there are several cores does a job wait for the one before it and for nothing else */
    time_permitted(&bench, IN_CHAINS, "in chains", 512, 16);
    time_small(&bench);
    time_tables(&bench);
    time_small_tables(&bench);
    time_chains(&bench);
    return EXIT_SUCCESS;
}
