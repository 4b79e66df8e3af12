#include "files.h"

#include <inttypes.h>
#include <stdio.h>
#include <stdlib.h>
#include <string.h>

#include "../tests/independent/causes.h"
#include "../tests/independent/oracle.h"
#include "../tests/independent/server.h"

/* ---- the bytes ---- */

static void put(File *file, uint32_t number) {
    for (uint32_t i = 0; i < 4; i++) {
        file->bytes[file->length] = (uint8_t)(number >> (8 * i));
        file->length++;
    }
}

static void write_file(const Run *run, File *file) {
    file->length = 0;
    file->horizon = run->horizon;
    put(file, 2);
    put(file, run->cores);
    put(file, run->horizon);
    put(file, run->task_count);
    for (uint32_t i = 0; i < run->task_count; i++) {
        const Task *t = &run->tasks[i];
        const uint32_t numbers[] = {t->period, t->least, t->greatest, t->offset, t->jitter};
        for (uint32_t n = 0; n < 5; n++) {
            put(file, numbers[n]);
        }
    }
    put(file, run->record_count);
    for (uint32_t k = 0; k < run->record_count; k++) {
        const Record *r = &run->records[k];
        const uint32_t numbers[] = {r->task, r->job, r->release, r->start, r->end, r->core};
        for (uint32_t n = 0; n < 6; n++) {
            put(file, numbers[n]);
        }
    }
}

/* ---- permitted runs ---- */

enum { SHORT_PERIOD = 2000, LONG_PERIOD = 6000, MEAN_PERIOD = 3000 };

/* Two kinds of task by turns, one with three times the jobs of the other. Offsets are below the period, and the horizon of the whole
   run is a multiple of both periods, so that the jobs are exactly as many as are asked for. */
static void draw_run(uint32_t records, uint32_t cores, Load load, Chance *chance, Run *run) {
    uint32_t percent = load == HALF_BUSY ? 50 : 300;
    run->cores = cores;
    run->task_count = MOST_TASKS;
    run->horizon = records / MOST_TASKS * MEAN_PERIOD;
    for (uint32_t i = 0; i < MOST_TASKS; i++) {
        Task *task = &run->tasks[i];
        task->period = i % 2 == 0 ? SHORT_PERIOD : LONG_PERIOD;
        task->greatest = task->period * cores * percent / 100 / MOST_TASKS;
        task->least = task->greatest * 3 / 4;
        task->offset = below(chance, task->period);
        task->jitter = task->period / 8;
    }
}

/* One period for all. A job takes from 15 to 20 sixteenths of it, so that nearly every one waits for the one before it, ever
   longer, and never for a core. */
static void draw_chains(uint32_t records, uint32_t cores, Chance *chance, Run *run) {
    run->cores = cores;
    run->task_count = cores / 2;
    run->horizon = records / run->task_count * SHORT_PERIOD;
    for (uint32_t i = 0; i < run->task_count; i++) {
        Task *task = &run->tasks[i];
        task->period = SHORT_PERIOD;
        task->greatest = SHORT_PERIOD * 20 / 16;
        task->least = SHORT_PERIOD * 15 / 16;
        task->offset = below(chance, SHORT_PERIOD);
        task->jitter = SHORT_PERIOD / 8;
    }
}

static void draw_load(uint32_t records, uint32_t cores, Load load, Chance *chance, Run *run) {
    if (load == IN_CHAINS) {
        draw_chains(records, cores, chance, run);
    } else {
        draw_run(records, cores, load, chance, run);
    }
}

static void permitted_run(uint32_t records, uint32_t cores, Load load, Run *run) {
    Chance chance = chance_of(7, records * 64 + cores * 2 + load);
    draw_load(records, cores, load, &chance, run);
    serve(run, NO_FAULT, &chance);
}

void permitted_file(uint32_t records, uint32_t cores, Load load, File *file) {
    Run run;
    permitted_run(records, cores, load, &run);
    write_file(&run, file);
}

void half_file(uint32_t records, uint32_t cores, Load load, File *file) {
    Run run;
    Chance chance = chance_of(8, records * 64 + cores * 2 + load);
    draw_load(records, cores, load, &chance, &run);
    run.horizon /= 2;
    serve(&run, NO_FAULT, &chance);
    write_file(&run, file);
}

void behind_file(uint32_t cores, uint32_t tasks, File *file) {
    Run run = {.cores = cores, .horizon = MOST_JOBS, .task_count = tasks};
    Chance chance = chance_of(9, tasks);
    for (uint32_t i = 0; i < tasks; i++) {
        run.tasks[i] = (Task){.period = tasks, .least = 2, .greatest = 2, .offset = i};
    }
    serve(&run, NO_FAULT, &chance);
    write_file(&run, file);
}

uint32_t longest_chain(const File *file) {
    uint32_t lengths[MOST_JOBS], longest = 0, count = oracle_chain_lengths(file->bytes, file->length, lengths);
    for (uint32_t k = 1; k < count; k++) {
        longest = lengths[k] > lengths[longest] ? k : longest;
    }
    return longest;
}

uint32_t first_at_release(const File *file) {
    uint32_t lengths[MOST_JOBS], k = 0;
    oracle_chain_lengths(file->bytes, file->length, lengths);
    while (lengths[k] > 1) {
        k++;
    }
    return k;
}

/* ---- runs that break a rule ---- */

static void move_to(Record *record, uint32_t start) {
    record->end += start - record->start;
    record->start = start;
}

/* A job stands where another job of its task does, which leaves rules 2 to 5 as they were. */
static void overlap(Record *record, const Record *other) {
    if (record->task == other->task && record->release <= other->start) {
        record->start = other->start, record->end = other->end, record->core = other->core;
    }
}

/* Two jobs of one task take each other's place. */
static void exchange(Record *a, Record *b) {
    Record was = *a;
    if (a->task == b->task && a->start < b->start && b->release <= a->start) {
        a->start = b->start, a->end = b->end, a->core = b->core;
        b->start = was.start, b->end = was.end, b->core = was.core;
    }
}

/* Tries to break the rule at record a, together with record b where the rule is about two. */
static void break_at(Run *run, uint32_t rule, Record *a, Record *b) {
    const Task *task = &run->tasks[a->task];
    switch (rule) {
    case 1: a->job++; break;
    case 2: a->release = (uint32_t)nominal_release(run, a->task, a->job) + task->jitter + 1; break;
    case 3: a->start = a->release - 1; break;
    case 4: a->end = a->start + task->greatest + 1; break;
    case 5: a->core = run->cores + 1; break;
    case 6: overlap(a, b); break;
    case 7: exchange(a, b); break;
    case 8: move_to(a, a->start + 1); break;
    default: a->start--; break; /* where it started as the one before it ended */
    }
}

static uint32_t broken_rule(const File *file) {
    uint8_t answer[20];
    return oracle_check(file->bytes, file->length, answer, sizeof answer) == 3 ? answer[4] : 0;
}

/* Goes through the records, or the pairs, from one side until the independent checker says that just this rule is broken. */
void broken_file(uint32_t records, uint32_t cores, uint32_t rule, Where where, File *file) {
    Run run;
    uint32_t others = rule == 6 || rule == 7 ? records : 1;
    permitted_run(records, cores, rule == 7 ? OVERLOADED : rule == 9 ? IN_CHAINS : HALF_BUSY, &run);
    for (uint32_t i = 0; i < records; i++) {
        for (uint32_t j = 0; j < others; j++) {
            uint32_t a = where == AT_THE_FRONT ? i : records - 1 - i, b = where == AT_THE_FRONT ? j : records - 1 - j;
            Record first = run.records[a], second = run.records[b];
            break_at(&run, rule, &run.records[a], &run.records[b]);
            write_file(&run, file);
            if (broken_rule(file) == rule) {
                return;
            }
            run.records[a] = first;
            run.records[b] = second;
        }
    }
    fprintf(stderr, "bench: no file of %u records on %u cores that breaks rule %u was found\n", records, cores, rule);
    exit(EXIT_FAILURE);
}

/* ---- small files ---- */

void worked_file(File *file) {
    static const Run run = {
        .cores = 2,
        .horizon = 20,
        .task_count = 4,
        .record_count = 5,
        .tasks = {{10, 1, 2, 0, 1}, {30, 6, 8, 0, 1}, {60, 15, 17, 0, 2}, {60, 15, 20, 0, 2}},
        .records = {{0, 0, 1, 15, 17, 2}, {0, 1, 10, 17, 19, 1}, {1, 0, 1, 17, 25, 2}, {2, 0, 0, 0, 17, 1}, {3, 0, 0, 0, 15, 2}},
    };
    write_file(&run, file);
}

void empty_run_file(File *file) {
    static const Run run = {.cores = 1, .horizon = 1, .task_count = 1, .tasks = {{1, 1, 1, 1, 0}}};
    write_file(&run, file);
}

void longest_lines_file(File *file) {
    Run run;
    permitted_run(MOST_JOBS, MOST_CORES, HALF_BUSY, &run);
    for (uint32_t k = 0; k < MOST_JOBS; k++) {
        uint32_t time = UINT32_MAX - k * 37 % MOST_JOBS;
        run.records[k] = (Record){UINT32_MAX - 1, UINT32_MAX - MOST_JOBS + k, time, time, time, time};
    }
    write_file(&run, file);
}

/* ---- tables ---- */

static uint32_t get(const uint8_t *bytes) {
    return (uint32_t)bytes[0] | (uint32_t)bytes[1] << 8 | (uint32_t)bytes[2] << 16 | (uint32_t)bytes[3] << 24;
}

/* Returns how many there are. */
static uint32_t records_of(const File *file, Record *records) {
    const uint8_t *at = file->bytes + 16 + 20 * (size_t)get(file->bytes + 12);
    uint32_t count = get(at);
    at += 4;
    for (uint32_t k = 0; k < count; k++, at += 24) {
        records[k] = (Record){get(at), get(at + 4), get(at + 8), get(at + 12), get(at + 16), get(at + 20)};
    }
    return count;
}

static void swap(Record *a, Record *b) {
    Record was = *a;
    *a = *b;
    *b = was;
}

static void put_in_order(Record *records, uint32_t count, Order order) {
    Chance chance = chance_of(9, count);
    for (uint32_t k = count; order == IN_NO_ORDER && k > 1; k--) {
        swap(&records[k - 1], &records[below(&chance, k)]);
    }
    for (uint32_t k = 1; order == BY_START && k < count; k++) {
        for (uint32_t i = k; i > 0 && records[i - 1].start > records[i].start; i--) {
            swap(&records[i - 1], &records[i]);
        }
    }
}

static void put_text(const char *text, Table *table) {
    memcpy(table->bytes + table->length, text, strlen(text));
    table->length += strlen(text);
}

void table_of(const File *file, Order order, Table *table) {
    Record records[MOST_JOBS];
    char line[80];
    uint32_t count = records_of(file, records);
    put_in_order(records, count, order);
    table->length = 0;
    put_text("task,job,release,start,end,core\n", table);
    for (const Record *r = records; r < records + count; r++) {
        snprintf(line, sizeof line, "%" PRIu32 ",%" PRIu32 ",%" PRIu32 ",%" PRIu32 ",%" PRIu32 ",%" PRIu32 "\n", r->task, r->job,
                 r->release, r->start, r->end, r->core);
        put_text(line, table);
    }
}

/* Where a line begins; lines are counted from 1. */
static size_t line_at(const Table *table, uint32_t line) {
    size_t at = 0;
    for (; line > 1; at++) {
        line -= table->bytes[at] == '\n';
    }
    return at;
}

void spoil_line(uint32_t line, Table *table) {
    table->bytes[line_at(table, line)] = 'x';
}

void repeat_first_job(Table *table) {
    uint32_t lines = 0;
    size_t first = line_at(table, 2), length = line_at(table, 3) - first;
    for (size_t i = 0; i < table->length; i++) {
        lines += table->bytes[i] == '\n';
    }
    table->length = line_at(table, lines) + length;
    memcpy(table->bytes + table->length - length, table->bytes + first, length);
}

void exchange_last_two(File *file) {
    uint8_t last[24], *at = file->bytes + file->length - 24;
    memcpy(last, at, 24);
    memcpy(at, at - 24, 24);
    memcpy(at - 24, last, 24);
}
