#include "straight.h"

#include <stdbool.h>
#include <stdlib.h>
#include <string.h>

#include "../tests/independent/entries.h"
#include "../tests/independent/oracle.h"

enum { RULE_BROKEN = 3, REFUSED = 4, WRITTEN = 5, CHAIN = 6 };
enum { NUMBER_BYTES = 4, ANSWER_BYTES = 20, AT_TASKS = 16, TASK_BYTES = 20, RECORD_BYTES = 24, RECORD_NUMBERS = 6 };

static const char header[] = "task,job,release,start,end,core\n";
enum { HEADER_LINE_BYTES = sizeof header - 1, MOST_LINE_BYTES = RECORD_NUMBERS * 11 };

/* ---- answers and numbers ---- */

static void put(uint8_t *at, uint32_t number) {
    at[0] = (uint8_t)number, at[1] = (uint8_t)(number >> 8), at[2] = (uint8_t)(number >> 16), at[3] = (uint8_t)(number >> 24);
}

static uint32_t get(const uint8_t *at) {
    return (uint32_t)at[0] | (uint32_t)at[1] << 8 | (uint32_t)at[2] << 16 | (uint32_t)at[3] << 24;
}

static uint32_t say(uint8_t *answer, uint32_t number, uint32_t code, uint32_t place) {
    put(answer, number), put(answer + 4, code), put(answer + 8, place), put(answer + 12, 0), put(answer + 16, 0);
    return number;
}

/* ---- the file ---- */

/* What refuses a file, or 0 and where its record count stands. */
typedef struct {
    uint32_t refusal, task;
    size_t count_at;
} Judged;

static Judged judge_tasks(const uint8_t *file, size_t length) {
    uint32_t horizon = get(file + 8), tasks = get(file + 12);
    uint64_t jobs = 0;
    if (tasks == 0 || tasks > MOST_TASKS) {
        return (Judged){.refusal = 4};
    }
    size_t end = AT_TASKS + (size_t)tasks * TASK_BYTES;
    if (length < end) {
        return (Judged){.refusal = 1};
    }
    for (uint32_t i = 0; i < tasks; i++) {
        const uint8_t *t = file + AT_TASKS + (size_t)i * TASK_BYTES;
        uint32_t period = get(t), least = get(t + 4), greatest = get(t + 8), offset = get(t + 12), jitter = get(t + 16);
        if (period == 0 || period > MOST_TICKS || least == 0 || least > greatest || greatest > MOST_TICKS || offset > MOST_TICKS ||
            jitter >= period) {
            return (Judged){.refusal = 5, .task = i};
        }
        jobs += offset < horizon ? (horizon - offset + period - 1) / period : 0;
    }
    return (Judged){.refusal = jobs > MOST_JOBS ? 6 : 0, .count_at = end};
}

static Judged judge(const uint8_t *file, size_t length) {
    if (length < 4) {
        return (Judged){.refusal = 1};
    }
    if (get(file) != 2) {
        return (Judged){.refusal = 2};
    }
    if (length < 12) {
        return (Judged){.refusal = 1};
    }
    if (get(file + 4) == 0 || get(file + 4) > MOST_CORES || get(file + 8) == 0 || get(file + 8) > MOST_TICKS) {
        return (Judged){.refusal = 3};
    }
    if (length < AT_TASKS) {
        return (Judged){.refusal = 1};
    }
    Judged judged = judge_tasks(file, length);
    if (judged.refusal != 0) {
        return judged;
    }
    size_t left = length - judged.count_at;
    uint32_t count = left < 4 ? 0 : get(file + judged.count_at);
    if (left < 4 || (count <= MOST_JOBS && left - 4 < (size_t)count * RECORD_BYTES)) {
        judged.refusal = 1;
    } else if (count > MOST_JOBS) {
        judged.refusal = 7;
    } else if (left - 4 > (size_t)count * RECORD_BYTES) {
        judged.refusal = 8;
    }
    return judged;
}

/* ---- import ---- */

typedef struct {
    uint64_t job; /* task and job as one number */
    uint32_t line, rest[4];
} Line;

/* Reads a number and the byte that closes it. Returns what comes behind, or NULL. */
static const uint8_t *read_number(const uint8_t *at, const uint8_t *end, uint8_t close, uint32_t *number) {
    uint64_t sum = 0;
    const uint8_t *front = at;
    for (; at < end && *at >= '0' && *at <= '9'; at++) {
        sum = 10 * sum + (uint64_t)(*at - '0');
        if (sum > UINT32_MAX || (at > front && *front == '0')) {
            return NULL;
        }
    }
    *number = (uint32_t)sum;
    return at > front && at < end && *at == close ? at + 1 : NULL;
}

static const uint8_t *read_line(const uint8_t *at, const uint8_t *end, Line *line) {
    uint32_t numbers[RECORD_NUMBERS];
    for (uint32_t i = 0; at != NULL && i < RECORD_NUMBERS; i++) {
        at = read_number(at, end, i + 1 < RECORD_NUMBERS ? ',' : '\n', &numbers[i]);
    }
    if (at != NULL) {
        line->job = (uint64_t)numbers[0] << 32 | numbers[1];
        memcpy(line->rest, numbers + 2, sizeof line->rest);
    }
    return at;
}

static int by_job(const void *a, const void *b) {
    const Line *x = a, *y = b;
    return x->job != y->job ? (x->job > y->job) - (x->job < y->job) : (x->line > y->line) - (x->line < y->line);
}

/* The least line that gives a job again, or 0. The lines are sorted. */
static uint32_t given_again(const Line *lines, uint32_t count) {
    uint32_t least = 0;
    for (uint32_t k = 1; k < count; k++) {
        if (lines[k].job == lines[k - 1].job && (least == 0 || lines[k].line < least)) {
            least = lines[k].line;
        }
    }
    return least;
}

static void write_records(uint8_t *at, const Line *lines, uint32_t count) {
    put(at, count);
    at += 4;
    for (uint32_t k = 0; k < count; k++, at += RECORD_BYTES) {
        put(at, (uint32_t)(lines[k].job >> 32));
        put(at + 4, (uint32_t)lines[k].job);
        for (size_t i = 0; i < 4; i++) {
            put(at + 8 + 4 * i, lines[k].rest[i]);
        }
    }
}

uint32_t straight_import(const uint8_t *file, size_t length, const uint8_t *table, size_t table_length, uint8_t *output,
                         size_t output_length, uint8_t *answer, size_t answer_length) {
    Line lines[MOST_JOBS], line;
    uint32_t count = 0, refusal = 0;
    if (answer_length < ANSWER_BYTES) {
        return REFUSED;
    }
    Judged judged = judge(file, length);
    if (judged.refusal != 0) {
        return say(answer, REFUSED, judged.refusal, judged.task);
    }
    if (table_length < HEADER_LINE_BYTES || memcmp(table, header, HEADER_LINE_BYTES) != 0) {
        return say(answer, REFUSED, 12, 1);
    }
    const uint8_t *at = table + HEADER_LINE_BYTES, *end = table + table_length;
    while (at < end && refusal == 0) {
        at = read_line(at, end, &line);
        if (at == NULL || count == MOST_JOBS) {
            refusal = at == NULL ? 12 : 7;
        } else {
            line.line = count + 2;
            lines[count++] = line;
        }
        at = at == NULL ? end : at;
    }
    /* a line that gives a job again stands before the one that ended the reading */
    qsort(lines, count, sizeof *lines, by_job);
    uint32_t again = given_again(lines, count);
    if (again != 0) {
        return say(answer, REFUSED, 13, again);
    }
    if (refusal != 0) {
        return say(answer, REFUSED, refusal, refusal == 7 ? 0 : count + 2);
    }
    size_t bytes = judged.count_at + 4 + (size_t)count * RECORD_BYTES;
    if (output_length < bytes) {
        return say(answer, REFUSED, 11, 0);
    }
    memcpy(output, file, judged.count_at);
    write_records(output + judged.count_at, lines, count);
    return say(answer, WRITTEN, (uint32_t)bytes, 0);
}

/* ---- export ---- */

typedef struct {
    uint32_t start, place;
} Place;

static int by_start(const void *a, const void *b) {
    const Place *x = a, *y = b;
    return x->start != y->start ? (x->start > y->start) - (x->start < y->start) : (x->place > y->place) - (x->place < y->place);
}

static uint8_t *put_decimal(uint8_t *at, uint32_t number, uint8_t close) {
    uint8_t digits[10];
    size_t first = sizeof digits;
    do {
        digits[--first] = (uint8_t)('0' + number % 10);
        number /= 10;
    } while (number != 0);
    memcpy(at, digits + first, sizeof digits - first);
    at += sizeof digits - first;
    *at = close;
    return at + 1;
}

uint32_t straight_export(const uint8_t *file, size_t length, uint8_t *output, size_t output_length, uint8_t *answer,
                         size_t answer_length) {
    Place places[MOST_JOBS];
    uint8_t table[HEADER_LINE_BYTES + MOST_JOBS * MOST_LINE_BYTES], *at = table + HEADER_LINE_BYTES;
    if (answer_length < ANSWER_BYTES) {
        return REFUSED;
    }
    Judged judged = judge(file, length);
    if (judged.refusal != 0) {
        return say(answer, REFUSED, judged.refusal, judged.task);
    }
    const uint8_t *records = file + judged.count_at + 4;
    uint32_t count = get(file + judged.count_at);
    uint64_t before = 0;
    for (uint32_t k = 0; k < count; k++) {
        const uint8_t *r = records + (size_t)k * RECORD_BYTES;
        uint64_t job = (uint64_t)get(r) << 32 | get(r + 4);
        if (k > 0 && before >= job) {
            return say(answer, REFUSED, 14, 0);
        }
        before = job;
        places[k] = (Place){get(r + 12), k};
    }
    qsort(places, count, sizeof *places, by_start);
    memcpy(table, header, HEADER_LINE_BYTES);
    for (uint32_t k = 0; k < count; k++) {
        const uint8_t *r = records + (size_t)places[k].place * RECORD_BYTES;
        for (size_t i = 0; i < RECORD_NUMBERS; i++) {
            at = put_decimal(at, get(r + 4 * i), i + 1 < RECORD_NUMBERS ? ',' : '\n');
        }
    }
    size_t bytes = (size_t)(at - table);
    if (output_length < bytes) {
        return say(answer, REFUSED, 11, 0);
    }
    memcpy(output, table, bytes);
    return say(answer, WRITTEN, (uint32_t)bytes, 0);
}

/* ---- why ---- */

/* Where a record ended, core and instant as one number, and which record it is. */
typedef struct {
    uint64_t where;
    uint32_t place;
} End;

static int by_end(const void *a, const void *b) {
    const End *x = a, *y = b;
    return (x->where > y->where) - (x->where < y->where);
}

/* Writes the chain into room for MOST_JOBS numbers, and returns how many they are. */
static uint32_t chain_of(const uint8_t *records, uint32_t count, uint32_t record, uint32_t *chain) {
    End ends[MOST_JOBS];
    uint32_t length = 0;
    for (uint32_t k = 0; k < count; k++) {
        const uint8_t *r = records + (size_t)k * RECORD_BYTES;
        ends[k] = (End){(uint64_t)get(r + 20) << 32 | get(r + 16), k};
    }
    qsort(ends, count, sizeof *ends, by_end);
    for (;;) {
        const uint8_t *r = records + (size_t)record * RECORD_BYTES;
        uint32_t start = get(r + 12);
        chain[length++] = record;
        if (get(r + 8) == start) {
            return length;
        }
        if (get(r + 4) > 0 && get(r - RECORD_BYTES + 16) == start) {
            record--;
        } else {
            const End key = {(uint64_t)get(r + 20) << 32 | start, 0};
            record = ((const End *)bsearch(&key, ends, count, sizeof *ends, by_end))->place;
        }
    }
}

uint32_t straight_why(const uint8_t *file, size_t length, uint32_t record, uint8_t *output, size_t output_length, uint8_t *answer,
                      size_t answer_length) {
    uint32_t chain[MOST_JOBS], checked = oracle_check(file, length, answer, answer_length);
    if (checked == REFUSED) {
        return REFUSED;
    }
    if (checked == RULE_BROKEN) {
        return say(answer, REFUSED, 10, 0);
    }
    const uint8_t *count_at = file + AT_TASKS + (size_t)get(file + 12) * TASK_BYTES;
    uint32_t count = get(count_at);
    if (record >= count) {
        return say(answer, REFUSED, 20, 0);
    }
    uint32_t links = chain_of(count_at + 4, count, record, chain);
    if (output_length < (size_t)links * NUMBER_BYTES) {
        return say(answer, REFUSED, 11, 0);
    }
    for (uint32_t i = 0; i < links; i++) {
        put(output + (size_t)i * NUMBER_BYTES, chain[i]);
    }
    return say(answer, CHAIN, links, 0);
}
