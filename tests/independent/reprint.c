#include "reprint.h"

#include <inttypes.h>
#include <stdio.h>
#include <stdlib.h>
#include <string.h>

enum { MOST_RECORDS = 512, MOST_LINES = MOST_RECORDS + 1, LINE_ROOM = 80, NUMBERS = 6, RECORD_BYTES = 24 };
enum { AT_TASK_COUNT = 12, AT_TASKS = 16, TASK_BYTES = 20 };
enum { START = 3 };

/* ---- lines ---- */

/* A line with its line feed; of a table that ends before, what there is. */
typedef struct {
    const char *text;
    size_t length;
} Line;

static Line line_at(const uint8_t *table, size_t length, size_t at) {
    size_t end = at;
    while (end < length && table[end] != '\n') {
        end++;
    }
    return (Line){(const char *)table + at, (end < length ? end + 1 : end) - at};
}

static bool same_line(Line line, const char *text) {
    return line.length == strlen(text) && memcmp(line.text, text, line.length) == 0;
}

static void print(const uint32_t *n, char *text) {
    snprintf(text, LINE_ROOM, "%" PRIu32 ",%" PRIu32 ",%" PRIu32 ",%" PRIu32 ",%" PRIu32 ",%" PRIu32 "\n", n[0], n[1], n[2], n[3],
             n[4], n[5]);
}

/* Whatever the C library takes for numbers is read; that it prints as the line tells whether they were written so. */
static bool prints_again(Line line) {
    char text[LINE_ROOM] = {0}, again[LINE_ROOM];
    uint32_t numbers[NUMBERS];
    const char *from = text;
    if (line.length >= LINE_ROOM) {
        return false;
    }
    memcpy(text, line.text, line.length);
    for (int i = 0; i < NUMBERS; i++) {
        char *end;
        unsigned long long number = strtoull(from, &end, 10);
        if (end == from || number > UINT32_MAX) {
            return false;
        }
        numbers[i] = (uint32_t)number;
        from = *end == '\0' ? end : end + 1;
    }
    print(numbers, again);
    return same_line(line, again);
}

/* How many bytes of a good line name its job: up to the second comma. */
static size_t job_bytes(Line line) {
    const char *comma = memchr(line.text, ',', line.length);
    return (size_t)((const char *)memchr(comma + 1, ',', line.length) - line.text);
}

static bool same_job(Line a, Line b) {
    return job_bytes(a) == job_bytes(b) && memcmp(a.text, b.text, job_bytes(a)) == 0;
}

TableFault reprint_fault(const uint8_t *table, size_t length) {
    Line lines[MOST_LINES], line = line_at(table, length, 0);
    size_t at = line.length;
    if (!same_line(line, "task,job,release,start,end,core\n")) {
        return (TableFault){12, 1};
    }
    for (uint32_t count = 0; at < length; count++) {
        line = line_at(table, length, at);
        at += line.length;
        if (!prints_again(line)) {
            return (TableFault){12, count + 2};
        }
        if (count >= MOST_RECORDS) {
            return (TableFault){7, count + 2};
        }
        for (uint32_t i = 0; i < count; i++) {
            if (same_job(lines[i], line)) {
                return (TableFault){13, count + 2};
            }
        }
        lines[count] = line;
    }
    return (TableFault){0, 0};
}

/* ---- records ---- */

static uint32_t number(const uint8_t *b) {
    return b[0] + 256u * b[1] + 65536u * b[2] + 16777216u * b[3];
}

static const uint8_t *records_of(const uint8_t *file, uint32_t *count) {
    const uint8_t *at = file + AT_TASKS + TASK_BYTES * (size_t)number(file + AT_TASK_COUNT);
    *count = number(at);
    return at + 4;
}

static uint32_t of_record(const uint8_t *records, uint32_t k, size_t field) {
    return number(records + RECORD_BYTES * (size_t)k + 4 * field);
}

/* The records as the lines that they print. */
typedef struct {
    char text[MOST_RECORDS][LINE_ROOM];
    uint32_t count;
} Printed;

static void print_all(const uint8_t *records, uint32_t count, Printed *printed) {
    printed->count = count;
    for (uint32_t k = 0; k < count; k++) {
        uint32_t numbers[NUMBERS];
        for (size_t field = 0; field < NUMBERS; field++) {
            numbers[field] = of_record(records, k, field);
        }
        print(numbers, printed->text[k]);
    }
}

/* The record that prints as the line, or the number of records. */
static uint32_t record_of(const Printed *printed, Line line) {
    uint32_t k = 0;
    while (k < printed->count && !same_line(line, printed->text[k])) {
        k++;
    }
    return k;
}

static bool job_rises(const uint8_t *records, uint32_t k) {
    uint64_t one = (uint64_t)of_record(records, k, 0) << 32 | of_record(records, k, 1);
    uint64_t next = (uint64_t)of_record(records, k + 1, 0) << 32 | of_record(records, k + 1, 1);
    return one < next;
}

static uint32_t lines_behind_header(const uint8_t *table, size_t length) {
    uint32_t lines = 0;
    for (size_t i = 0; i < length; i++) {
        lines += table[i] == '\n';
    }
    return lines - 1;
}

/* The front is the file's; the records rise, are as many as the lines, and each line is one of them. */
bool reprint_imported(const uint8_t *file, const uint8_t *table, size_t table_length, const uint8_t *output, size_t output_length) {
    static Printed printed;
    uint32_t old_count, count;
    const uint8_t *old = records_of(file, &old_count), *records = output + (old - file);
    size_t front = (size_t)(old - file) - 4;
    if (memcmp(file, output, front) != 0 || records_of(output, &count) != records ||
        output_length != front + 4 + RECORD_BYTES * (size_t)count || count != lines_behind_header(table, table_length)) {
        return false;
    }
    print_all(records, count, &printed);
    for (uint32_t k = 0; k + 1 < count; k++) {
        if (!job_rises(records, k)) {
            return false;
        }
    }
    for (size_t at = line_at(table, table_length, 0).length; at < table_length; at += line_at(table, table_length, at).length) {
        if (record_of(&printed, line_at(table, table_length, at)) == count) {
            return false;
        }
    }
    return true;
}

/* The header, then as many lines as there are records; each shows a record, and either a later start than the line before, or the
   same start and a later record. */
bool reprint_exported(const uint8_t *file, const uint8_t *table, size_t table_length) {
    static Printed printed;
    uint32_t count, before = 0;
    const uint8_t *records = records_of(file, &count);
    print_all(records, count, &printed);
    Line line = line_at(table, table_length, 0);
    bool right = same_line(line, "task,job,release,start,end,core\n") && lines_behind_header(table, table_length) == count;
    for (size_t at = line.length, shown = 0; right && at < table_length; at += line.length, shown++) {
        line = line_at(table, table_length, at);
        uint32_t k = record_of(&printed, line);
        right = k < count;
        if (right && shown > 0) {
            uint32_t one = of_record(records, before, START), next = of_record(records, k, START);
            right = one < next || (one == next && before < k);
        }
        before = k;
    }
    return right;
}
