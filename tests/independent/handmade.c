#include "handmade.h"

#include <inttypes.h>
#include <stdbool.h>
#include <stdio.h>
#include <string.h>

/* Files are given as their numbers: what stands before the record count, the count, and the records. */
#define FRONT 2, 1, 5, 1, 9, 1, 2, 0, 3

static const uint32_t none[] = {FRONT, 0};
static const uint32_t one[] = {FRONT, 1, 0, 0, 1, 2, 3, 4};
static const uint32_t three[] = {FRONT, 3, 0, 0, 1, 20, 3, 4, 0, 1, 7, 3, 9, 1, 12, 0, 5, 20, 6, 2};
static const uint32_t greatest[] = {FRONT, 1, 4294967295, 4294967295, 4294967295, 4294967295, 4294967295, 4294967295};
static const uint32_t equal[] = {FRONT, 2, 0, 0, 1, 2, 3, 4, 0, 0, 1, 2, 3, 5};
static const uint32_t fallen_job[] = {FRONT, 2, 0, 1, 1, 2, 3, 4, 0, 0, 1, 2, 3, 5};
static const uint32_t fallen_task[] = {FRONT, 2, 1, 0, 1, 2, 3, 4, 0, 1, 1, 2, 3, 5};
static const uint32_t no_core[] = {2, 0, 5, 1, 9, 1, 2, 0, 3, 0};
static const uint32_t no_period[] = {2, 1, 5, 2, 9, 1, 2, 0, 3, 0, 1, 2, 0, 3, 0};

#define HEADER "task,job,release,start,end,core\n"

enum { LENT_BYTES = 600 };

static size_t write_numbers(const uint32_t *numbers, size_t count, uint8_t *bytes) {
    for (size_t i = 0; i < 4 * count; i++) {
        bytes[i] = (uint8_t)(numbers[i / 4] >> (8 * (i % 4)));
    }
    return 4 * count;
}

/* What was lent for writing, and what is to stand there afterwards: what is written first, and then as it was. */
typedef struct {
    uint8_t output[LENT_BYTES], wanted[LENT_BYTES], answer[24], said[24];
} Slices;

static void lend(Slices *slices, const void *written, size_t length, const uint32_t five[5]) {
    memset(slices, 0xEE, sizeof *slices);
    memcpy(slices->wanted, written, length);
    write_numbers(five, 5, slices->said);
}

static bool right(const char *name, const Slices *slices, uint32_t returned, uint32_t answer) {
    bool same = returned == answer && memcmp(slices->answer, slices->said, sizeof slices->answer) == 0 &&
                memcmp(slices->output, slices->wanted, LENT_BYTES) == 0;
    if (!same) {
        printf("%s: returned %" PRIu32 " and wrote", name, returned);
        for (uint32_t i = 0; i < 20; i++) {
            printf(" %s%02x", i % 4 == 0 ? " " : "", slices->answer[i]);
        }
        printf("\n");
    }
    return same;
}

typedef struct {
    const uint32_t *numbers;
    size_t count;
} File;

#define FILE_OF(numbers) {numbers, sizeof numbers / sizeof *numbers}
#define NO_FILE {none, 0}

typedef struct {
    const char *name;
    File file;
    const char *table;
    size_t table_length, room;
    uint32_t five[5];
    File written; /* the file; none if it is refused */
} Import;

/* A text that ends before the zero that closes it in C. */
#define TEXT(text) text, sizeof text - 1

static const Import imports[] = {
    {"header alone", FILE_OF(one), TEXT(HEADER), 40, {5, 40, 0, 0, 0}, FILE_OF(none)},
    {"one line", FILE_OF(none), TEXT(HEADER "0,0,1,2,3,4\n"), 64, {5, 64, 0, 0, 0}, FILE_OF(one)},
    {"greatest numbers",
     FILE_OF(none),
     TEXT(HEADER "4294967295,4294967295,4294967295,4294967295,4294967295,4294967295\n"),
     64,
     {5, 64, 0, 0, 0},
     FILE_OF(greatest)},
    {"any order", FILE_OF(none), TEXT(HEADER "12,0,5,20,6,2\n0,1,7,3,9,1\n0,0,1,20,3,4\n"), 112, {5, 112, 0, 0, 0}, FILE_OF(three)},
    {"longer output", FILE_OF(equal), TEXT(HEADER "0,0,1,2,3,4\n"), 600, {5, 64, 0, 0, 0}, FILE_OF(one)},
    {"output a byte short", FILE_OF(none), TEXT(HEADER "0,0,1,2,3,4\n"), 63, {4, 11, 0, 0, 0}, NO_FILE},
    {"no output", FILE_OF(none), TEXT(HEADER), 0, {4, 11, 0, 0, 0}, NO_FILE},
    /* 12 */
    {"no byte", FILE_OF(none), TEXT(""), 600, {4, 12, 1, 0, 0}, NO_FILE},
    {"line feed alone", FILE_OF(none), TEXT("\n"), 600, {4, 12, 1, 0, 0}, NO_FILE},
    {"header without its line feed", FILE_OF(none), TEXT("task,job,release,start,end,core"), 600, {4, 12, 1, 0, 0}, NO_FILE},
    {"header with CR", FILE_OF(none), TEXT("task,job,release,start,end,core\r\n"), 600, {4, 12, 1, 0, 0}, NO_FILE},
    {"header after a mark", FILE_OF(none), TEXT("\xef\xbb\xbf" HEADER), 600, {4, 12, 1, 0, 0}, NO_FILE},
    {"no header", FILE_OF(none), TEXT("0,0,1,2,3,4\n"), 600, {4, 12, 1, 0, 0}, NO_FILE},
    {"header again", FILE_OF(none), TEXT(HEADER HEADER), 600, {4, 12, 2, 0, 0}, NO_FILE},
    {"empty line", FILE_OF(none), TEXT(HEADER "\n"), 600, {4, 12, 2, 0, 0}, NO_FILE},
    {"empty last line", FILE_OF(none), TEXT(HEADER "0,0,1,2,3,4\n\n"), 600, {4, 12, 3, 0, 0}, NO_FILE},
    {"no line feed at the end", FILE_OF(none), TEXT(HEADER "0,0,1,2,3,4"), 600, {4, 12, 2, 0, 0}, NO_FILE},
    {"CR LF", FILE_OF(none), TEXT(HEADER "0,0,1,2,3,4\r\n"), 600, {4, 12, 2, 0, 0}, NO_FILE},
    {"leading zero", FILE_OF(none), TEXT(HEADER "0,0,01,2,3,4\n"), 600, {4, 12, 2, 0, 0}, NO_FILE},
    {"two zeros", FILE_OF(none), TEXT(HEADER "0,00,1,2,3,4\n"), 600, {4, 12, 2, 0, 0}, NO_FILE},
    {"2^32", FILE_OF(none), TEXT(HEADER "0,0,1,2,3,4294967296\n"), 600, {4, 12, 2, 0, 0}, NO_FILE},
    {"2^32 + 1", FILE_OF(none), TEXT(HEADER "4294967297,0,1,2,3,4\n"), 600, {4, 12, 2, 0, 0}, NO_FILE},
    {"2^64", FILE_OF(none), TEXT(HEADER "0,0,1,18446744073709551616,3,4\n"), 600, {4, 12, 2, 0, 0}, NO_FILE},
    {"five numbers", FILE_OF(none), TEXT(HEADER "0,0,1,2,3\n"), 600, {4, 12, 2, 0, 0}, NO_FILE},
    {"seven numbers", FILE_OF(none), TEXT(HEADER "0,0,1,2,3,4,5\n"), 600, {4, 12, 2, 0, 0}, NO_FILE},
    {"comma behind", FILE_OF(none), TEXT(HEADER "0,0,1,2,3,4,\n"), 600, {4, 12, 2, 0, 0}, NO_FILE},
    {"number missing", FILE_OF(none), TEXT(HEADER "0,,1,2,3,4\n"), 600, {4, 12, 2, 0, 0}, NO_FILE},
    {"last number missing", FILE_OF(none), TEXT(HEADER "0,0,1,2,3,\n"), 600, {4, 12, 2, 0, 0}, NO_FILE},
    {"space", FILE_OF(none), TEXT(HEADER "0, 0,1,2,3,4\n"), 600, {4, 12, 2, 0, 0}, NO_FILE},
    {"sign", FILE_OF(none), TEXT(HEADER "0,0,+1,2,3,4\n"), 600, {4, 12, 2, 0, 0}, NO_FILE},
    {"quotes", FILE_OF(none), TEXT(HEADER "\"0\",0,1,2,3,4\n"), 600, {4, 12, 2, 0, 0}, NO_FILE},
    {"zero byte", FILE_OF(none), TEXT(HEADER "0,0,1,2,3,4\0\n"), 600, {4, 12, 2, 0, 0}, NO_FILE},
    {"bad before its turn is given again",
     FILE_OF(none),
     TEXT(HEADER "0,0,1,2,3,4\n0,0,1\n0,0,1,2,3,4\n"),
     600,
     {4, 12, 3, 0, 0},
     NO_FILE},
    /* 13 */
    {"given again", FILE_OF(none), TEXT(HEADER "0,0,1,2,3,4\n0,0,1,2,3,4\n"), 600, {4, 13, 3, 0, 0}, NO_FILE},
    {"given again later",
     FILE_OF(none),
     TEXT(HEADER "0,0,1,2,3,4\n0,1,1,2,3,4\n1,0,1,2,3,4\n0,0,9,9,9,9\n"),
     600,
     {4, 13, 5, 0, 0},
     NO_FILE},
    {"given again before a bad line",
     FILE_OF(none),
     TEXT(HEADER "0,0,1,2,3,4\n0,0,1,2,3,4\nbad\n"),
     600,
     {4, 13, 3, 0, 0},
     NO_FILE},
    {"given again, no output", FILE_OF(none), TEXT(HEADER "0,0,1,2,3,4\n0,0,1,2,3,4\n"), 0, {4, 13, 3, 0, 0}, NO_FILE},
    /* the file's own */
    {"no file", NO_FILE, TEXT(HEADER), 600, {4, 1, 0, 0, 0}, NO_FILE},
    {"file and table refused", FILE_OF(no_core), TEXT(""), 0, {4, 3, 0, 0, 0}, NO_FILE},
    {"task out of range", FILE_OF(no_period), TEXT(HEADER), 600, {4, 5, 1, 0, 0}, NO_FILE},
};

typedef struct {
    const char *name;
    File file;
    size_t room;
    uint32_t five[5];
    const char *written;
} Export;

static const Export exports[] = {
    {"no record", FILE_OF(none), 32, {5, 32, 0, 0, 0}, HEADER},
    {"one record", FILE_OF(one), 44, {5, 44, 0, 0, 0}, HEADER "0,0,1,2,3,4\n"},
    {"by start, then by place", FILE_OF(three), 600, {5, 71, 0, 0, 0}, HEADER "0,1,7,3,9,1\n0,0,1,20,3,4\n12,0,5,20,6,2\n"},
    {"greatest numbers",
     FILE_OF(greatest),
     98,
     {5, 98, 0, 0, 0},
     HEADER "4294967295,4294967295,4294967295,4294967295,4294967295,4294967295\n"},
    {"output a byte short", FILE_OF(one), 43, {4, 11, 0, 0, 0}, ""},
    {"equal jobs", FILE_OF(equal), 600, {4, 14, 0, 0, 0}, ""},
    {"job falls", FILE_OF(fallen_job), 600, {4, 14, 0, 0, 0}, ""},
    {"task falls, no output", FILE_OF(fallen_task), 0, {4, 14, 0, 0, 0}, ""},
    {"no file", NO_FILE, 600, {4, 1, 0, 0, 0}, ""},
    {"task out of range", FILE_OF(no_period), 0, {4, 5, 1, 0, 0}, ""},
};

static bool try_import(const Subject *subject, const Import *import) {
    Slices slices;
    uint8_t file[LENT_BYTES], written[LENT_BYTES];
    size_t length = write_numbers(import->file.numbers, import->file.count, file);
    lend(&slices, written, write_numbers(import->written.numbers, import->written.count, written), import->five);
    uint32_t returned = subject->import(file, length, (const uint8_t *)import->table, import->table_length, slices.output,
                                        import->room, slices.answer, sizeof slices.answer);
    return right(import->name, &slices, returned, import->five[0]);
}

static bool try_export(const Subject *subject, const Export *export) {
    Slices slices;
    uint8_t file[LENT_BYTES];
    size_t length = write_numbers(export->file.numbers, export->file.count, file);
    lend(&slices, export->written, strlen(export->written), export->five);
    uint32_t returned = subject->export(file, length, slices.output, export->room, slices.answer, sizeof slices.answer);
    return right(export->name, &slices, returned, export->five[0]);
}

Counted try_handmade_tables(const Subject *subject) {
    Counted sum = {0, 0};
    for (size_t i = 0; i < sizeof imports / sizeof *imports; i++) {
        bool same = try_import(subject, &imports[i]);
        sum.passed += same;
        sum.failed += !same;
    }
    for (size_t i = 0; i < sizeof exports / sizeof *exports; i++) {
        bool same = try_export(subject, &exports[i]);
        sum.passed += same;
        sum.failed += !same;
    }
    return sum;
}
