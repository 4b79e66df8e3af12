#include "worked.h"

#include <inttypes.h>
#include <stdbool.h>
#include <stdio.h>
#include <string.h>

/* Files are given as their numbers. */
#define SET_S 4, 10, 1, 2, 0, 1, 30, 6, 8, 0, 1, 60, 15, 17, 0, 2, 60, 15, 20, 0, 2
#define LAST_TWO_OF_C1 2, 0, 0, 0, 17, 1, 3, 0, 0, 0, 15, 2

static const uint32_t c1[] = {2, 2, 20, SET_S, 5, 0, 0, 1, 15, 17, 2, 0, 1, 10, 17, 19, 1, 1, 0, 1, 17, 25, 2, LAST_TWO_OF_C1};
static const uint32_t c2[] = {2, 2, 10, SET_S, 4, 0, 0, 1, 15, 17, 2, 1, 0, 1, 17, 25, 1, LAST_TWO_OF_C1};
static const uint32_t c4[] = {2, 2, 30, SET_S, 6,  0,  0, 1, 15, 17, 2, 0, 1, 10, 17,
                              19, 1, 0, 2, 20, 20, 22, 1, 1, 0, 1, 17, 25, 2, LAST_TWO_OF_C1};
static const uint32_t c5[] = {2, 2, 10, 4, 20, 5, 5, 0,  0, 20, 5, 5, 5, 0, 20, 1, 1, 5, 0, 100, 3, 3, 2, 0, 4,
                              0, 0, 0,  0, 5,  1, 1, 0,  5, 5,  10, 1, 2, 0, 5, 5, 6, 2, 3, 0, 2, 6, 9, 2};
static const uint32_t c6[] = {2, 2, 20, SET_S, 5, 0, 0, 1, 15, 18, 2, 0, 1, 10, 17, 19, 1, 1, 0, 1, 17, 25, 2, LAST_TWO_OF_C1};
static const uint32_t c7[] = {2, 2, 20, SET_S, 4, 0, 0, 1, 15, 17, 2, 0, 1, 10, 17, 19, 1, 1, 0, 1, 17, 25, 2, 2, 0, 0, 0, 17, 1};
static const uint32_t c11[] = {2, 1, 1, 1, 1, 1, 1, 1, 0, 0};

enum { MOST_NUMBERS = 4000, LENT_BYTES = 400 };

static size_t write_numbers(const uint32_t *numbers, size_t count, uint8_t *bytes) {
    for (size_t i = 0; i < 4 * count; i++) {
        bytes[i] = (uint8_t)(numbers[i / 4] >> (8 * (i % 4)));
    }
    return 4 * count;
}

static bool says(const char *name, const uint8_t *answer, uint32_t returned, const uint32_t expected[5]) {
    uint8_t bytes[20];
    write_numbers(expected, 5, bytes);
    bool right = returned == expected[0] && memcmp(answer, bytes, 20) == 0;
    if (!right) {
        printf("%s: not the paper's answer: returned %" PRIu32 " and wrote", name, returned);
        for (uint32_t i = 0; i < 20; i++) {
            printf(" %s%02x", i % 4 == 0 ? " " : "", answer[i]);
        }
        printf("\n");
    }
    return right;
}

bool check_says(const Subject *subject, const char *name, const uint32_t *numbers, size_t count, const uint32_t *expected) {
    uint8_t file[4 * MOST_NUMBERS], answer[20] = {0};
    size_t length = write_numbers(numbers, count, file);
    return says(name, answer, subject->check(file, length, answer, sizeof answer), expected);
}

/* The output is expected whole, and nothing of the lent bytes after it may change. */
bool carry_says(const Subject *subject, const char *name, const uint32_t *numbers, size_t count, uint32_t horizon,
                const uint32_t *expected, const uint32_t *carried, size_t carried_count) {
    uint8_t file[4 * MOST_NUMBERS], answer[20] = {0}, output[LENT_BYTES], whole[LENT_BYTES];
    memset(output, 0xEE, sizeof output);
    memset(whole, 0xEE, sizeof whole);
    write_numbers(carried, carried_count, whole);
    size_t length = write_numbers(numbers, count, file);
    uint32_t returned = subject->carry(file, length, horizon, output, sizeof output, answer, sizeof answer);
    bool right = memcmp(output, whole, sizeof output) == 0;
    if (!right) {
        printf("%s: not the paper's output\n", name);
    }
    return says(name, answer, returned, expected) && right;
}

bool why_says(const Subject *subject, const char *name, const uint32_t *numbers, size_t count, uint32_t record,
              const uint32_t *expected, const uint32_t *chain, size_t chain_count) {
    uint8_t file[4 * MOST_NUMBERS], answer[20] = {0}, output[LENT_BYTES], whole[LENT_BYTES];
    memset(output, 0xEE, sizeof output);
    memset(whole, 0xEE, sizeof whole);
    write_numbers(chain, chain_count, whole);
    size_t length = write_numbers(numbers, count, file);
    uint32_t returned = subject->why(file, length, record, output, sizeof output, answer, sizeof answer);
    bool right = memcmp(output, whole, sizeof output) == 0;
    if (!right) {
        printf("%s, record %" PRIu32 ": not the request's chain\n", name, record);
    }
    return says(name, answer, returned, expected) && right;
}

/* N = 1 and a task that always runs: the job released at t runs from t to t + 1. */
static size_t always_running(uint32_t horizon, uint32_t *numbers) {
    const uint32_t front[] = {2, 1, horizon, 1, 1, 1, 1, 0, 0, horizon};
    memcpy(numbers, front, sizeof front);
    size_t count = sizeof front / sizeof *front;
    for (uint32_t t = 0; t < horizon; t++) {
        const uint32_t record[] = {0, t, t, t, t + 1, 1};
        memcpy(numbers + count, record, sizeof record);
        count += 6;
    }
    return count;
}

#define FIVE(...) ((const uint32_t[5]){__VA_ARGS__})
#define NUMBERS(c) c, sizeof c / sizeof *c

static Counted counted(const bool *right, size_t count) {
    Counted sum = {0, 0};
    for (size_t i = 0; i < count; i++) {
        sum.passed += right[i];
        sum.failed += !right[i];
    }
    return sum;
}

Counted try_worked_runs(const Subject *subject) {
    uint32_t c9[MOST_NUMBERS], c10[MOST_NUMBERS];
    size_t c9_count = always_running(512, c9), c10_count = always_running(513, c10);
    const bool right[] = {
        check_says(subject, "C1", NUMBERS(c1), FIVE(1, 1, 0, 0, 0)),
        check_says(subject, "C2", NUMBERS(c2), FIVE(2, 1, 0, 0, 0)),
        carry_says(subject, "C3", NUMBERS(c2), 20, FIVE(5, 220, 0, 0, 0), NUMBERS(c1)),
        carry_says(subject, "C4", NUMBERS(c1), 30, FIVE(5, 244, 0, 0, 0), NUMBERS(c4)),
        check_says(subject, "C5", NUMBERS(c5), FIVE(3, 8, 3, 2, 2)),
        check_says(subject, "C6", NUMBERS(c6), FIVE(3, 4, 0, 0, 0)),
        check_says(subject, "C7", NUMBERS(c7), FIVE(3, 1, 4, 0, 0)),
        check_says(subject, "C8", c1, 0, FIVE(4, 1, 0, 0, 0)),
        check_says(subject, "C9", c9, c9_count, FIVE(0, 0, 0, 0, 0)),
        check_says(subject, "C10", c10, c10_count, FIVE(4, 6, 0, 0, 0)),
        check_says(subject, "C11", NUMBERS(c11), FIVE(0, 0, 0, 0, 0)),
        carry_says(subject, "C12", NUMBERS(c1), 19, FIVE(4, 9, 0, 0, 0), c1, 0),
    };
    return counted(right, sizeof right / sizeof *right);
}
