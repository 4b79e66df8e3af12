#include "long.h"

#include <string.h>

#include "chance.h"

enum { AT_HORIZON = 8, AT_TASK_COUNT = 12, AT_TASKS = 16, TASK_BYTES = 20, RECORD_BYTES = 24 };

typedef enum {
    ZEROS_AFTER,      /* a run file, and zeros */
    BYTES_AFTER,      /* a run file, and any bytes */
    LONGEST,          /* the longest run file that is read through, and zeros */
    REPEATED,         /* a run file again and again */
    ANY_BYTES,        /* no number of the file is right */
    SETTING_ONLY,     /* a right setting, and any bytes */
    COUNTED_TASKS,    /* as many tasks as there are bytes for */
    COUNTED_RECORDS,  /* as many records as there are bytes for */
    COUNT_HIGH_BYTES, /* a record count that is right in its low two bytes */
    LONG_SLICES       /* a run file as it is; the slices that are written to are long */
} Kind;

/* Returns where the next number stands. */
static uint8_t *put_numbers(uint8_t *bytes, const uint32_t *numbers, size_t count) {
    for (size_t i = 0; i < 4 * count; i++) {
        bytes[i] = (uint8_t)(numbers[i / 4] >> (8 * (i % 4)));
    }
    return bytes + 4 * count;
}

static void fill(uint8_t *file, size_t from, size_t to, Chance *chance) {
    for (size_t at = from; at < to; at += 8) {
        uint64_t bytes = chance_next(chance);
        memcpy(file + at, &bytes, to - at < 8 ? to - at : 8);
    }
}

/* 32 tasks with 16 jobs each, two ticks long, on one core: one after the other in the order of job and then task. */
static void longest_case(Case *made) {
    enum { TASKS = 32, JOBS = 16, HORIZON = 512 };
    const uint32_t front[] = {2, 1, HORIZON, TASKS}, task[] = {TASKS, 2, 2, 0, 0};
    uint8_t *end = put_numbers(made->file, front, 4);
    for (uint32_t i = 0; i < TASKS; i++) {
        end = put_numbers(end, task, 5);
    }
    end = put_numbers(end, &(const uint32_t){TASKS * JOBS}, 1);
    for (uint32_t k = 0; k < TASKS * JOBS; k++) {
        uint32_t i = k / JOBS, j = k % JOBS, start = 2 * (TASKS * j + i);
        end = put_numbers(end, (const uint32_t[]){i, j, TASKS * j, start, start + 2, 1}, 6);
    }
    made->length = (size_t)(end - made->file);
    made->horizon = HORIZON;
}

/* The first case from a number on that is a permitted run: its length is that of the run. */
static void permitted_case(uint64_t seed, uint64_t number, Case *made) {
    do {
        make_case(seed, number, made);
        number++;
    } while (!made->permitted);
}

/* The last length is the run's own but for a high bit: one that loses its high bits would be the run's. */
static size_t draw_length(uint64_t which, size_t whole, Chance *chance) {
    switch (which) {
    case 0: return LEAST_LONG_BYTES;
    case 1: return 1000000;
    case 2: return between(chance, LEAST_LONG_BYTES, 3000000);
    case 3: return MOST_LONG_BYTES;
    default: return ((size_t)1 << 23) + whole;
    }
}

static void repeat(uint8_t *file, size_t whole, size_t length) {
    for (size_t at = whole; at < length; at += whole) {
        memcpy(file + at, file, length - at < whole ? length - at : whole);
    }
}

/* Makes the run at the front of the file, which has so many bytes, into a file of the length. */
static void lengthen(Kind kind, uint8_t *file, size_t whole, size_t length, Chance *chance) {
    size_t at = AT_TASKS + (size_t)file[AT_TASK_COUNT] * TASK_BYTES;
    size_t from = kind == ANY_BYTES ? 0 : kind == SETTING_ONLY ? AT_TASK_COUNT : whole;
    if (kind == ZEROS_AFTER || kind == LONGEST) {
        memset(file + whole, 0, length - whole);
        return;
    }
    if (kind == REPEATED) {
        repeat(file, whole, length);
        return;
    }
    fill(file, from, length, chance);
    if (kind == COUNTED_TASKS) {
        put_numbers(file + AT_TASK_COUNT, &(const uint32_t){(uint32_t)((length - AT_TASKS) / TASK_BYTES)}, 1);
    } else if (kind == COUNTED_RECORDS) {
        put_numbers(file + at, &(const uint32_t){(uint32_t)((length - at - 4) / RECORD_BYTES)}, 1);
    } else if (kind == COUNT_HIGH_BYTES) {
        file[at + 2] = 1;
    }
}

/* A run that is carried to its own horizon is carried: of each seed at least one case is answered with 5. */
static void lend_long(Case *made, size_t length, bool to_its_own) {
    const uint8_t *h = made->file + AT_HORIZON;
    made->output_length = length;
    made->check_answer_length = length;
    if (to_its_own) {
        made->horizon = (uint32_t)h[0] | (uint32_t)h[1] << 8 | (uint32_t)h[2] << 16;
        made->carry_answer_length = length;
    }
}

void make_long_case(uint64_t seed, uint64_t number, Case *made, uint8_t *file) {
    Kind kind = (Kind)(number % LONG_KINDS);
    Chance chance = chance_of(seed, UINT64_C(1) << 40 | number);
    permitted_case(seed, chance_next(&chance) >> 32, made);
    if (kind == LONGEST) {
        longest_case(made);
    }
    size_t length = draw_length(number / LONG_KINDS, made->length, &chance);
    memcpy(file, made->file, made->length);
    if (kind == LONG_SLICES) {
        lend_long(made, length, number < LONG_KINDS);
        return;
    }
    lengthen(kind, file, made->length, length, &chance);
    made->length = length;
    made->permitted = false;
}
