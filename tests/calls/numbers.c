/* numbers: the header's reader and writer of a number beside the library's, over all values of any two of its four bytes, and over
   words by seed. The library has no call for one number: 512 records hold 2,048 words as release, start, end and core, an export
   says each of them in digits, and an import of these writes each again. Both are held to the paper's sentence as well, told by
   products and quotients. Of each group of words a line begins with 'right' or 'wrong'. */
#include <octalmure.h>
#include <stdbool.h>
#include <stdio.h>
#include <stdlib.h>
#include <string.h>

#include "../independent/chance.h"

enum { BYTES = 4, VALUES = 256, FIELDS = 6, RECORDS = OCTALMURE_MOST_JOBS };
enum { HELD = 4, WORDS = RECORDS * HELD, BY_SEED = 512 * WORDS }; /* words in a record, in a file, and by seed */
enum { FRONT = OCTALMURE_FILE_BYTES(1, 0), LENGTH = OCTALMURE_FILE_BYTES(1, RECORDS) };

/* A group of words, and whether all of them were read and written alike. */
typedef struct {
    uint8_t words[WORDS * BYTES];
    size_t held, all; /* words that are held to be tried together, and all of them */
    bool read, written;
} Trial;

/* ---- the paper's sentence: four bytes, low byte first ---- */

static uint32_t plain_number(const uint8_t *bytes) {
    return bytes[0] + UINT32_C(256) * bytes[1] + UINT32_C(65536) * bytes[2] + UINT32_C(16777216) * bytes[3];
}

static uint8_t *lay(uint8_t *at, uint32_t number) {
    for (size_t i = 0; i < BYTES; i++) {
        *at++ = (uint8_t)(number % VALUES);
        number /= VALUES;
    }
    return at;
}

/* ---- the library, by export and import ---- */

static void lay_file(uint8_t *file, const uint8_t *words) {
    static const uint32_t front[] = {2, 1, 1, 1, 1, 1, 1, 0, 0, RECORDS}; /* 2, N, H; one task: P, B, W, O, J; the record count */
    uint8_t *at = file;
    for (size_t i = 0; i < sizeof front / sizeof front[0]; i++) {
        at = lay(at, front[i]);
    }
    for (uint32_t k = 0; k < RECORDS; k++) {
        at = lay(lay(at, 0), k);
        memcpy(at, words + HELD * BYTES * k, HELD * BYTES);
        at += HELD * BYTES;
    }
}

/* The next line's numbers, and the place after it; a null pointer where there is no line of six numbers. */
static const char *line_at(const char *at, uint32_t numbers[FIELDS]) {
    for (size_t i = 0; i < FIELDS; i++) {
        char *end;
        unsigned long long number = strtoull(at, &end, 10);
        if (end == at || number > UINT32_MAX || *end != (i + 1 < FIELDS ? ',' : '\n')) {
            return NULL;
        }
        numbers[i] = (uint32_t)number;
        at = end + 1;
    }
    return at;
}

static bool alike(const uint8_t *word, uint32_t library) {
    uint32_t header = octalmure_number(word);
    bool same = library == header && library == plain_number(word);
    if (!same) {
        printf("the bytes %u %u %u %u are %lu to the header and %lu to the library\n", word[0], word[1], word[2], word[3],
               (unsigned long)header, (unsigned long)library);
    }
    return same;
}

/* The lines stand by start: a line's job says which record it is. */
static bool read_alike(const uint8_t *words, const char *table) {
    bool seen[RECORDS] = {false};
    uint32_t n[FIELDS];
    const char *at = strchr(table, '\n');
    at = at == NULL ? NULL : at + 1;
    for (size_t lines = 0; lines < RECORDS; lines++) {
        at = at == NULL ? NULL : line_at(at, n);
        if (at == NULL || n[0] != 0 || n[1] >= RECORDS || seen[n[1]]) {
            return false;
        }
        seen[n[1]] = true;
        for (size_t i = 0; i < HELD; i++) {
            if (!alike(words + BYTES * (HELD * n[1] + i), n[2 + i])) {
                return false;
            }
        }
    }
    return *at == '\0';
}

static bool written_alike(const uint8_t *words, const uint8_t *file) {
    for (size_t i = 0; i < WORDS; i++) {
        const uint8_t *library = file + FRONT + OCTALMURE_RECORD_BYTES * (i / HELD) + BYTES * (2 + i % HELD);
        uint32_t number = plain_number(words + BYTES * i);
        uint8_t header[BYTES];
        if (octalmure_put_number(header, number) != header + BYTES || memcmp(header, library, BYTES) != 0) {
            printf("the number %lu is written as %u %u %u %u by the header and as %u %u %u %u by the library\n",
                   (unsigned long)number, header[0], header[1], header[2], header[3], library[0], library[1], library[2],
                   library[3]);
            return false;
        }
    }
    return true;
}

static void try_held(Trial *trial) {
    static uint8_t file[LENGTH], again[LENGTH], answer[OCTALMURE_ANSWER_BYTES];
    static char table[OCTALMURE_MOST_TABLE_BYTES + 1];
    lay_file(file, trial->words);
    memset(table, 0, sizeof table);
    memset(again, 0, sizeof again);
    trial->read = octalmure_export(file, LENGTH, (uint8_t *)table, sizeof table - 1, answer, sizeof answer) == OCTALMURE_WRITTEN &&
                  read_alike(trial->words, table) && trial->read;
    trial->written = octalmure_import(file, LENGTH, (const uint8_t *)table, strlen(table), again, sizeof again, answer,
                                      sizeof answer) == OCTALMURE_WRITTEN &&
                     written_alike(trial->words, again) && memcmp(again, file, LENGTH) == 0 && trial->written;
}

/* ---- the words ---- */

static void add(Trial *trial, const uint8_t *word) {
    memcpy(trial->words + BYTES * trial->held, word, BYTES);
    trial->held++;
    trial->all++;
    if (trial->held == WORDS) {
        try_held(trial);
        trial->held = 0;
    }
}

static void begin(Trial *trial) {
    trial->held = trial->all = 0;
    trial->read = trial->written = true;
}

/* Every group of words is a multiple of WORDS, so that none is left. */
static bool end(const Trial *trial, const char *which) {
    bool whole = trial->held == 0 && trial->all > 0;
    printf("%s of %zu words are read alike, %s\n", trial->read && whole ? "right: all" : "wrong: not all", trial->all, which);
    printf("%s of %zu words are written alike, %s\n", trial->written && whole ? "right: all" : "wrong: not all", trial->all, which);
    return trial->read && trial->written && whole;
}

/* All values of two bytes; the other two are what stands there. */
static void add_pairs(Trial *trial, const uint8_t *others, size_t first, size_t second) {
    uint8_t word[BYTES];
    memcpy(word, others, BYTES);
    for (size_t pair = 0; pair < (size_t)VALUES * VALUES; pair++) {
        word[first] = (uint8_t)(pair % VALUES);
        word[second] = (uint8_t)(pair / VALUES);
        add(trial, word);
    }
}

static bool try_pairs(Trial *trial, size_t first, size_t second) {
    static const uint8_t others[][BYTES] = {{0, 0, 0, 0}, {255, 255, 255, 255}, {18, 52, 86, 120}};
    char which[64];
    begin(trial);
    for (size_t i = 0; i < sizeof others / sizeof others[0]; i++) {
        add_pairs(trial, others[i], first, second);
    }
    snprintf(which, sizeof which, "bytes %zu and %zu through all values", first, second);
    return end(trial, which);
}

static bool try_by_seed(Trial *trial) {
    Chance chance = chance_of(20261116, 2);
    uint8_t word[BYTES];
    begin(trial);
    for (size_t i = 0; i < BY_SEED; i++) {
        lay(word, (uint32_t)chance_next(&chance));
        add(trial, word);
    }
    return end(trial, "by seed");
}

/* After a group that is wrong no other is tried. */
int main(void) {
    static Trial trial;
    bool right = true;
    for (size_t second = 1; second < BYTES; second++) {
        for (size_t first = 0; first < second; first++) {
            right = right && try_pairs(&trial, first, second);
        }
    }
    right = right && try_by_seed(&trial);
    return right ? 0 : 1;
}
