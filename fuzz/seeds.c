/* seeds FOLDER COUNT RUN...: writes inputs to begin with: each run file with its table, carried to its own horizon and to a longer
   one, and asked about its first, second and last record, and without any room about the one after; runs in which a job waits for
   the one before it; COUNT of the cases of tests/independent, short ones but for a few, and the first that breaks each rule; and a
   table of each kind that is made there. */
#include <stdbool.h>
#include <stdio.h>
#include <stdlib.h>

#include "cases.h"
#include "entries.h"
#include "exchange.h"
#include "input.h"
#include "oracle.h"
#include "tables.h"

enum { SEED = 7, SHORT_FILE = 700, SHORT_TABLE = 900, MANY_LINES = 4000, LONG_FILES = 4, LONGER = 10 };
enum { WHOLE_FILE = 12948, WHOLE_ANSWER = 20 };

/* What an input says, but for the alignment. */
typedef struct {
    const uint8_t *file, *table;
    size_t length, table_length, output_length, answer_length;
    uint32_t horizon, record;
} Input;

static int written;

static void put(uint8_t *at, size_t number, int bytes) {
    for (int i = 0; i < bytes; i++) {
        at[i] = (uint8_t)(number >> 8 * i);
    }
}

static void write_input(const char *folder, const Input *input) {
    char path[4096];
    uint8_t head[INPUT_HEAD] = {0};
    put(head, input->horizon, 4);
    put(head + 4, input->output_length, 2);
    head[6] = (uint8_t)(input->answer_length < WHOLE_ANSWER ? input->answer_length : WHOLE_ANSWER);
    put(head + 8, input->length, 2);
    put(head + 10, input->record, 4);
    snprintf(path, sizeof path, "%s/%03d", folder, written++);
    FILE *out = fopen(path, "wb");
    bool whole = out != NULL && fwrite(head, 1, sizeof head, out) == sizeof head &&
                 fwrite(input->file, 1, input->length, out) == input->length &&
                 fwrite(input->table, 1, input->table_length, out) == input->table_length;
    if (out == NULL || fclose(out) != 0 || !whole) {
        fprintf(stderr, "seeds: %s cannot be written\n", path);
        exit(1);
    }
}

/* Of a whole file; 0 if there is none. */
static uint32_t last_record(const uint8_t *file, size_t length) {
    enum { AT_TASK_COUNT = 12, AT_TASKS = 16, TASK_BYTES = 20 };
    size_t at = length < AT_TASKS ? length : AT_TASKS + TASK_BYTES * (size_t)file[AT_TASK_COUNT];
    uint32_t count = at + 2 > length ? 0 : file[at] | (uint32_t)file[at + 1] << 8;
    return count > 0 ? count - 1 : 0;
}

static void write_run(const char *folder, const char *name) {
    static uint8_t file[WHOLE_FILE + 1], table[MOST_OUTPUT];
    uint8_t answer[WHOLE_ANSWER];
    FILE *in = fopen(name, "rb");
    if (in == NULL) {
        fprintf(stderr, "seeds: %s cannot be read\n", name);
        exit(1);
    }
    Input input = {.file = file, .table = table, .output_length = MOST_OUTPUT, .answer_length = WHOLE_ANSWER};
    input.length = fread(file, 1, sizeof file, in);
    fclose(in);
    if (oracle_export(file, input.length, table, sizeof table, answer, sizeof answer) == 5) {
        input.table_length = answer[4] | (size_t)answer[5] << 8;
    }
    input.horizon = input.length < 12 ? 0 : file[8] | (uint32_t)file[9] << 8 | (uint32_t)file[10] << 16;
    write_input(folder, &input);
    input.horizon += LONGER;
    input.record = 1;
    write_input(folder, &input);
    input.record = last_record(file, input.length);
    write_input(folder, &input);
    input.record++;
    input.output_length = 0;
    write_input(folder, &input);
}

/* A run on two cores, of one task or two, and what it is carried to. The independent checker must say this of both, or it is no
   seed for what it stands for. */
typedef struct {
    uint32_t numbers[40], count, horizon, checked, rule, carried;
} Waiting;

/* A task that takes longer than its period: its job 1 is released at 4, and ready at 6. */
#define SLOW 4, 1, 9, 0, 0

static const Waiting waitings[] = {
    /* starts as the one before ends; the jobs that are added fall behind, and a core idles throughout */
    {{2, 2, 8, 1, SLOW, 2, 0, 0, 0, 0, 6, 1, 0, 1, 4, 6, 7, 2}, 22, 17, 1, 0, 5},
    /* a tick early: beside itself */
    {{2, 2, 8, 1, SLOW, 2, 0, 0, 0, 0, 6, 1, 0, 1, 4, 5, 6, 2}, 22, 17, 3, 9, 4},
    /* a tick late */
    {{2, 2, 8, 1, SLOW, 2, 0, 0, 0, 0, 6, 1, 0, 1, 4, 7, 8, 2}, 22, 17, 3, 8, 4},
    /* to H itself, which the one before outlasts */
    {{2, 2, 5, 1, SLOW, 2, 0, 0, 0, 0, 6, 1, 0, 1, 4, 6, 7, 2}, 22, 5, 1, 0, 5},
    /* one due later starts a tick before the job is ready, and as it gets ready */
    {{2, 2, 8, 2, SLOW, 100, 1, 9, 5, 0, 3, 0, 0, 0, 0, 6, 1, 0, 1, 4, 6, 7, 1, 1, 0, 5, 5, 9, 2}, 33, 9, 1, 0, 5},
    {{2, 2, 8, 2, SLOW, 100, 1, 9, 6, 0, 3, 0, 0, 0, 0, 6, 1, 0, 1, 4, 7, 8, 1, 1, 0, 6, 6, 9, 2}, 33, 9, 3, 7, 4},
    /* a core falls free at 3 and idles to 6 */
    {{2, 2, 1, 2, SLOW, 100, 1, 3, 0, 0, 2, 0, 0, 0, 0, 6, 2, 1, 0, 0, 0, 3, 1}, 27, 5, 1, 0, 5},
};

static bool is_as_it_must_be(const Waiting *waiting, const uint8_t *file, size_t length) {
    uint8_t answer[WHOLE_ANSWER], output[WHOLE_FILE];
    bool right = oracle_check(file, length, answer, sizeof answer) == waiting->checked;
    right = right && (waiting->rule == 0 || answer[4] == waiting->rule);
    return right && oracle_carry(file, length, waiting->horizon, output, sizeof output, answer, sizeof answer) == waiting->carried;
}

static void write_waitings(const char *folder) {
    uint8_t file[WHOLE_FILE];
    for (size_t i = 0; i < sizeof waitings / sizeof *waitings; i++) {
        const Waiting *waiting = &waitings[i];
        for (size_t n = 0; n < waiting->count; n++) {
            put(file + 4 * n, waiting->numbers[n], 4);
        }
        size_t length = 4 * (size_t)waiting->count;
        if (!is_as_it_must_be(waiting, file, length)) {
            fprintf(stderr, "seeds: run %zu of those in which a job waits for the one before it is another\n", i);
            exit(1);
        }
        write_input(folder, &(const Input){.file = file,
                                           .length = length,
                                           .table = file,
                                           .horizon = waiting->horizon,
                                           .record = 1, /* the one that waits, or does not */
                                           .output_length = MOST_OUTPUT,
                                           .answer_length = WHOLE_ANSWER});
    }
}

static void write_case(const char *folder, const Case *made) {
    write_input(folder, &(const Input){.file = made->file,
                                       .length = made->length,
                                       .table = made->file,
                                       .horizon = made->horizon,
                                       .record = last_record(made->file, made->length),
                                       .output_length = made->output_length,
                                       .answer_length = made->carry_answer_length});
}

static void write_cases(const char *folder, int count) {
    static Case made;
    int longer = LONG_FILES;
    for (uint64_t number = 0; count > 0; number++) {
        make_case(SEED, number, &made);
        if (made.length <= SHORT_FILE || longer-- > 0) {
            write_case(folder, &made);
            count--;
        }
    }
}

/* The first short case that breaks each rule. */
static void write_rules(const char *folder) {
    static Case made;
    uint8_t answer[WHOLE_ANSWER];
    for (uint32_t rule = 1; rule <= RULES; rule++) {
        uint64_t number = 0;
        do {
            make_case(SEED, number, &made);
            number++;
        } while (made.length > SHORT_FILE || oracle_check(made.file, made.length, answer, sizeof answer) != 3 || answer[4] != rule);
        write_case(folder, &made);
    }
}

/* Whether the table is what is judged, and the input short; one of 512 lines and more is never short, and need only fit. */
static bool is_seed(const TableCase *made) {
    size_t length = INPUT_HEAD + made->length + made->table_length;
    bool full = made->table_length > MANY_LINES;
    return made->origin != AS_IN_CASES && length <= (full ? (size_t)MOST_INPUT : (size_t)SHORT_FILE + SHORT_TABLE);
}

/* The first of each kind of table. */
static void write_tables(const char *folder) {
    static TableCase made;
    bool seen[BORDERS] = {false};
    for (uint64_t number = 0, left = BORDERS; left > 0; number++) {
        make_table_case(SEED, number, &made);
        if (!seen[made.border] && is_seed(&made)) {
            write_input(folder, &(const Input){.file = made.file,
                                               .length = made.length,
                                               .table = made.table,
                                               .table_length = made.table_length,
                                               .output_length = made.import_room,
                                               .answer_length = WHOLE_ANSWER});
            seen[made.border] = true;
            left--;
        }
    }
}

int main(int argc, char **argv) {
    int count = argc >= 3 ? atoi(argv[2]) : 0;
    if (count < 1) {
        fprintf(stderr, "usage: seeds FOLDER COUNT RUN...\n");
        return 2;
    }
    for (int i = 3; i < argc; i++) {
        write_run(argv[1], argv[i]);
    }
    write_waitings(argv[1]);
    write_cases(argv[1], count);
    write_rules(argv[1]);
    write_tables(argv[1]);
    return 0;
}
