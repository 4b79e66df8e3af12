/* lend: makes the calls that come on standard input, and leaves on standard output what each returned and all that it was lent.
   A call is five numbers, which call (0 import, 1 export, 2 why) and the lengths of file, table, output and answer, then the file,
   then the table; for why the number of the record stands in the table's place. Numbers are of four bytes, low byte first. Of each
   call there comes the number returned, and then file, table, output and answer, each with GUARD bytes in front and behind. Where
   nothing is given, byte number i is 37 i + 11, counted from the first of the guard. */
#include <octalmure.h>
#include <stdio.h>
#include <stdlib.h>

enum { GUARD = 16, NUMBERS = 5, IMPORT = 0, EXPORT = 1 };

typedef struct {
    uint8_t *memory, *bytes;
    size_t length;
} Slice;

static void demand(int holds, const char *what) {
    if (!holds) {
        fprintf(stderr, "lend: %s\n", what);
        exit(2);
    }
}

static Slice lend(size_t length) {
    uint8_t *memory = malloc(length + 2 * GUARD);
    demand(memory != NULL, "no memory");
    for (size_t i = 0; i < length + 2 * GUARD; i++) {
        memory[i] = (uint8_t)(37 * i + 11);
    }
    return (Slice){memory, memory + GUARD, length};
}

static Slice lend_given(size_t length) {
    Slice slice = lend(length);
    demand(fread(slice.bytes, 1, length, stdin) == length, "a call is cut short");
    return slice;
}

static void leave(Slice slice) {
    size_t all = slice.length + 2 * GUARD;
    demand(fwrite(slice.memory, 1, all, stdout) == all, "standard output cannot be written");
    free(slice.memory);
}

static uint32_t answer_to(uint32_t call, Slice file, Slice table, Slice output, Slice answer) {
    if (call == IMPORT) {
        return octalmure_import(file.bytes, file.length, table.bytes, table.length, output.bytes, output.length, answer.bytes,
                                answer.length);
    }
    if (call == EXPORT) {
        return octalmure_export(file.bytes, file.length, output.bytes, output.length, answer.bytes, answer.length);
    }
    demand(table.length == OCTALMURE_NUMBER_BYTES, "no number of a record");
    return octalmure_why(file.bytes, file.length, octalmure_number(table.bytes), output.bytes, output.length, answer.bytes,
                         answer.length);
}

static void make_call(const uint8_t *head) {
    uint32_t n[NUMBERS];
    uint8_t returned[OCTALMURE_NUMBER_BYTES];
    for (size_t i = 0; i < NUMBERS; i++) {
        n[i] = octalmure_number(head + OCTALMURE_NUMBER_BYTES * i);
    }
    Slice file = lend_given(n[1]), table = lend_given(n[2]), output = lend(n[3]), answer = lend(n[4]);
    octalmure_put_number(returned, answer_to(n[0], file, table, output, answer));
    demand(fwrite(returned, 1, sizeof returned, stdout) == sizeof returned, "standard output cannot be written");
    leave(file);
    leave(table);
    leave(output);
    leave(answer);
}

int main(void) {
    uint8_t head[NUMBERS * OCTALMURE_NUMBER_BYTES];
    size_t got;
    while ((got = fread(head, 1, sizeof head, stdin)) == sizeof head) {
        make_call(head);
    }
    demand(got == 0 && fflush(stdout) == 0, "a call is cut short, or standard output cannot be written");
    return 0;
}
