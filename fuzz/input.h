/* What the fuzzer changes: how a call is made, in fourteen bytes, then the file, and then the table. */
#ifndef OCTALMURE_INPUT_H
#define OCTALMURE_INPUT_H

#include <stddef.h>
#include <stdint.h>

enum { INPUT_HEAD = 14, MOST_INPUT = 32768, MOST_OUTPUT = 34000 };

/* The head, every number low byte first: the new horizon in four bytes; the length of the output in two; the length of the answer;
   the alignment; the length of the file in two; the record asked about in four. What stands behind the file is the table; a file
   that would be longer than what is there is all of it. An answer byte below 20 is that length; one from 20 on is 20 to 27, so that
   most calls go on. */
static inline size_t answer_length_of(uint8_t byte) {
    return byte < 20 ? byte : 20u + (byte - 20u) % 8;
}

/* Tries one input: the archive, its code with probes and the independent checker must agree in every byte. Aborts if they do not. */
void try_input(const uint8_t *input, size_t length);

#endif
