/* What a word of the command says of a file, and what can be asked of such a text. */
#ifndef OCTALMURE_SPOKEN_H
#define OCTALMURE_SPOKEN_H

#include <stdbool.h>
#include <stddef.h>
#include <stdint.h>

#include "status.h"

typedef struct {
    Status status;
    char *text; /* to be freed */
    size_t length;
    bool quiet; /* nothing went to standard output or standard error */
} Spoken;

/* Runs a word as the command does, in this process. What stands behind the file, a horizon, a table or a record, may be NULL.
   Standard output must be a file. */
Spoken speak(const char *word, const char *file, const char *behind);
/* 'explain FILE --json'. */
Spoken speak_json(const char *file);

/* Whole lines of ASCII, at least one, and no other control byte than their line feeds. */
bool is_plain(const Spoken *spoken);
size_t lines_that_begin(const Spoken *spoken, const char *with);
/* The table of records has exactly these rows: one for each number below the count, in order. */
bool names_records(const Spoken *spoken, uint32_t count);
/* There is a line for each core, each with one for its deadlines, and none from the ruler on is wider. */
bool picture_fits(const Spoken *spoken, uint32_t cores, size_t width);

#endif
