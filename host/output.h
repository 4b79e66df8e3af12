/* What a word says or writes. It is gathered in memory and written in one go when it is whole, so that trouble on the way leaves
   standard output empty and OUT untouched. */
#ifndef OCTALMURE_OUTPUT_H
#define OCTALMURE_OUTPUT_H

#include <stdio.h>

#include "status.h"

typedef struct {
    FILE *text;        /* to print into */
    const char *place; /* OUT; NULL, or '-', is standard output */
    char *bytes;
    size_t length;
} Output;

/* Before any file is opened: what would take the number of a closed standard descriptor must not be taken for it. */
void keep_descriptors(void);

Status open_output(Output *output);
/* Ends the printing: what was printed stands in the bytes, with a zero byte after them, and they are to be freed. TROUBLE once it was
   said that it is not whole. */
Status gather_output(Output *output);
/* Writes what was gathered, unless the status is TROUBLE. Gives that status, or TROUBLE once it was said why it cannot be written. */
Status close_output(Output *output, Status status);

#endif
