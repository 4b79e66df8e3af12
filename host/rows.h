/* A table of numbers as aligned text. */
#ifndef OCTALMURE_ROWS_H
#define OCTALMURE_ROWS_H

#include <stddef.h>
#include <stdio.h>

enum { MOST_COLUMNS = 9, CELL = 32 };

typedef struct {
    char cells[MOST_COLUMNS][CELL];
} Row;

typedef struct {
    const char *heads[MOST_COLUMNS];
    size_t columns, rows;
    void (*fill)(const void *of, size_t row, Row *cells); /* the cells of a row, as text */
    const void *of;
} Rows;

/* Every column is as wide as its widest cell, and stands to the right. */
void print_rows(FILE *out, const Rows *rows);

#endif
