#include "rows.h"

#include <string.h>

static void widen(size_t *width, const char *text) {
    size_t length = strlen(text);
    *width = length > *width ? length : *width;
}

static void print_cell(FILE *out, size_t column, size_t width, const char *text) {
    fprintf(out, "%*s", (int)(width + (column > 0 ? 2 : 0)), text);
}

void print_rows(FILE *out, const Rows *rows) {
    size_t widths[MOST_COLUMNS] = {0};
    Row row;
    for (size_t c = 0; c < rows->columns; c++) {
        widths[c] = strlen(rows->heads[c]);
    }
    for (size_t k = 0; k < rows->rows; k++) {
        rows->fill(rows->of, k, &row);
        for (size_t c = 0; c < rows->columns; c++) {
            widen(&widths[c], row.cells[c]);
        }
    }
    for (size_t c = 0; c < rows->columns; c++) {
        print_cell(out, c, widths[c], rows->heads[c]);
    }
    for (size_t k = 0; k < rows->rows; k++) {
        fputc('\n', out);
        rows->fill(rows->of, k, &row);
        for (size_t c = 0; c < rows->columns; c++) {
            print_cell(out, c, widths[c], row.cells[c]);
        }
    }
    fputc('\n', out);
}
