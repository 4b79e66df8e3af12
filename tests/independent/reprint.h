/* Tables read in another way than the oracle's: a line is good exactly if the numbers in it print as this line, and what was
   written is judged as it stands. Only the oracle's own test uses it. */
#ifndef OCTALMURE_REPRINT_H
#define OCTALMURE_REPRINT_H

#include <stdbool.h>
#include <stddef.h>
#include <stdint.h>

/* What the table itself is refused with, 12, 7 or 13, and the number of the line; 0 and 0 if it is not refused. */
typedef struct {
    uint32_t number, line;
} TableFault;

TableFault reprint_fault(const uint8_t *table, size_t length);
/* Whether the output is the file with the records of the table for its own. Neither file nor table is refused. */
bool reprint_imported(const uint8_t *file, const uint8_t *table, size_t table_length, const uint8_t *output, size_t output_length);
/* Whether the table shows the records of the file, which is not refused. */
bool reprint_exported(const uint8_t *file, const uint8_t *table, size_t table_length);

#endif
