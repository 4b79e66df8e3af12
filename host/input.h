/* The bytes of a run file, of a text table or of a names file: all of them, or as many as show that it is too long. */
#ifndef OCTALMURE_INPUT_H
#define OCTALMURE_INPUT_H

#include <octalmure.h>
#include <stdbool.h>

#include "status.h"

/* How much of each is read. No later byte can alter the answer:
   - of a run file, one byte past the longest shows that there are too many;
   - of a table, one line past the longest: of the lines that end within these bytes either one is refused, or they are the header and
     at most 512 good ones. Then the next line begins no later than the longest table ends, and what is read of it is already as
     long as a line can be: it is bad, whatever follows. Proved as `import-prefix` (crates/exchange/proofs/FrontOfTable.antt);
   - of a names file, one byte past the longest, as of a run file. */
enum { MOST_RUN = OCTALMURE_MOST_FILE_BYTES + 1, MOST_TABLE = OCTALMURE_MOST_TABLE_BYTES + OCTALMURE_MOST_LINE_BYTES };
enum { MOST_NAMES = 65536 + 1 };

typedef struct {
    const char *name;          /* what it is called where something is said of it */
    uint8_t bytes[MOST_NAMES]; /* for the others only the front is used */
    size_t length;
} Input;

/* Whether this name is '-', which stands for standard input. */
bool is_standard(const char *name);

/* Read the file of this name, or standard input for '-'. FINE, or TROUBLE once it was said why it cannot be read. */
Status read_run(const char *name, Input *input);
Status read_table(const char *name, Input *input);
Status read_text_of_names(const char *name, Input *input);

#endif
