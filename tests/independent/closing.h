/* What request 4 promises of a chain, asked of one as it stands: nothing is followed anew. */
#ifndef OCTALMURE_CLOSING_H
#define OCTALMURE_CLOSING_H

#include <stddef.h>
#include <stdint.h>

/* Says what is wrong with so many numbers, of four bytes each, as the chain of a record; NULL if they are just that. The file is
   one that is accepted. */
const char *chain_wrong(const uint8_t *file, size_t length, uint32_t record, const uint8_t *numbers, size_t count);

#endif
