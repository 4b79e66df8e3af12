/* A number as a user writes it behind a word: a horizon, or that of a record. */
#ifndef OCTALMURE_NUMBER_H
#define OCTALMURE_NUMBER_H

#include <stdint.h>

#include "status.h"

typedef struct {
    uint32_t value;
    const char *digits; /* as they were written, without zeros in front */
} Number;

/* Any run of digits is one. One that four bytes do not hold is handed on as the greatest that they do: both are above 1,000,000, and
   no record has either, so what that means is for the library to say. TROUBLE once it was said that the text is none. */
Status read_horizon(const char *text, Number *horizon);
Status read_record_number(const char *text, Number *record);

#endif
