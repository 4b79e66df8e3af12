/* What the program ends with, one scheme for every word, and how it says what is wrong. */
#ifndef OCTALMURE_STATUS_H
#define OCTALMURE_STATUS_H

#include <stdio.h>

typedef enum {
    FINE = 0,    /* accepted, or written */
    BROKEN = 1,  /* a rule is broken */
    TROUBLE = 2, /* usage, reading, writing, building: nothing was judged, or what was could not be told */
    REFUSED = 3
} Status;

/* A name may hold control characters, which move a terminal's cursor; each is shown as '?'. In UTF-8 those above 127 have two bytes. */
void put_visible(FILE *out, const char *text);

/* Says 'octalmure: WHAT: WHY' on standard error; gives TROUBLE. */
Status trouble(const char *what, const char *why);
/* The same, WHY being what the system says of this errno. */
Status system_trouble(const char *what, int error);

#endif
