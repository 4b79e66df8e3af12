#ifndef OCTALMURE_NAMEDRUN_H
#define OCTALMURE_NAMEDRUN_H

#include "input.h"
#include "sentences.h"
#include "words.h"

/* FILE, and the names of its tasks if NAMES was given. What is said of it points into it: it stays where it was read to. */
typedef struct {
    Input file;
    Names names;
    Layout layout;
    Said said;
} NamedRun;

/* Of a word that takes --names. TROUBLE once it was said what cannot be read. */
Status read_named(const Asked *asked, NamedRun *run);

#endif
