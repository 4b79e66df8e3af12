/* The names of tasks, from a text file with a line TASK,NAME for each. */
#ifndef OCTALMURE_NAMES_H
#define OCTALMURE_NAMES_H

#include "input.h"

typedef struct {
    Input text;                           /* of which the names are parts */
    const char *of[OCTALMURE_MOST_TASKS]; /* each ends with a zero byte, and none has another; NULL: the task has no name */
    bool marked;                          /* where one is put, its ends are marked (called.h) */
} Names;

/* Reads the file of this name, or standard input for '-'. TROUBLE once it was said why it cannot be read, or which line is bad. */
Status read_names(const char *name, Names *names);
/* NULL if the task has none, as where there are no names at all, NULL. */
const char *name_of(const Names *names, uint32_t task);

#endif
