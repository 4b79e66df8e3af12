#ifndef OCTALMURE_REPLACE_H
#define OCTALMURE_REPLACE_H

#include <stddef.h>

#include "status.h"

/* Writes a file so that it is whole or untouched: under another name in its folder, and then moved. What is no plain file, as a
   device or a pipe is, cannot be moved onto and is written as it is. TROUBLE once it was said why it cannot be written. */
Status replace(const char *name, const char *bytes, size_t length);

#endif
