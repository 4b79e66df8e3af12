#ifndef OCTALMURE_WRITE_H
#define OCTALMURE_WRITE_H

#include <stdbool.h>
#include <stddef.h>

/* Writes all bytes; otherwise false, and errno says why. */
bool write_all(int to, const char *bytes, size_t length);

#endif
