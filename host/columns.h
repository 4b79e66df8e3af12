#ifndef OCTALMURE_COLUMNS_H
#define OCTALMURE_COLUMNS_H

#include <stddef.h>

/* The width of the terminal on standard output; if there is none, what COLUMNS says, or 80. */
size_t columns_of_terminal(void);

#endif
