/* Prints how often each thing was met, and counts those that never were. */
#ifndef OCTALMURE_TELLER_H
#define OCTALMURE_TELLER_H

#include <stddef.h>
#include <stdint.h>

typedef struct {
    uint64_t never;
} Teller;

void tell(Teller *teller, const char *name, uint64_t count);
/* Of counts by number those of these numbers, in a line. */
void tell_numbers(Teller *teller, const char *what, const uint64_t *counts, const uint32_t *numbers, size_t count);
#define TELL_NUMBERS(teller, what, counts, ...)                                                                                    \
    tell_numbers(teller, what, counts, (const uint32_t[]){__VA_ARGS__}, sizeof((const uint32_t[]){__VA_ARGS__}) / 4)
/* So many counts by their names, some in a line. */
void tell_names(Teller *teller, const char *what, const uint64_t *counts, uint32_t count, const char *(*name)(uint32_t));
/* So many counts by their names, a line for each. Returns how many of them are 0. */
uint64_t tell_lines(const char *what, const uint64_t *counts, const char *const *names, uint32_t count);

#endif
