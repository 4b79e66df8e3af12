#include "teller.h"

#include <inttypes.h>
#include <stdio.h>

void tell(Teller *teller, const char *name, uint64_t count) {
    printf(" %s:%" PRIu64 "%s", name, count, count == 0 ? " (never met)" : "");
    teller->never += count == 0;
}

void tell_numbers(Teller *teller, const char *what, const uint64_t *counts, const uint32_t *numbers, size_t count) {
    printf("  %-9s", what);
    for (size_t i = 0; i < count; i++) {
        char name[12];
        snprintf(name, sizeof name, "%" PRIu32, numbers[i]);
        tell(teller, name, counts[numbers[i]]);
    }
    printf("\n");
}

void tell_names(Teller *teller, const char *what, const uint64_t *counts, uint32_t count, const char *(*name)(uint32_t)) {
    enum { IN_A_LINE = 8 };
    printf("  %s", what);
    for (uint32_t i = 0; i < count; i++) {
        printf("%s", i > 0 && i % IN_A_LINE == 0 ? "\n   " : "");
        tell(teller, name(i), counts[i]);
        printf("%s", i + 1 < count ? "," : "\n");
    }
}

uint64_t tell_lines(const char *what, const uint64_t *counts, const char *const *names, uint32_t count) {
    uint64_t never = 0;
    printf("%s\n", what);
    for (uint32_t i = 0; i < count; i++) {
        printf("  %-84s %" PRIu64 "%s\n", names[i], counts[i], counts[i] == 0 ? " (never met)" : "");
        never += counts[i] == 0;
    }
    return never;
}
