#include "number.h"

#include <string.h>

static Status read_number(const char *text, const char *why_not, Number *number) {
    uint64_t value = 0;
    if (*text == '\0' || text[strspn(text, "0123456789")] != '\0') {
        return trouble(text, why_not);
    }
    while (text[0] == '0' && text[1] != '\0') {
        text++;
    }
    number->digits = text;
    for (; *text != '\0'; text++) {
        value = 10 * value + (uint64_t)(*text - '0');
        value = value < UINT32_MAX ? value : UINT32_MAX;
    }
    number->value = (uint32_t)value;
    return FINE;
}

Status read_horizon(const char *text, Number *horizon) {
    return read_number(text, "no horizon: a whole number of ticks is one", horizon);
}

Status read_record_number(const char *text, Number *record) {
    return read_number(text, "no record: a whole number, counted from 0, names one", record);
}
