#include "utf8.h"

/* What may follow a first byte from a range: so many bytes, the first of them in a range of its own, the others 80 to BF. */
typedef struct {
    uint8_t from, to, more, least, greatest;
} First;

static const First firsts[] = {
    {0x00, 0x7F, 0, 0, 0},       {0xC2, 0xDF, 1, 0x80, 0xBF}, {0xE0, 0xE0, 2, 0xA0, 0xBF},
    {0xE1, 0xEC, 2, 0x80, 0xBF}, {0xED, 0xED, 2, 0x80, 0x9F}, {0xEE, 0xEF, 2, 0x80, 0xBF},
    {0xF0, 0xF0, 3, 0x90, 0xBF}, {0xF1, 0xF3, 3, 0x80, 0xBF}, {0xF4, 0xF4, 3, 0x80, 0x8F},
};
enum { FIRSTS = sizeof firsts / sizeof firsts[0] };

static const First *first_of(uint8_t byte) {
    for (size_t i = 0; i < FIRSTS; i++) {
        if (byte >= firsts[i].from && byte <= firsts[i].to) {
            return &firsts[i];
        }
    }
    return NULL;
}

/* How many bytes the character has that stands at the front; 0 if none does. */
static size_t character(const uint8_t *bytes, size_t length) {
    const First *first = first_of(bytes[0]);
    if (first == NULL || length <= first->more) {
        return 0;
    }
    for (size_t i = 1; i <= first->more; i++) {
        uint8_t least = i == 1 ? first->least : 0x80, greatest = i == 1 ? first->greatest : 0xBF;
        if (bytes[i] < least || bytes[i] > greatest) {
            return 0;
        }
    }
    return (size_t)first->more + 1;
}

bool is_utf8(const uint8_t *bytes, size_t length) {
    while (length > 0) {
        size_t taken = character(bytes, length);
        if (taken == 0) {
            return false;
        }
        bytes += taken;
        length -= taken;
    }
    return true;
}
