#include "library.h"

#include <inttypes.h>
#include <string.h>

/* What stands in an answer that no call has written is no answer. */
enum { UNTOLD = 255 };

struct octalmure_answer check_bytes(const uint8_t *file, size_t length) {
    uint8_t answer[OCTALMURE_ANSWER_BYTES];
    memset(answer, UNTOLD, sizeof answer);
    octalmure_guarded_check(file, length, answer, sizeof answer);
    return octalmure_decode(answer);
}

struct octalmure_answer carry_bytes(const uint8_t *file, size_t length, uint32_t horizon, uint8_t *output) {
    uint8_t answer[OCTALMURE_ANSWER_BYTES];
    memset(answer, UNTOLD, sizeof answer);
    octalmure_guarded_carry(file, length, horizon, output, OCTALMURE_MOST_FILE_BYTES, answer, sizeof answer);
    return octalmure_decode(answer);
}

struct octalmure_answer import_bytes(const uint8_t *file, size_t length, const uint8_t *table, size_t table_length, uint8_t *output) {
    uint8_t answer[OCTALMURE_ANSWER_BYTES];
    memset(answer, UNTOLD, sizeof answer);
    octalmure_guarded_import(file, length, table, table_length, output, OCTALMURE_MOST_FILE_BYTES, answer, sizeof answer);
    return octalmure_decode(answer);
}

struct octalmure_answer export_bytes(const uint8_t *file, size_t length, uint8_t *output) {
    uint8_t answer[OCTALMURE_ANSWER_BYTES];
    memset(answer, UNTOLD, sizeof answer);
    octalmure_guarded_export(file, length, output, OCTALMURE_MOST_TABLE_BYTES, answer, sizeof answer);
    return octalmure_decode(answer);
}

struct octalmure_answer why_bytes(const uint8_t *file, size_t length, uint32_t record, uint8_t *output) {
    uint8_t answer[OCTALMURE_ANSWER_BYTES];
    memset(answer, UNTOLD, sizeof answer);
    octalmure_guarded_why(file, length, record, output, OCTALMURE_MOST_CHAIN_BYTES, answer, sizeof answer);
    return octalmure_decode(answer);
}

Status status_of(const struct octalmure_answer *answer) {
    switch (answer->answer) {
    case OCTALMURE_NONE_LATE:
    case OCTALMURE_LATE_BEFORE_H:
    case OCTALMURE_LATE_FROM_H:
    case OCTALMURE_WRITTEN:
    case OCTALMURE_CHAIN: return FINE;
    case OCTALMURE_BROKEN: return BROKEN;
    case OCTALMURE_REFUSED: return REFUSED;
    default: return trouble("the library", "its answer is none of the listed ones");
    }
}

void print_line(FILE *out, const struct octalmure_answer *answer) {
    fprintf(out, "%" PRIu32 " %" PRIu32 " %" PRIu32 " %" PRIu32 " %" PRIu32 "\n", answer->answer, answer->code, answer->place[0],
            answer->place[1], answer->place[2]);
}
