/* The decoder and the texts. */
#include <octalmure.h>
#include <string.h>

#include "trial.h"

static void try_decoding(Count *sum) {
    uint8_t bytes[OCTALMURE_ANSWER_BYTES];
    for (size_t i = 0; i < sizeof bytes; i++) {
        bytes[i] = (uint8_t)(i < 4 ? 0xFF - i : i);
    }
    struct octalmure_answer five = octalmure_decode(bytes);
    bool right = five.answer == 0xFCFDFEFF && five.code == 0x07060504 && five.place[0] == 0x0B0A0908 && five.place[1] == 0x0F0E0D0C &&
                 five.place[2] == 0x13121110;
    count(sum, right, "the five numbers are not those of the bytes");
}

/* Numbers 1 to the last have texts of their own; the numbers around them have the other one. */
static void try_texts(Count *sum, const char *(*text)(uint32_t), uint32_t last, const char *none) {
    for (uint32_t i = 1; i <= last; i++) {
        bool own = strcmp(text(i), none) != 0 && strcmp(text(i), "") != 0;
        for (uint32_t j = 1; j < i; j++) {
            own = own && strcmp(text(i), text(j)) != 0;
        }
        count(sum, own, "a number without a text of its own");
    }
    count(sum, strcmp(text(0), none) == 0 && strcmp(text(last + 1), none) == 0, "a text for a number that is none");
}

/* Refusal 20 stands apart: 15 to 19 are not used. */
static void try_twentieth(Count *sum) {
    const char *none = "no such refusal";
    for (uint32_t i = OCTALMURE_REFUSAL_NOT_RISING + 1; i <= OCTALMURE_REFUSAL_NO_SUCH_RECORD + 1; i++) {
        bool has_text = strcmp(octalmure_refusal_text(i), none) != 0;
        count(sum, has_text == (i == OCTALMURE_REFUSAL_NO_SUCH_RECORD), "a refusal that is not used has a text, or 20 has none");
    }
    count(sum, strcmp(octalmure_refusal_text(20), "there is no such record") == 0, "refusal 20 has another text");
    count(sum, strcmp(octalmure_refusal_text(10), "the run breaks a rule") == 0, "refusal 10 has another text");
}

/* Rules 7 and 8 are by when a job is ready, and not by when it is released. */
static void try_ready(Count *sum) {
    const char *order = octalmure_rule_text(OCTALMURE_RULE_ORDER), *idling = octalmure_rule_text(OCTALMURE_RULE_NO_IDLING);
    count(sum, strstr(order, " b is ready") != NULL && strstr(order, "release") == NULL, "the text of rule 7 is not by ready");
    count(sum, strstr(idling, " is ready ") != NULL && strstr(idling, "release") == NULL, "the text of rule 8 is not by ready");
    count(sum, strcmp(octalmure_rule_text(9), "no job starts before the one before it of its task has ended") == 0,
          "rule 9 has another text");
}

void try_answers(Count *sum) {
    try_decoding(sum);
    try_ready(sum);
    try_texts(sum, octalmure_rule_text, OCTALMURE_RULES_END - 1, "no such rule");
    try_texts(sum, octalmure_refusal_text, OCTALMURE_REFUSAL_NOT_RISING, "no such refusal");
    try_twentieth(sum);
}
