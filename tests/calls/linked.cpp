// A C++ program links: the names are C's. Each call refuses no bytes with 1.
#include <octalmure.h>

static bool cut_short(uint32_t returned, const uint8_t *bytes) {
    return returned == OCTALMURE_REFUSED && octalmure_decode(bytes).code == OCTALMURE_REFUSAL_CUT_SHORT;
}

int main() {
    uint8_t checked[OCTALMURE_ANSWER_BYTES] = {}, carried[OCTALMURE_ANSWER_BYTES] = {};
    uint8_t imported[OCTALMURE_ANSWER_BYTES] = {}, exported[OCTALMURE_ANSWER_BYTES] = {}, chain[OCTALMURE_ANSWER_BYTES] = {};
    const bool right =
        cut_short(octalmure_guarded_check(nullptr, 0, checked, sizeof checked), checked) &&
        cut_short(octalmure_guarded_carry(nullptr, 0, 1, nullptr, 0, carried, sizeof carried), carried) &&
        cut_short(octalmure_guarded_import(nullptr, 0, nullptr, 0, nullptr, 0, imported, sizeof imported), imported) &&
        cut_short(octalmure_guarded_export(nullptr, 0, nullptr, 0, exported, sizeof exported), exported) &&
        cut_short(octalmure_guarded_why(nullptr, 0, 0, nullptr, 0, chain, sizeof chain), chain);
    return right ? 0 : 1;
}
