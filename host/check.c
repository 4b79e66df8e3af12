/* octalmure check FILE */
#include "input.h"
#include "library.h"
#include "words.h"

static Status run(const Asked *asked, Output *output) {
    Input input;
    if (read_run(asked->given[0], &input) != FINE) {
        return TROUBLE;
    }
    struct octalmure_answer answer = check_bytes(input.bytes, input.length);
    print_line(output->text, &answer);
    return status_of(&answer);
}

const Word check_word = {
    .name = "check",
    .usage = "FILE",
    .summary = "do the rules permit the recorded run? Prints five numbers",
    .help = "Checks the run in FILE and prints five numbers on one line: answer, code, and three for the place.\n"
            "  0  accepted, no job late\n"
            "  1  accepted, some late job begins before H; code: how many records are late; place: the\n"
            "     lowest-numbered late record that begins before H\n"
            "  2  accepted, late jobs exist, none begins before H; code: how many records are late; place: the\n"
            "     lowest-numbered late record\n"
            "  3  a rule is broken; code: the lowest-numbered broken rule; place: its first place\n"
            "  4  refused; code: the number of the refusal; place: the task, for refusal 5\n"
            "An accepted run without lateness says nothing about other runs of the same tasks.\n"
            "'octalmure say FILE' says the same in sentences.\n",
    .least = 1,
    .most = 1,
    .run = run,
};
