/* octalmure carry FILE HORIZON [-o OUT] */
#include "input.h"
#include "library.h"
#include "number.h"
#include "words.h"
#include "written.h"

static Status run(const Asked *asked, Output *output) {
    Number horizon;
    Input input;
    uint8_t carried[OCTALMURE_MOST_FILE_BYTES];
    if (read_horizon(asked->given[1], &horizon) != FINE || read_run(asked->given[0], &input) != FINE) {
        return TROUBLE;
    }
    struct octalmure_answer answer = carry_bytes(input.bytes, input.length, horizon.value, carried);
    return give_written(&answer, carried, asked->out, output);
}

const Word carry_word = {
    .name = "carry",
    .usage = "FILE HORIZON [-o OUT]",
    .summary = "carries the run to a longer horizon: writes a run file",
    .help = "Carries the run in FILE to HORIZON, which is at least the file's H, and writes the carried run as a\n"
            "run file to standard output: every record that starts before H stands in it unchanged, and the\n"
            "checker accepts it.\n"
            HELP_OF_OUT
            "Where the carry is refused, the five numbers of the refusal are printed on standard output and\n"
            "nothing else, OUT is untouched, and the exit status is 3. A run that breaks a rule is refused with\n"
            "10; 'octalmure check FILE' tells which rule.\n",
    .least = 2,
    .most = 2,
    .writes = true,
    .run = run,
};
