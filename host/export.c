/* octalmure export FILE [-o OUT] */
#include "input.h"
#include "library.h"
#include "words.h"
#include "written.h"

static Status run(const Asked *asked, Output *output) {
    Input input;
    uint8_t table[OCTALMURE_MOST_TABLE_BYTES];
    if (read_run(asked->given[0], &input) != FINE) {
        return TROUBLE;
    }
    struct octalmure_answer answer = export_bytes(input.bytes, input.length, table);
    return give_written(&answer, table, asked->out, output);
}

const Word export_word = {
    .name = "export",
    .usage = "FILE [-o OUT]",
    .summary = "writes the records as a text table",
    .help = "Writes the records of the run in FILE to standard output as a text table: the line\n"
            "  task,job,release,start,end,core\n"
            "and then a line for each record, in the order of their starts, those with equal starts in the order\n"
            "of FILE. 'octalmure import FILE' with this table gives FILE back.\n"
            HELP_OF_OUT
            "Where the export is refused, the five numbers of the refusal are printed on standard output and\n"
            "nothing else, OUT is untouched, and the exit status is 3:\n"
            "  4 14 0 0 0  the records do not rise strictly by task and job\n"
            "  others      FILE is refused, as by 'octalmure check FILE'\n"
            "Whether the run obeys the rules is not asked here.\n",
    .least = 1,
    .most = 1,
    .writes = true,
    .run = run,
};
