/* octalmure why FILE RECORD */
#include <inttypes.h>

#include "input.h"
#include "library.h"
#include "number.h"
#include "words.h"

static void print_chain(FILE *out, const uint8_t *chain, uint32_t count) {
    for (uint32_t i = 0; i < count; i++) {
        fprintf(out, "%s%" PRIu32, i > 0 ? " " : "", octalmure_number(chain + OCTALMURE_NUMBER_BYTES * (size_t)i));
    }
    fputc('\n', out);
}

static Status run(const Asked *asked, Output *output) {
    Number record;
    Input input;
    uint8_t chain[OCTALMURE_MOST_CHAIN_BYTES];
    if (read_record_number(asked->given[1], &record) != FINE || read_run(asked->given[0], &input) != FINE) {
        return TROUBLE;
    }
    struct octalmure_answer answer = why_bytes(input.bytes, input.length, record.value, chain);
    if (answer.answer == OCTALMURE_CHAIN) {
        print_chain(output->text, chain, answer.code);
    } else {
        print_line(output->text, &answer);
    }
    return status_of(&answer);
}

const Word why_word = {
    .name = "why",
    .usage = "FILE RECORD",
    .summary = "whose ends a record waited for: prints record numbers",
    .help = "Prints for record RECORD of the accepted run in FILE, counted from 0, the chain of causes: the record\n"
            "numbers, on one line, from RECORD back to the first job. Each began when the next one ended, and the\n"
            "first one at its release. A job that began at its release waited for none. For any other the next one\n"
            "is the preceding job of its task, if that ended at this start, and else the job on the same core that\n"
            "ended at this start. The first one's release and the lengths of all of them add up to RECORD's end.\n"
            "Where that is refused, the five numbers of the refusal are printed and nothing else, and the exit\n"
            "status is 3:\n"
            "  4 10 0 0 0  the run breaks a rule; 'octalmure check FILE' tells which\n"
            "  4 20 0 0 0  there is no such record\n"
            "  others      FILE is refused, as by 'octalmure check FILE'\n"
            "'octalmure explain FILE' says the chain of every late record in sentences.\n",
    .least = 2,
    .most = 2,
    .run = run,
};
