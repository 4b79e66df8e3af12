/* octalmure trace FILE [--names NAMES] [-o OUT] */
#include "events.h"
#include "library.h"
#include "namedrun.h"
#include "words.h"

static Status trace(const Said *of, const char *out, Output *output) {
    struct octalmure_answer answer = check_bytes(of->layout->bytes, of->layout->length);
    Status status = status_of(&answer);
    if (status == REFUSED) {
        print_line(output->text, &answer);
    } else if (status != TROUBLE) {
        output->place = out;
        print_events(output->text, of, &answer);
    }
    return status;
}

static Status run(const Asked *asked, Output *output) {
    NamedRun run;
    return read_named(asked, &run) == FINE ? trace(&run.said, asked->out, output) : TROUBLE;
}

const Word trace_word = {
    .name = "trace",
    .usage = "FILE [--names NAMES] [-o OUT]",
    .summary = "writes the run as a trace, for Perfetto and chrome://tracing",
    .help = "Writes the run in FILE to standard output in the trace event format, which is JSON that Perfetto's page\n"
            "and chrome://tracing open: a lane for each core, a bar for each record with all that is known of it,\n"
            "the time that it waited, its deadline, and H. One tick is one microsecond there. docs/FORMAT.md of the\n"
            "source lists the events.\n"
            HELP_OF_NAMES
            HELP_OF_OUT
            "Of a run that breaks a rule it is not told which records are late, and of one that breaks rule 1 not\n"
            "when they were ready; the exit status is 1. Where FILE is refused, the five numbers of the refusal are\n"
            "printed on standard output and nothing else, OUT is untouched, and the exit status is 3. A bad line of\n"
            "NAMES is told on standard error, with its number, and the exit status is 2. An accepted run without\n"
            "lateness says nothing about other runs.\n",
    .least = 1,
    .most = 1,
    .writes = true,
    .names = true,
    .run = run,
};
