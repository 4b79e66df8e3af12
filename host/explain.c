/* octalmure explain FILE [--names NAMES] [--json] */
#include "because.h"
#include "facts.h"
#include "library.h"
#include "namedrun.h"
#include "reason.h"
#include "words.h"

static Status say_reasons(FILE *out, const Said *of) {
    uint32_t late[OCTALMURE_MOST_JOBS], count = late_records(of->layout, late);
    Reason reason;
    for (uint32_t i = 0; i < count; i++) {
        if (find_reason(of->layout, late[i], &reason) != FINE) {
            return TROUBLE;
        }
        fputc('\n', out);
        say_reason(out, of, &reason);
    }
    return FINE;
}

/* The status of what was said, which is that of the check unless there is trouble. */
static Status explain(FILE *out, const Said *of, bool json) {
    struct octalmure_answer answer = check_bytes(of->layout->bytes, of->layout->length);
    Status status = status_of(&answer);
    if (status == TROUBLE) {
        return TROUBLE;
    }
    if (json) {
        return print_facts(out, of, &answer) == FINE ? status : TROUBLE;
    }
    say_before_reasons(out, of, &answer);
    return status == FINE ? say_reasons(out, of) : status;
}

static Status run(const Asked *asked, Output *output) {
    NamedRun run;
    return read_named(asked, &run) == FINE ? explain(output->text, &run.said, asked->json) : TROUBLE;
}

const Word explain_word = {
    .name = "explain",
    .usage = "FILE [--names NAMES] [--json]",
    .summary = "why each late job began when it did, in sentences",
    .help = "Checks the run in FILE and says in sentences what was shown. Then for every late record of an accepted\n"
            "run, soonest deadline first, it says why its job began when it did: whether it waited for its own\n"
            "preceding job or for a core, who ran there from when to when, why that one began, and so on back to\n"
            "a job that began at its release; and the sum of all that. Of a run that breaks a rule it says which\n"
            "one and where, and gives no reasons; of a refused file, why it is refused and where it stops.\n"
            HELP_OF_NAMES
            "  --json         gives the same facts, and the sentences, as one JSON document; docs/FORMAT.md of\n"
            "                 the source lists what stands in it\n"
            "A bad line of NAMES is told on standard error, with its number, and the exit status is 2. An\n"
            "accepted run without lateness says nothing about other runs.\n",
    .least = 1,
    .most = 1,
    .names = true,
    .json = true,
    .run = run,
};
