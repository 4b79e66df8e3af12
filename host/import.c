/* octalmure import FILE TABLE [-o OUT] */
#include "input.h"
#include "library.h"
#include "words.h"
#include "written.h"

static Status run(const Asked *asked, Output *output) {
    const char *name = asked->given[0], *table_name = asked->given[1];
    Input file, table;
    uint8_t imported[OCTALMURE_MOST_FILE_BYTES];
    if (is_standard(name) && is_standard(table_name)) {
        return trouble("-", "FILE and TABLE cannot both be standard input");
    }
    if (read_run(name, &file) != FINE || read_table(table_name, &table) != FINE) {
        return TROUBLE;
    }
    struct octalmure_answer answer = import_bytes(file.bytes, file.length, table.bytes, table.length, imported);
    return give_written(&answer, imported, asked->out, output);
}

const Word import_word = {
    .name = "import",
    .usage = "FILE TABLE [-o OUT]",
    .summary = "takes the records from a text table: writes a run file",
    .help = "Takes the setting and the tasks from the run file FILE and the records from the text table TABLE, and\n"
            "writes the run file of both to standard output, its records in rising order of task and job. The\n"
            "records of FILE are not used. TABLE is the line\n"
            "  task,job,release,start,end,core\n"
            "and then a line for each record, in any order: six numbers below 4294967296, in decimal without\n"
            "leading zeros, a comma between two. A line feed closes every line, the last one too; no line has a\n"
            "space, a quotation mark or a carriage return.\n"
            HELP_OF_OUT
            "Where the import is refused, the five numbers of the refusal are printed on standard output and\n"
            "nothing else, OUT is untouched, and the exit status is 3:\n"
            "  4 12 LINE 0 0  this line of TABLE is bad; the header is line 1\n"
            "  4 7 0 0 0      more than 512 records, in FILE or in TABLE\n"
            "  4 13 LINE 0 0  this line's task and job were already given by an earlier line\n"
            "  others         FILE is refused, as by 'octalmure check FILE'\n"
            "Whether the run obeys the rules is not asked here: 'octalmure check' does that, and finds jobs that\n"
            "TABLE lacks (rule 1).\n",
    .least = 2,
    .most = 2,
    .writes = true,
    .run = run,
};
