#include "output.h"

#include <errno.h>
#include <fcntl.h>
#include <stdbool.h>
#include <stdlib.h>
#include <string.h>
#include <unistd.h>

#include "replace.h"
#include "write.h"

/* A closed descriptor is opened the wrong way round, so that to read or to write it still fails. */
void keep_descriptors(void) {
    for (int number = STDIN_FILENO; number <= STDERR_FILENO; number++) {
        if (fcntl(number, F_GETFD) < 0 && open("/dev/null", number == STDIN_FILENO ? O_WRONLY : O_RDONLY) < 0) {
            exit(system_trouble("/dev/null", errno));
        }
    }
}

Status open_output(Output *output) {
    *output = (Output){0};
    output->text = open_memstream(&output->bytes, &output->length);
    return output->text != NULL ? FINE : system_trouble("memory", errno);
}

static Status write_standard(const Output *output) {
    bool wrote = write_all(STDOUT_FILENO, output->bytes, output->length) && close(STDOUT_FILENO) == 0;
    return wrote ? FINE : system_trouble("standard output", errno);
}

static Status deliver(const Output *output) {
    bool standard = output->place == NULL || strcmp(output->place, "-") == 0;
    return standard ? write_standard(output) : replace(output->place, output->bytes, output->length);
}

Status gather_output(Output *output) {
    bool whole = !ferror(output->text);
    return fclose(output->text) == 0 && whole ? FINE : trouble("memory", "there is not enough for what is to be written");
}

Status close_output(Output *output, Status status) {
    if (gather_output(output) != FINE) {
        status = TROUBLE;
    }
    if (status != TROUBLE && deliver(output) != FINE) {
        status = TROUBLE;
    }
    free(output->bytes);
    return status;
}
