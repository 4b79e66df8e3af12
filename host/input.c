#include "input.h"

#include <errno.h>
#include <fcntl.h>
#include <string.h>
#include <unistd.h>

/* Reads to the end of the input, or so many bytes. A read that gives less than was asked for is no end. */
static bool fill(int from, size_t most, Input *input) {
    while (input->length < most) {
        ssize_t got = read(from, input->bytes + input->length, most - input->length);
        if (got == 0) {
            return true;
        }
        if (got > 0) {
            input->length += (size_t)got;
        } else if (errno != EINTR) {
            return false;
        }
    }
    return true;
}

static Status read_most(const char *name, size_t most, Input *input) {
    bool standard = is_standard(name);
    input->name = standard ? "standard input" : name;
    input->length = 0;
    int from = standard ? STDIN_FILENO : open(name, O_RDONLY | O_CLOEXEC | O_NOCTTY);
    if (from < 0) {
        return system_trouble(input->name, errno);
    }
    Status status = fill(from, most, input) ? FINE : system_trouble(input->name, errno);
    if (!standard) {
        close(from);
    }
    return status;
}

bool is_standard(const char *name) {
    return strcmp(name, "-") == 0;
}

Status read_run(const char *name, Input *input) {
    return read_most(name, MOST_RUN, input);
}

Status read_table(const char *name, Input *input) {
    return read_most(name, MOST_TABLE, input);
}

Status read_text_of_names(const char *name, Input *input) {
    return read_most(name, MOST_NAMES, input);
}
