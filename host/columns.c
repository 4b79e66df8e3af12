#include "columns.h"

#include <stdlib.h>
#include <string.h>
#include <sys/ioctl.h>
#include <unistd.h>

enum { USUAL = 80, MOST_DIGITS = 6 };

size_t columns_of_terminal(void) {
    struct winsize size;
    if (ioctl(STDOUT_FILENO, TIOCGWINSZ, &size) == 0 && size.ws_col > 0) {
        return size.ws_col;
    }
    const char *said = getenv("COLUMNS");
    size_t digits = said != NULL ? strspn(said, "0123456789") : 0;
    return digits > 0 && digits <= MOST_DIGITS && said[digits] == '\0' ? (size_t)strtoul(said, NULL, 10) : USUAL;
}
