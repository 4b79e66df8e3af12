/* The system's calls as the command meets them on a bad day. FAULT names what goes wrong:
 *   read, write, close, fsync, fchmod, rename, memory   that call fails: read and write after a part was done
 *   scarce       there is memory for what is gathered first, and none for more
 *   drops        every read and write does one byte, and every other one is interrupted: nothing is wrong, and nothing may be lost
 *   SIGTERM etc. the signal comes while the file stands under its other name
 *   standard     the file under its other name must not have the number of a standard stream, though that be closed
 * Linked with -Wl,--wrap=NAME for each of these calls.
 */
#include <errno.h>
#include <signal.h>
#include <stdbool.h>
#include <stdio.h>
#include <stdlib.h>
#include <string.h>
#include <sys/stat.h>
#include <unistd.h>

ssize_t __real_read(int from, void *bytes, size_t length);
ssize_t __real_write(int to, const void *bytes, size_t length);
int __real_close(int file);
int __real_fsync(int file);
int __real_fchmod(int file, mode_t rights);
int __real_rename(const char *from, const char *to);
int __real_mkstemp(char *name);
FILE *__real_open_memstream(char **bytes, size_t *length);

ssize_t __wrap_read(int from, void *bytes, size_t length);
ssize_t __wrap_write(int to, const void *bytes, size_t length);
int __wrap_close(int file);
int __wrap_fsync(int file);
int __wrap_fchmod(int file, mode_t rights);
int __wrap_rename(const char *from, const char *to);
int __wrap_mkstemp(char *name);
FILE *__wrap_open_memstream(char **bytes, size_t *length);

static bool fault(const char *name) {
    const char *given = getenv("FAULT");
    return given != NULL && strcmp(given, name) == 0;
}

static int fail(int error) {
    errno = error;
    return -1;
}

/* How much of a read or a write is done: all of it, a part once and then nothing, or drops. -1 with errno: it fails. */
static ssize_t part(const char *name, size_t length, int error) {
    static int calls;
    calls++;
    if (fault(name)) {
        return calls > 1 ? fail(error) : (ssize_t)(length / 2);
    }
    if (fault("drops")) {
        return calls % 2 == 0 ? fail(EINTR) : (ssize_t)(length > 0 ? 1 : 0);
    }
    return (ssize_t)length;
}

ssize_t __wrap_read(int from, void *bytes, size_t length) {
    ssize_t most = part("read", length > 200 ? 200 : length, EIO);
    return most < 0 ? most : __real_read(from, bytes, (size_t)most);
}

ssize_t __wrap_write(int to, const void *bytes, size_t length) {
    ssize_t most = to == STDERR_FILENO ? (ssize_t)length : part("write", length, ENOSPC);
    return most < 0 ? most : __real_write(to, bytes, (size_t)most);
}

int __wrap_close(int file) {
    int closed = __real_close(file);
    return fault("close") ? fail(EIO) : closed;
}

int __wrap_fsync(int file) {
    static const struct {
        const char *name;
        int number;
    } signals[] = {{"SIGHUP", SIGHUP}, {"SIGINT", SIGINT}, {"SIGQUIT", SIGQUIT}, {"SIGTERM", SIGTERM}};
    for (size_t i = 0; i < sizeof signals / sizeof signals[0]; i++) {
        if (fault(signals[i].name)) {
            raise(signals[i].number);
        }
    }
    return fault("fsync") ? fail(EIO) : __real_fsync(file);
}

int __wrap_fchmod(int file, mode_t rights) {
    return fault("fchmod") ? fail(EPERM) : __real_fchmod(file, rights);
}

int __wrap_rename(const char *from, const char *to) {
    return fault("rename") ? fail(EXDEV) : __real_rename(from, to);
}

int __wrap_mkstemp(char *name) {
    int file = __real_mkstemp(name);
    return fault("standard") && file <= STDERR_FILENO ? fail(EMFILE) : file;
}

FILE *__wrap_open_memstream(char **bytes, size_t *length) {
    static int calls;
    calls++;
    if (fault("memory") || (fault("scarce") && calls > 1)) {
        errno = ENOMEM;
        return NULL;
    }
    return __real_open_memstream(bytes, length);
}
