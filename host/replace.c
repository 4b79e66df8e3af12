#include "replace.h"

#include <errno.h>
#include <fcntl.h>
#include <signal.h>
#include <stdbool.h>
#include <stdio.h>
#include <stdlib.h>
#include <string.h>
#include <sys/stat.h>
#include <unistd.h>

#include "write.h"

/* ---- the file under its other name, which a signal removes ---- */

static char *volatile unfinished; /* NULL: there is none */

static const int ends[] = {SIGHUP, SIGINT, SIGQUIT, SIGTERM, SIGXCPU};
enum { ENDS = sizeof ends / sizeof ends[0] };

static void remove_and_end(int number) {
    if (unfinished != NULL) {
        unlink(unfinished);
    }
    signal(number, SIG_DFL);
    raise(number);
}

/* A signal that the caller has ignored stays ignored. */
static void catch_ends(void) {
    struct sigaction how, before;
    memset(&how, 0, sizeof how);
    how.sa_handler = remove_and_end;
    for (size_t i = 0; i < ENDS; i++) {
        if (sigaction(ends[i], NULL, &before) == 0 && before.sa_handler != SIG_IGN) {
            sigaction(ends[i], &how, NULL);
        }
    }
}

/* Holds the signals back; gives those that were held back before, by the caller perhaps, which stay so. */
static sigset_t hold_ends(void) {
    sigset_t set, before;
    sigemptyset(&set);
    for (size_t i = 0; i < ENDS; i++) {
        sigaddset(&set, ends[i]);
    }
    sigprocmask(SIG_BLOCK, &set, &before);
    return before;
}

static void let_ends(sigset_t before) {
    sigprocmask(SIG_SETMASK, &before, NULL);
}

/* Makes the file, and notes its name before a signal can come. */
static int make_unfinished(char *name) {
    sigset_t before = hold_ends();
    int file = mkstemp(name);
    unfinished = file >= 0 ? name : NULL;
    let_ends(before);
    return file;
}

/* The name is given up in the same breath as the file is moved: a signal in between would remove another's file. */
static bool move_unfinished(const char *target) {
    sigset_t before = hold_ends();
    bool moved = rename(unfinished, target) == 0;
    if (moved) {
        unfinished = NULL;
    }
    let_ends(before);
    return moved;
}

static void drop_unfinished(void) {
    int error = errno;
    sigset_t before = hold_ends();
    unlink(unfinished);
    unfinished = NULL;
    let_ends(before);
    errno = error;
}

/* ---- replacing ---- */

/* A name for a file in the folder of the target: short, so that a long target is no trouble. */
static char *name_beside(const char *target) {
    static const char pattern[] = ".octalmure-XXXXXX";
    const char *slash = strrchr(target, '/');
    size_t folder = slash != NULL ? (size_t)(slash - target) + 1 : 0;
    char *name = malloc(folder + sizeof pattern);
    if (name != NULL) {
        memcpy(name, target, folder);
        memcpy(name + folder, pattern, sizeof pattern);
    }
    return name;
}

/* A new file gets the rights that any new file gets. One that is replaced has its rights again, and its owner as far as the user may
   give a file away. */
static bool give_rights(int file, const struct stat *old) {
    if (old == NULL) {
        mode_t mask = umask(0);
        umask(mask);
        return fchmod(file, 0666 & ~mask) == 0;
    }
    if (fchown(file, old->st_uid, old->st_gid) != 0 && errno != EPERM) {
        return false;
    }
    return fchmod(file, old->st_mode & 07777) == 0;
}

static bool fill_and_move(int file, const char *target, const struct stat *old, const char *bytes, size_t length) {
    bool whole = write_all(file, bytes, length) && give_rights(file, old) && fsync(file) == 0;
    int error = errno;
    if (close(file) != 0 && whole) {
        whole = false;
        error = errno;
    }
    errno = error;
    if (whole && move_unfinished(target)) {
        return true;
    }
    drop_unfinished();
    return false;
}

static bool replace_plain(const char *target, const struct stat *old, const char *bytes, size_t length) {
    char *name = name_beside(target);
    if (name == NULL) {
        return false;
    }
    catch_ends();
    int file = make_unfinished(name);
    bool done = file >= 0 && fill_and_move(file, target, old, bytes, length);
    free(name);
    return done;
}

static bool write_device(const char *name, const char *bytes, size_t length) {
    int file = open(name, O_WRONLY | O_CLOEXEC | O_NOCTTY);
    if (file < 0) {
        return false;
    }
    bool wrote = write_all(file, bytes, length);
    int error = errno;
    if (close(file) != 0 && wrote) {
        return false;
    }
    errno = error;
    return wrote;
}

/* A link is followed to the file that it leads to; one that leads nowhere is replaced. */
static bool replace_old(const char *name, const struct stat *old, const char *bytes, size_t length) {
    if (!S_ISREG(old->st_mode)) {
        return write_device(name, bytes, length);
    }
    char *target = realpath(name, NULL);
    bool done = target != NULL && access(target, W_OK) == 0 && replace_plain(target, old, bytes, length);
    int error = errno;
    free(target);
    errno = error;
    return done;
}

Status replace(const char *name, const char *bytes, size_t length) {
    struct stat old;
    bool done;
    if (stat(name, &old) == 0) {
        done = replace_old(name, &old, bytes, length);
    } else {
        done = errno == ENOENT && replace_plain(name, NULL, bytes, length);
    }
    return done ? FINE : system_trouble(name, errno);
}
