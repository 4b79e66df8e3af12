/* harness            serves afl-fuzz: inputs come on standard input, one after another
   harness FILE...    tries each file, and prints the numbers of the probes that were met, one to a line */
#include <errno.h>
#include <signal.h>
#include <stdio.h>
#include <stdlib.h>
#include <string.h>
#include <sys/shm.h>
#include <sys/wait.h>
#include <unistd.h>

#include "input.h"

/* The probes of the archive's code count here. */
enum { MOST_PROBES = 1 << 13 };
uint8_t probe_counts[MOST_PROBES];
extern const uint32_t probe_number;

/* The two files through which afl-fuzz and a program that it runs speak, and the words for "this many bytes of counts". */
enum { FROM_FUZZER = 198, TO_FUZZER = 199, INPUTS_BY_ONE_CHILD = 20000 };
static const uint32_t with_size = 0x80000001u | 0x40000000u;

static uint8_t input[MOST_INPUT];

static size_t read_all(int from) {
    size_t length = 0;
    ssize_t got;
    while (length < sizeof input && (got = read(from, input + length, sizeof input - length)) > 0) {
        length += (size_t)got;
    }
    return length;
}

static void speak(uint32_t word) {
    if (write(TO_FUZZER, &word, sizeof word) != sizeof word) {
        _exit(1);
    }
}

static uint8_t *counts_of_the_fuzzer(void) {
    const char *name = getenv("__AFL_SHM_ID");
    void *counts = name == NULL ? NULL : shmat(atoi(name), NULL, 0);
    if (counts == NULL || counts == (void *)-1) {
        fprintf(stderr, "fuzz: no afl-fuzz; 'harness FILE...' tries files\n");
        exit(2);
    }
    return counts;
}

/* The child that tries inputs. It stops after each, and afl-fuzz has it go on. */
static void work(uint8_t *counts) {
    close(FROM_FUZZER);
    close(TO_FUZZER);
    for (;;) {
        memset(probe_counts, 0, probe_number);
        try_input(input, read_all(STDIN_FILENO));
        memcpy(counts, probe_counts, probe_number);
        raise(SIGSTOP);
    }
}

static pid_t begin(uint8_t *counts) {
    pid_t child = fork();
    if (child == 0) {
        work(counts);
    }
    return child;
}

/* afl-fuzz asks for a run by four bytes, which say whether it killed the child; it is told the child, and how the child ended. A
   child that has tried many inputs is replaced before the next one: if it ended by itself, that one would seem to meet no probe. */
static int serve(void) {
    uint8_t *counts = counts_of_the_fuzzer();
    uint32_t killed, tried = 0;
    pid_t child = 0;
    int status = 0;
    speak(with_size | (probe_number - 1) << 1);
    while (read(FROM_FUZZER, &killed, sizeof killed) == sizeof killed) {
        if (child > 0 && WIFSTOPPED(status) && (killed || tried == INPUTS_BY_ONE_CHILD)) {
            kill(child, SIGKILL);
            waitpid(child, &status, 0);
        }
        if (child > 0 && WIFSTOPPED(status)) {
            kill(child, SIGCONT);
        } else {
            tried = 0;
            if ((child = begin(counts)) < 0) {
                return 1;
            }
        }
        tried++;
        speak((uint32_t)child);
        if (waitpid(child, &status, WUNTRACED) < 0) {
            return 1;
        }
        speak((uint32_t)status);
    }
    return 0;
}

static int replay(char **files) {
    for (; *files != NULL; files++) {
        FILE *in = fopen(*files, "rb");
        if (in == NULL) {
            fprintf(stderr, "fuzz: %s: %s\n", *files, strerror(errno));
            return 2;
        }
        size_t length = fread(input, 1, sizeof input, in);
        fclose(in);
        fprintf(stderr, "%s\n", *files); /* so that the one that aborts is known */
        try_input(input, length);
    }
    for (uint32_t i = 0; i < probe_number; i++) {
        if (probe_counts[i] != 0) {
            printf("%u\n", i);
        }
    }
    return 0;
}

int main(int argc, char **argv) {
    if (probe_number > MOST_PROBES) {
        fprintf(stderr, "fuzz: more probes than there is room for\n");
        return 2;
    }
    return argc > 1 ? replay(argv + 1) : serve();
}
