/* files FOLDER SEED FIRST COUNT: writes COUNT cases of tests/independent, from number FIRST on, as FOLDER/NUMBER.run, and prints
   for each a line with its number and what it is to be carried to. */
#include <inttypes.h>
#include <stdbool.h>
#include <stdio.h>
#include <stdlib.h>

#include "cases.h"

static bool write_file(const char *folder, uint64_t number, const Case *made) {
    char path[4096];
    snprintf(path, sizeof path, "%s/%" PRIu64 ".run", folder, number);
    FILE *out = fopen(path, "wb");
    bool whole = out != NULL && fwrite(made->file, 1, made->length, out) == made->length;
    whole = out != NULL && fclose(out) == 0 && whole;
    if (!whole) {
        fprintf(stderr, "files: %s cannot be written\n", path);
    }
    return whole;
}

int main(int argc, char **argv) {
    static Case made;
    if (argc != 5) {
        fprintf(stderr, "usage: files FOLDER SEED FIRST COUNT\n");
        return 2;
    }
    uint64_t seed = strtoull(argv[2], NULL, 10), first = strtoull(argv[3], NULL, 10), count = strtoull(argv[4], NULL, 10);
    for (uint64_t number = first; number < first + count; number++) {
        make_case(seed, number, &made);
        if (!write_file(argv[1], number, &made)) {
            return 1;
        }
        printf("%" PRIu64 " %" PRIu32 "\n", number, made.horizon);
    }
    return fflush(stdout) == 0 ? 0 : 1;
}
