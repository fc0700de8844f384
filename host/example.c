/* Reads a log from standard input and prints its listing, in blocks of 16 KiB. */
#include <stdio.h>

#include "lupinshift.h"

int main(int argc, char **argv)
{
    /* A byte more than the longest log tells a longer one. */
    static uint8_t log[LUPIN_LONGEST_LOG + 1];
    static uint8_t block[16 * 1024];
    uint64_t state[LUPIN_STATE_WORDS];
    size_t len, count;

    (void)argv;
    if (argc != 1) {
        fputs("usage: example < LOG\n", stderr);
        return 2;
    }
    len = fread(log, 1, sizeof log, stdin);
    if (ferror(stdin)) {
        perror("example: standard input");
        return 1;
    }
    lupin_begin(log, len, state, LUPIN_STATE_WORDS);
    while ((count = lupin_fill(state, LUPIN_STATE_WORDS, log, len, block, sizeof block)) > 0) {
        if (fwrite(block, 1, count, stdout) != count) {
            perror("example: standard output");
            return 1;
        }
    }
    if (fflush(stdout) != 0) {
        perror("example: standard output");
        return 1;
    }
    return 0;
}
