/* A lister's calls of read and write, made to fall short or to fail, for scripts/try-lister: cc -shared -fPIC, and LD_PRELOAD.
 * SHIM_READ (of standard input) and SHIM_WRITE (of standard output) hold words with a blank behind each, one for a call:
 *   a number     move at most so many bytes
 *   interrupted  EINTR
 *   failed       EIO
 *   killed       SIGKILL
 *   ever         this word stays, and the one behind it is for every call from here on
 * Behind the last word, and in every other program, calls are as always. */
#define _GNU_SOURCE
#include <errno.h>
#include <signal.h>
#include <stdlib.h>
#include <string.h>
#include <sys/syscall.h>
#include <unistd.h>

static char *of_read, *of_write;

__attribute__((constructor)) static void begin(void) {
    if (strcmp(program_invocation_short_name, "lister") == 0 || strcmp(program_invocation_short_name, "doublelister") == 0) {
        of_read = getenv("SHIM_READ");
        of_write = getenv("SHIM_WRITE");
    }
}

static int starts(const char *words, const char *word) {
    return strncmp(words, word, strlen(word)) == 0;
}

/* How many of `count` bytes the next call may move; 0 with errno set where it fails. */
static size_t allowed(char **words, size_t count) {
    char *word = *words;
    size_t most = count;
    errno = 0;
    if (word == NULL || *word == '\0') {
        return count;
    }
    if (starts(word, "ever ")) {
        word += strlen("ever ");
    } else {
        *words = strchr(word, ' ') + 1;
    }
    if (starts(word, "interrupted ")) {
        errno = EINTR;
    } else if (starts(word, "failed ")) {
        errno = EIO;
    } else if (starts(word, "killed ")) {
        raise(SIGKILL);
    } else {
        most = strtoul(word, NULL, 10);
    }
    return most < count ? most : count;
}

ssize_t read(int fd, void *bytes, size_t count) {
    if (fd == STDIN_FILENO) {
        count = allowed(&of_read, count);
        if (errno != 0) {
            return -1;
        }
    }
    return syscall(SYS_read, fd, bytes, count);
}

ssize_t write(int fd, const void *bytes, size_t count) {
    if (fd == STDOUT_FILENO) {
        count = allowed(&of_write, count);
        if (errno != 0) {
            return -1;
        }
    }
    return syscall(SYS_write, fd, bytes, count);
}
