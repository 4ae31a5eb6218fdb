/* Stands before the C library (LD_PRELOAD), and lets one call of the program go wrong, which FRAME_TEST_AT names:
 * rename, fsync or write end the program there by the signal FRAME_TEST_SIGNAL; `full` lets every write to a file find the disk
 * full. */
#define _GNU_SOURCE
#include <dlfcn.h>
#include <errno.h>
#include <signal.h>
#include <stdlib.h>
#include <string.h>
#include <unistd.h>

static int is_at(const char *call) {
    const char *named = getenv("FRAME_TEST_AT");
    return named && strcmp(named, call) == 0;
}

/* The signal ends the program even if whoever started the tests has it ignored. */
static void interrupt_at(const char *call) {
    if (is_at(call)) {
        int number = atoi(getenv("FRAME_TEST_SIGNAL"));
        signal(number, SIG_DFL);
        raise(number);
    }
}

int rename(const char *from, const char *to) {
    int (*real)(const char *, const char *) = dlsym(RTLD_NEXT, "rename");
    interrupt_at("rename");
    return real(from, to);
}

int fsync(int file) {
    int (*real)(int) = dlsym(RTLD_NEXT, "fsync");
    interrupt_at("fsync");
    return real(file);
}

/* The first half is written before the interrupt. */
ssize_t write(int file, const void *bytes, size_t length) {
    ssize_t (*real)(int, const void *, size_t) = dlsym(RTLD_NEXT, "write");
    if (file > STDERR_FILENO && is_at("full")) {
        errno = ENOSPC;
        return -1;
    }
    if (file > STDERR_FILENO && is_at("write")) {
        real(file, bytes, length / 2);
        interrupt_at("write");
    }
    return real(file, bytes, length);
}
