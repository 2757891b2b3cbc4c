/* A read and a write that stand in for the C library's, loaded before it: what the program `frame` does where a signal interrupts them.
   INTERRUPTED says which calls fail with EINTR: `reads` or `writes`, all of these; `often`, every other call, and the rest move 100
   bytes at most. Only standard input and standard output are touched. */
#define _GNU_SOURCE
#include <errno.h>
#include <dlfcn.h>
#include <stdlib.h>
#include <string.h>
#include <unistd.h>

static int interrupts(const char *all) {
    static int call;
    const char *how = getenv("INTERRUPTED");
    if (how == NULL) abort();
    return strcmp(how, all) == 0 || (strcmp(how, "often") == 0 && ++call % 2 == 1);
}

static ssize_t interrupted(void) {
    errno = EINTR;
    return -1;
}

static size_t at_most_100(size_t size) {
    return size < 100 ? size : 100;
}

ssize_t read(int fd, void *to, size_t size) {
    ssize_t (*next)(int, void *, size_t);
    *(void **)&next = dlsym(RTLD_NEXT, "read");
    if (fd != STDIN_FILENO) return next(fd, to, size);
    return interrupts("reads") ? interrupted() : next(fd, to, at_most_100(size));
}

ssize_t write(int fd, const void *from, size_t size) {
    ssize_t (*next)(int, const void *, size_t);
    *(void **)&next = dlsym(RTLD_NEXT, "write");
    if (fd != STDOUT_FILENO) return next(fd, from, size);
    return interrupts("writes") ? interrupted() : next(fd, from, at_most_100(size));
}
