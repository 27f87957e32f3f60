/* Standard input and output as they are on a bad day, laid before the program by LD_PRELOAD. FLAKY says how:
   interrupted: every second call is interrupted, the others move one byte; cut: reading fails after 42 bytes;
   full: writing fails after 3 bytes; late: closing standard output fails. */
#define _GNU_SOURCE
#include <dlfcn.h>
#include <errno.h>
#include <stdlib.h>
#include <string.h>
#include <unistd.h>

static int asked(const char *how) {
    const char *flaky = getenv("FLAKY");
    return flaky && strcmp(flaky, how) == 0;
}

static int refuse(int error) {
    errno = error;
    return -1;
}

/* How many of these bytes may be moved, or -1. */
static ssize_t allowed(size_t size, const char *limited, size_t limit, size_t *moved, int error) {
    static unsigned calls;
    if (asked("interrupted"))
        return ++calls % 2 ? refuse(EINTR) : size < 1 ? 0 : 1;
    if (!asked(limited) || size == 0)
        return (ssize_t)size;
    if (*moved == limit)
        return refuse(error);
    return (ssize_t)(size < limit - *moved ? size : limit - *moved);
}

ssize_t read(int fd, void *bytes, size_t size) {
    static size_t moved;
    ssize_t (*real)(int, void *, size_t) = (ssize_t(*)(int, void *, size_t))dlsym(RTLD_NEXT, "read");
    ssize_t most = fd == 0 ? allowed(size, "cut", 42, &moved, EIO) : (ssize_t)size;
    ssize_t got = most < 0 ? -1 : real(fd, bytes, (size_t)most);
    moved += got < 0 ? 0 : (size_t)got;
    return got;
}

ssize_t write(int fd, const void *bytes, size_t size) {
    static size_t moved;
    ssize_t (*real)(int, const void *, size_t) = (ssize_t(*)(int, const void *, size_t))dlsym(RTLD_NEXT, "write");
    ssize_t most = fd == 1 ? allowed(size, "full", 3, &moved, ENOSPC) : (ssize_t)size;
    ssize_t got = most < 0 ? -1 : real(fd, bytes, (size_t)most);
    moved += got < 0 ? 0 : (size_t)got;
    return got;
}

int close(int fd) {
    int (*real)(int) = (int (*)(int))dlsym(RTLD_NEXT, "close");
    return fd == 1 && asked("late") ? refuse(EIO) : real(fd);
}
