/* Preloaded by ./check. FAIL_FILE is a file's name: reads of it come in pieces of 3 bytes, and its read FAIL_AT (from 1), or its open where FAIL_AT is 0, fails
   once with the error FAIL_ERRNO. Where FAIL_FILE is "-", the same goes for the writes to standard output. */
#define _GNU_SOURCE
#include <dlfcn.h>
#include <errno.h>
#include <fcntl.h>
#include <stdarg.h>
#include <stdio.h>
#include <stdlib.h>
#include <string.h>
#include <sys/types.h>
#include <unistd.h>

/* whether a path ends in the file's name */
static int meant(const char *path)
{
    const char *file = getenv("FAIL_FILE"), *last = strrchr(path, '/');

    return file && !strcmp(last ? last + 1 : path, file);
}

/* whether the call number `at` of the file is the one that fails */
static int fails(int at)
{
    if (at != atoi(getenv("FAIL_AT")))
        return 0;
    errno = atoi(getenv("FAIL_ERRNO"));
    return 1;
}

int open(const char *path, int flags, ...)
{
    static int opens;
    int (*real)(const char *, int, ...) = (int (*)(const char *, int, ...))dlsym(RTLD_NEXT, "open");
    va_list rest;
    mode_t mode;

    va_start(rest, flags);
    mode = flags & O_CREAT ? va_arg(rest, mode_t) : 0;
    va_end(rest);
    return meant(path) && !opens++ && fails(0) ? -1 : real(path, flags, mode);
}

ssize_t read(int fd, void *buf, size_t n)
{
    static int reads;
    ssize_t (*real)(int, void *, size_t) = (ssize_t (*)(int, void *, size_t))dlsym(RTLD_NEXT, "read");
    char link[64], path[4096];
    ssize_t k;

    snprintf(link, sizeof link, "/proc/self/fd/%d", fd);
    k = readlink(link, path, sizeof path - 1);
    path[k < 0 ? 0 : k] = 0;
    if (!meant(path))
        return real(fd, buf, n);
    return fails(++reads) ? -1 : real(fd, buf, n < 3 ? n : 3);
}

ssize_t write(int fd, const void *buf, size_t n)
{
    static int writes;
    ssize_t (*real)(int, const void *, size_t) = (ssize_t (*)(int, const void *, size_t))dlsym(RTLD_NEXT, "write");

    if (fd != STDOUT_FILENO || !meant("-"))
        return real(fd, buf, n);
    return fails(++writes) ? -1 : real(fd, buf, n < 3 ? n : 3);
}
