/* Preloaded before a program, this kills it before its Nth call that changes files, N from the variable STOP_NTH, counted
   from the first one whose name has STOP_FROM in it. Where STOP_PART is set, half of what that call writes is written.
   It adds a line for each of these calls to the file that STOP_CALLS names: the call, and the names of its files. */
#define _GNU_SOURCE
#include <dlfcn.h>
#include <fcntl.h>
#include <limits.h>
#include <signal.h>
#include <stdarg.h>
#include <stdio.h>
#include <stdlib.h>
#include <string.h>
#include <sys/stat.h>
#include <unistd.h>

#define NEXT(name) static __typeof__(&name) next; if (!next) next = (__typeof__(&name))dlsym(RTLD_NEXT, #name)

static unsigned long calls;
/* What is asked for here is not the program's. */
static __thread char is_inside;

/* Whether this call is the last one: then it is not made. */
static int is_last(const char *call, const char *one, const char *two) {
    const char *from = getenv("STOP_FROM"), *nth = getenv("STOP_NTH"), *path = getenv("STOP_CALLS");
    if (is_inside || (!calls && from && !strstr(one, from))) return 0;
    is_inside = 1;
    calls++;
    FILE *file = path ? fopen(path, "a") : 0;
    if (file) {
        fprintf(file, "%s\t%s\t%s\n", call, one, two);
        fclose(file);
    }
    is_inside = 0;
    return nth && calls == strtoul(nth, 0, 10);
}

static void stop(void) {
    kill(getpid(), SIGKILL);
    for (;;) pause();
}

/* The name of a file or a folder that is open; none of a pipe, or of what the program says. */
static int is_named(int fd, char *name) {
    struct stat about;
    char link[64];
    if (is_inside || fd <= STDERR_FILENO || fstat(fd, &about) || !(S_ISREG(about.st_mode) || S_ISDIR(about.st_mode))) return 0;
    snprintf(link, sizeof link, "/proc/self/fd/%d", fd);
    ssize_t length = readlink(link, name, PATH_MAX - 1);
    name[length < 0 ? 0 : length] = 0;
    return length > 0;
}

static void at(const char *call, const char *one, const char *two) {
    if (is_last(call, one, two)) stop();
}

static void at_file(const char *call, int fd) {
    char name[PATH_MAX];
    if (is_named(fd, name)) at(call, name, "");
}

int open(const char *name, int flags, ...) {
    NEXT(open);
    va_list rest;
    va_start(rest, flags);
    mode_t mode = flags & O_CREAT ? va_arg(rest, mode_t) : 0;
    va_end(rest);
    if (flags & O_TRUNC || (flags & O_CREAT && access(name, F_OK))) at("create", name, "");
    return next(name, flags, mode);
}

ssize_t write(int fd, const void *bytes, size_t count) {
    NEXT(write);
    char name[PATH_MAX];
    if (is_named(fd, name) && is_last("write", name, "")) {
        if (getenv("STOP_PART")) next(fd, bytes, count / 2);
        stop();
    }
    return next(fd, bytes, count);
}

ssize_t pwrite(int fd, const void *bytes, size_t count, off_t where) {
    NEXT(pwrite);
    at_file("pwrite", fd);
    return next(fd, bytes, count, where);
}

int ftruncate(int fd, off_t length) {
    NEXT(ftruncate);
    at_file("ftruncate", fd);
    return next(fd, length);
}

int fsync(int fd) {
    NEXT(fsync);
    at_file("fsync", fd);
    return next(fd);
}

int fdatasync(int fd) {
    NEXT(fdatasync);
    at_file("fdatasync", fd);
    return next(fd);
}

int rename(const char *from, const char *to) {
    NEXT(rename);
    at("rename", from, to);
    return next(from, to);
}

int unlink(const char *name) {
    NEXT(unlink);
    at("unlink", name, "");
    return next(name);
}

int chmod(const char *name, mode_t mode) {
    NEXT(chmod);
    at("chmod", name, "");
    return next(name, mode);
}
