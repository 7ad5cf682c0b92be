/* Lets the system fail, under a program that is started with this library loaded before the C library's:
 *   cc -shared -fPIC -O1 -o broken.so broken.c
 *   LD_PRELOAD=./broken.so BROKEN_FILE=NAME BROKEN_READ=N .. program ..
 * NAME is a path as the program opens it, or `-` for standard output.
 *   BROKEN_READ=N    reads of NAME give N bytes, and then fail
 *   BROKEN_WRITE=N   a write to NAME takes at most N bytes
 *   BROKEN_MORE=TEXT behind N bytes, and before the next read, NAME grows by TEXT, where BROKEN_AT=N
 *   BROKEN_THREAD=N  N threads can be started, and no more */
#define _GNU_SOURCE
#include <dlfcn.h>
#include <errno.h>
#include <fcntl.h>
#include <pthread.h>
#include <stdarg.h>
#include <stdatomic.h>
#include <stdlib.h>
#include <string.h>
#include <sys/types.h>
#include <unistd.h>

enum { FILES = 1024 };
static long given[FILES];
static char is_named[FILES];
static atomic_long threads;

static long number(const char *word, long otherwise) {
    const char *value = getenv(word);
    return value ? atol(value) : otherwise;
}

static int is_broken(int file, const char *word) {
    const char *name = getenv("BROKEN_FILE");
    if (!name || !getenv(word)) return 0;
    return file == 1 ? !strcmp(name, "-") : file >= 0 && file < FILES && is_named[file];
}

int open(const char *path, int flags, ...) {
    int (*real)(const char *, int, ...) = (int (*)(const char *, int, ...))dlsym(RTLD_NEXT, "open");
    const char *name = getenv("BROKEN_FILE");
    va_list rest;
    va_start(rest, flags);
    int file = real(path, flags, flags & O_CREAT ? va_arg(rest, int) : 0);
    va_end(rest);
    if (file >= 0 && file < FILES) {
        is_named[file] = name && !strcmp(name, path);
        given[file] = 0;
    }
    return file;
}

/* Lets a file grow once so many bytes of it were given. */
static void grow(int file) {
    int (*real)(const char *, int, ...) = (int (*)(const char *, int, ...))dlsym(RTLD_NEXT, "open");
    const char *more = getenv("BROKEN_MORE");
    if (given[file] < number("BROKEN_AT", 0)) return;
    int end = real(getenv("BROKEN_FILE"), O_WRONLY | O_APPEND);
    if (end < 0 || write(end, more, strlen(more)) < 0 || close(end)) _exit(99);
    is_named[file] = 0;
}

ssize_t read(int file, void *buffer, size_t size) {
    ssize_t (*real)(int, void *, size_t) = (ssize_t (*)(int, void *, size_t))dlsym(RTLD_NEXT, "read");
    if (is_broken(file, "BROKEN_READ")) {
        size_t left = number("BROKEN_READ", 0) - given[file];
        if (!left) return errno = EIO, -1;
        if (size > left) size = left;
    }
    if (is_broken(file, "BROKEN_MORE")) grow(file);
    ssize_t count = real(file, buffer, size);
    if (count > 0 && file < FILES) given[file] += count;
    return count;
}

ssize_t write(int file, const void *buffer, size_t size) {
    ssize_t (*real)(int, const void *, size_t) = (ssize_t (*)(int, const void *, size_t))dlsym(RTLD_NEXT, "write");
    if (is_broken(file, "BROKEN_WRITE")) {
        size_t most = number("BROKEN_WRITE", 0);
        if (!most) return 0;
        if (size > most) size = most;
    }
    return real(file, buffer, size);
}

int pthread_create(pthread_t *thread, const pthread_attr_t *how, void *(*start)(void *), void *with) {
    int (*real)(pthread_t *, const pthread_attr_t *, void *(*)(void *), void *) =
        (int (*)(pthread_t *, const pthread_attr_t *, void *(*)(void *), void *))dlsym(RTLD_NEXT, "pthread_create");
    if (++threads > number("BROKEN_THREAD", 1 << 20)) return EAGAIN;
    return real(thread, how, start, with);
}
