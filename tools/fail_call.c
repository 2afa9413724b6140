/* Loaded before the C library, it has one call of a program fail: the one of number $FAIL_AT, from 1, of the calls
   $FAIL_CALL, which is read, write or open, with the error of number $FAIL_WITH. The file $FAIL_LOG gets a line for each
   call of these three: its name, whether it was made or failed, and its handle, or the name of the file. */
#define _GNU_SOURCE
#include <dlfcn.h>
#include <errno.h>
#include <fcntl.h>
#include <stdarg.h>
#include <stdio.h>
#include <stdlib.h>
#include <string.h>
#include <unistd.h>

typedef ssize_t (*reader)(int, void *, size_t);
typedef ssize_t (*writer)(int, const void *, size_t);
typedef int (*opener)(const char *, int, ...);
typedef int (*opener_at)(int, const char *, int, ...);

static void note(const char *call, const char *end, const char *subject) {
    static int log = -1;
    const char *path = getenv("FAIL_LOG");
    char line[512];
    int size = snprintf(line, sizeof line, "%s %s %s\n", call, end, subject);
    if (path == NULL) return;
    if (log < 0) log = ((opener)dlsym(RTLD_NEXT, "open"))(path, O_CREAT | O_WRONLY | O_APPEND, 0600);
    if (log < 0 || ((writer)dlsym(RTLD_NEXT, "write"))(log, line, size) != size) abort();
}

static int fails(const char *call, const char *subject) {
    static long count;
    const char *chosen = getenv("FAIL_CALL"), *at = getenv("FAIL_AT"), *error = getenv("FAIL_WITH");
    int is_chosen = chosen != NULL && at != NULL && error != NULL && strcmp(chosen, call) == 0;
    if (is_chosen) count += 1;
    int is_failed = is_chosen && count == atol(at);
    note(call, is_failed ? "failed" : "made", subject);
    if (is_failed) errno = atoi(error);
    return is_failed;
}

static int fails_on(const char *call, int handle) {
    char subject[16];
    snprintf(subject, sizeof subject, "%d", handle);
    return fails(call, subject);
}

ssize_t read(int handle, void *buffer, size_t size) {
    return fails_on("read", handle) ? -1 : ((reader)dlsym(RTLD_NEXT, "read"))(handle, buffer, size);
}

ssize_t write(int handle, const void *buffer, size_t size) {
    return fails_on("write", handle) ? -1 : ((writer)dlsym(RTLD_NEXT, "write"))(handle, buffer, size);
}

int open(const char *name, int flags, ...) {
    va_list rest;
    va_start(rest, flags);
    mode_t mode = va_arg(rest, mode_t);
    va_end(rest);
    return fails("open", name) ? -1 : ((opener)dlsym(RTLD_NEXT, "open"))(name, flags, mode);
}

int openat(int folder, const char *name, int flags, ...) {
    va_list rest;
    va_start(rest, flags);
    mode_t mode = va_arg(rest, mode_t);
    va_end(rest);
    return fails("open", name) ? -1 : ((opener_at)dlsym(RTLD_NEXT, "openat"))(folder, name, flags, mode);
}
