/* Loaded before the C library, it refuses a program one allocation, number $REFUSE_AT from 1 of malloc, calloc,
   realloc and posix_memalign together, and leaves the file $REFUSE_MARK where it did. */
#define _GNU_SOURCE
#include <dlfcn.h>
#include <errno.h>
#include <fcntl.h>
#include <stddef.h>
#include <stdlib.h>
#include <unistd.h>

static unsigned long count;

static int is_refused(void) {
    const char *at = getenv("REFUSE_AT");
    const char *mark = getenv("REFUSE_MARK");
    count += 1;
    if (at == NULL || mark == NULL || count != strtoul(at, NULL, 10)) return 0;
    close(open(mark, O_CREAT | O_WRONLY, 0600));
    errno = ENOMEM;
    return 1;
}

void *malloc(size_t size) {
    static void *(*next)(size_t);
    if (next == NULL) next = dlsym(RTLD_NEXT, "malloc");
    return is_refused() ? NULL : next(size);
}

void *calloc(size_t many, size_t size) {
    static void *(*next)(size_t, size_t);
    if (next == NULL) next = dlsym(RTLD_NEXT, "calloc");
    return is_refused() ? NULL : next(many, size);
}

void *realloc(void *old, size_t size) {
    static void *(*next)(void *, size_t);
    if (next == NULL) next = dlsym(RTLD_NEXT, "realloc");
    return is_refused() ? NULL : next(old, size);
}

int posix_memalign(void **out, size_t alignment, size_t size) {
    static int (*next)(void **, size_t, size_t);
    if (next == NULL) next = dlsym(RTLD_NEXT, "posix_memalign");
    return is_refused() ? ENOMEM : next(out, alignment, size);
}
