/* Loaded before the C library, it takes requests for memory of two sizes as commands. One of REFUSE and N more bytes has
   the N-th request after it refused, of malloc, calloc, realloc and posix_memalign together. One of WAS_REFUSED bytes
   ends that, and is refused itself where a request was. The file $REFUSE_LOG gets a c for each command to refuse and an
   r for each request that was refused. */
#define _GNU_SOURCE
#include <dlfcn.h>
#include <errno.h>
#include <fcntl.h>
#include <stddef.h>
#include <stdlib.h>
#include <unistd.h>

enum { REFUSE = 9000000, MOST = 100000, WAS_REFUSED = 8000000 };

static size_t left;
static int refused;

static void note(const char *letter) {
    static int log = -1;
    const char *name = getenv("REFUSE_LOG");
    if (log < 0 && name != NULL) log = open(name, O_CREAT | O_WRONLY | O_APPEND, 0600);
    if (log < 0 || write(log, letter, 1) != 1) abort();
}

static int refuse(void) {
    errno = ENOMEM;
    return 1;
}

static int is_refused(size_t size) {
    if (size == WAS_REFUSED) {
        int was = refused;
        left = 0;
        refused = 0;
        return was ? refuse() : 0;
    }
    if (size > REFUSE && size <= REFUSE + MOST) {
        left = size - REFUSE;
        refused = 0;
        note("c");
        return 0;
    }
    if (left == 0) return 0;
    left -= 1;
    if (left != 0) return 0;
    refused = 1;
    note("r");
    return refuse();
}

void *malloc(size_t size) {
    static void *(*next)(size_t);
    if (next == NULL) next = dlsym(RTLD_NEXT, "malloc");
    return is_refused(size) ? NULL : next(size);
}

void *calloc(size_t many, size_t size) {
    static void *(*next)(size_t, size_t);
    if (next == NULL) next = dlsym(RTLD_NEXT, "calloc");
    return is_refused(many * size) ? NULL : next(many, size);
}

void *realloc(void *old, size_t size) {
    static void *(*next)(void *, size_t);
    if (next == NULL) next = dlsym(RTLD_NEXT, "realloc");
    return is_refused(size) ? NULL : next(old, size);
}

int posix_memalign(void **out, size_t alignment, size_t size) {
    static int (*next)(void **, size_t, size_t);
    if (next == NULL) next = dlsym(RTLD_NEXT, "posix_memalign");
    return is_refused(size) ? ENOMEM : next(out, alignment, size);
}
