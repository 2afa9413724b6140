/* The heap of a test: its N-th request is refused, and the blocks that are alive are counted. Link with
   -Wl,--wrap=malloc,--wrap=realloc,--wrap=free. */
#include <stddef.h>

void *__real_malloc(size_t n);
void *__real_realloc(void *p, size_t n);
void __real_free(void *p);

/* How many requests are granted before the one that is refused, or -1; how many blocks are alive. */
static long left = -1, live = 0;

static int fails(void) { return left >= 0 && left-- == 0; }

void *__wrap_malloc(size_t n) {
    if (fails()) return 0;
    void *p = __real_malloc(n);
    live += p != 0;
    return p;
}

void *__wrap_realloc(void *p, size_t n) {
    if (fails()) return 0;
    void *q = __real_realloc(p, n);
    live += (p == 0) && q;
    return q;
}

void __wrap_free(void *p) {
    live -= p != 0;
    __real_free(p);
}
