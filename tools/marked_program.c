/* Stands for a test of tools/refuse_growths.sh, by the number KIND. */
#include <stdlib.h>

enum { REFUSE = 9000000, WAS_REFUSED = 8000000 };
enum { ASKS_FOR_NOTHING, SETS_NO_MARK, STOPS_AT_FIRST, FAILS, ASKS_THREE_TIMES };

static int is_granted(size_t size) {
    void *volatile memory = malloc(size);
    int granted = memory != NULL;
    free(memory);
    return granted;
}

/* Has the N-th request refused, makes this number of them, and answers whether one was refused. */
static int meets_refusal(int n, int requests) {
    is_granted(REFUSE + n);
    for (int made = 0; made < requests; made += 1) is_granted(100);
    return !is_granted(WAS_REFUSED);
}

int main(void) {
    int n = 1;
    if (KIND == SETS_NO_MARK) return 0;
    if (KIND == ASKS_FOR_NOTHING) return meets_refusal(1, 0);
    if (KIND == STOPS_AT_FIRST) return !meets_refusal(1, 1);
    while (meets_refusal(n, 3)) n += 1;
    return KIND == FAILS ? 1 : 0;
}
