/* Stands for a grep that makes three requests for memory and writes the lines `b` and `ab`. Where a request is refused
   it does what WRONG says; 0 is right, and any other number is wrong on purpose. */
#include <stdlib.h>
#include <unistd.h>

enum { RIGHT, ALWAYS_ENDS, ENDS_AS_NO_LINE, LOSES_A_ROW, BREAKS_A_ROW, CRASHES, SAYS_NOTHING, SAYS_ANOTHER };

static int end(const char *out, size_t size, const char *message, size_t length, int status) {
    return write(1, out, size) == (ssize_t)size && write(2, message, length) == (ssize_t)length ? status : 99;
}

int main(void) {
    static const char rows[] = "b\nab\n", refused[] = "grep: out of memory\n", other[] = "grep: write error\n";
    int granted = 1;
    for (int request = 0; request < 3; request += 1) {
        void *volatile memory = malloc(100);
        granted = granted && memory != NULL;
        free(memory);
    }
    if (granted && WRONG != ALWAYS_ENDS) return end(rows, 5, refused, 0, 0);
    switch (WRONG) {
    case ENDS_AS_NO_LINE: return end(rows, 2, refused, 20, 1);
    case LOSES_A_ROW: return end(rows, 2, refused, 0, 0);
    case BREAKS_A_ROW: return end(rows, 3, refused, 20, 2);
    case CRASHES: abort();
    case SAYS_NOTHING: return end(rows, 2, refused, 0, 2);
    case SAYS_ANOTHER: return end(rows, 2, other, 18, 2);
    default: return end(rows, 2, refused, 20, 2);
    }
}
