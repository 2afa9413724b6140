/* Patterns, lines and arrays in blocks of their own size: under valgrind no call reads or writes beyond them, where the
   sanitizers see only what C does. */
#include "gaxtrel.h"
#include <stdio.h>
#include <stdlib.h>
#include <string.h>

static const char *const patterns[] = {"error: [a-z]+ [0-9]{3}",
                                       "[0-9]{3} ?[a-f]+[x-z]",
                                       "disk|error|fatal",
                                       "(a*)*b",
                                       "z$",
                                       "foo[0-9]*",
                                       "[a-f]{3}x",
                                       "abc",
                                       "a|a*[bc]"};

static void *copied(const void *bytes, size_t length) {
    void *copy = malloc(length);
    return memcpy(copy, bytes, length);
}

int main(void) {
    srand(3);
    for (size_t k = 0; k < sizeof patterns / sizeof *patterns; k++) {
        gaxtrel_matcher m = GAXTREL_NONE;
        gaxtrel_fault fault;
        size_t length = strlen(patterns[k]);
        uint8_t *pattern = copied(patterns[k], length);
        if (gaxtrel_compile(&m, pattern, length, GAXTREL_EXTENDED, k % 2, false, &fault)) return 1;
        free(pattern);
        for (size_t size = 0; size < 140; size++) {
            uint8_t bytes[140] = {0};
            for (size_t i = 0; i < size; i++) bytes[i] = "abcdef0123 xz:\n"[rand() % 15];
            uint8_t *line = copied(bytes, size);
            gaxtrel_part part, *parts = malloc(3 * sizeof *parts);
            size_t count, *number = malloc(sizeof *number);
            uint64_t lines;
            gaxtrel_line *found = malloc(2 * sizeof *found);
            uint32_t matched = gaxtrel_is_match(&m, line, size);
            if (gaxtrel_find(&m, line, size, size / 3, &part) == GAXTREL_YES && !matched) return 2;
            if (gaxtrel_parts(&m, line, size, 0, parts, 3, &count) == GAXTREL_YES && !matched) return 3;
            if (gaxtrel_next_line(&m, line, size, 0, &part) != gaxtrel_count_lines(&m, line, size, &lines)) return 4;
            if (gaxtrel_which(&m, line, size, number, 1, &count) != matched) return 5;
            if (gaxtrel_lines(&m, line, size, 0, 1, found, 2, &count) != (lines > 0)) return 6;
            free(found);
            free(number);
            free(parts);
            free(line);
        }
        gaxtrel_free(&m);
    }
    puts("nothing is read or written beyond what is passed");
    return 0;
}
