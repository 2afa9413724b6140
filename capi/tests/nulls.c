/* Null for each text of no bytes and each array with no room, in C and in C++: no function gets one, as the sanitizers
   see, and each answers. Says the number of the first check that fails, if one does. */
#include "gaxtrel.h"
#include <stdio.h>

#define NO_NULL(call) extern __typeof__(call) call __attribute__((nonnull))
NO_NULL(gaxtrel_compile);
NO_NULL(gaxtrel_compile_lines);
NO_NULL(gaxtrel_compile_with);
NO_NULL(gaxtrel_is_match);
NO_NULL(gaxtrel_find);
NO_NULL(gaxtrel_compile_each);
NO_NULL(gaxtrel_which);
NO_NULL(gaxtrel_lines);
NO_NULL(gaxtrel_parts);
NO_NULL(gaxtrel_next_line);
NO_NULL(gaxtrel_count_lines);
NO_NULL(gaxtrel_session_answer);
NO_NULL(gaxtrel_session_edit);
NO_NULL(gaxtrel_session_replies);

static int wrong_match(gaxtrel_matcher *m, uint32_t wanted) {
    gaxtrel_part part;
    size_t count = 7;
    uint64_t lines = 7;
    if (gaxtrel_is_match(m, NULL, 0) != wanted) return 1;
    if (gaxtrel_lines(m, NULL, 0, 0, 0, NULL, 0, &count) != GAXTREL_NO || count != 0) return 6;
    if (gaxtrel_which(m, NULL, 0, NULL, 0, &count) != wanted || count != wanted) return 7;
    if (gaxtrel_find(m, NULL, 0, 0, &part) != GAXTREL_NO) return 2;
    if (gaxtrel_parts(m, NULL, 0, 0, NULL, 0, &count) != GAXTREL_NO || count != 0) return 3;
    if (gaxtrel_next_line(m, NULL, 0, 0, &part) != GAXTREL_NO) return 4;
    return gaxtrel_count_lines(m, NULL, 0, &lines) == GAXTREL_NO && lines == 0 ? 0 : 5;
}

static int wrong(void) {
    gaxtrel_matcher m = GAXTREL_NONE;
    gaxtrel_session s = GAXTREL_NONE;
    gaxtrel_fault fault;
    gaxtrel_options options = GAXTREL_OPTIONS;
    size_t count = 7;
    if (gaxtrel_compile_with(&m, NULL, 0, &options, &fault) != GAXTREL_OK) return 16;
    if (gaxtrel_compile_lines(&m, NULL, 0, GAXTREL_BASIC, false, false, &fault) != GAXTREL_OK) return 10;
    if (gaxtrel_compile_each(&m, NULL, 0, GAXTREL_BASIC, false, false, &fault) != GAXTREL_OK) return 11;
    if (wrong_match(&m, GAXTREL_NO)) return 20 + wrong_match(&m, GAXTREL_NO);
    if (gaxtrel_compile(&m, NULL, 0, GAXTREL_BASIC, false, true, &fault) != GAXTREL_OK) return 12;
    if (wrong_match(&m, GAXTREL_YES)) return 30 + wrong_match(&m, GAXTREL_YES);
    gaxtrel_free(&m);
    if (gaxtrel_session_open(&s, 1) != GAXTREL_OK) return 13;
    if (gaxtrel_session_answer(&s, NULL, 0, &count) != GAXTREL_OK || count != 0) return 14;
    if (gaxtrel_session_edit(&s, NULL, 0, NULL, 0, &count) != GAXTREL_REFUSED || count != 19) return 17;
    if (gaxtrel_session_replies(&s, 0, NULL, 0, &count) != GAXTREL_OK || count != 19) return 15;
    gaxtrel_session_free(&s);
    return 0;
}

int main(void) {
    int failed = wrong();
    if (failed) printf("check %d\n", failed);
    else puts("null is a text of no bytes, and an array with no room");
    return failed;
}
