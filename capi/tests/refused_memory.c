/* Each allocation of each call fails in turn: the answer is then "no memory", with nothing written, or
   the right one, the next call is right, and nothing leaks or is freed twice. */
#include "gaxtrel.h"
#include "refusals.h"
#include <stdio.h>
#include <string.h>

/* The patterns are lines; the answers are for each line of the text, and for the first line. */
static const struct {
    const char *patterns;
    uint32_t syntax;
    bool fold;
    const char *line;
    uint32_t matched;
    size_t start, end, parts;
    const char *text;
    uint64_t lines;
} cases[] = {
    {"ab|abcd|bc", GAXTREL_EXTENDED, false, "xabcdebc", 1, 1, 5, 2, "ab\nx\nbc", 2},
    {"(a|b)*c{2,30}[[:digit:]]+x?", GAXTREL_EXTENDED, true, "zzABcc77", 1, 2, 8, 1, "\nABcc7\n", 1},
    {"needle", GAXTREL_FIXED, false, "a needle here", 1, 2, 8, 1, "needles\nneedl\n", 1},
    {"needle\nthread\ncloth\nscissors\nbutton\nzipper\nseam", GAXTREL_FIXED, false, "a thread", 1, 2, 8, 1,
     "x\nseam\nclot", 1},
    {"needle|thread|cloth|scissors|button|zipper|seam", GAXTREL_EXTENDED, false, "a thread", 1, 2, 8, 1,
     "x\nseam\nclot", 1},
    {"\\(ab\\)*\\{2,4\\}", GAXTREL_BASIC, false, "ababab", 1, 0, 6, 1, "a\nb", 2},
    {"a\na*[bc]", GAXTREL_EXTENDED, false, "aaaaaaaaaaaaaaaaaaaaaaaaaaaaaaaa", 1, 0, 1, 32, "a\n\nb\n", 2},
    {"foo[0-9]*\nba+r\nqu+x\n", GAXTREL_EXTENDED, false, "a quuux", 1, 2, 7, 1, "fo\nfoo\nbr\nbaaar", 2},
    {"(a*)*b", GAXTREL_EXTENDED, false, "aaaaaaaaaaaaaaaaaaaaaaaac", 0, 0, 0, 0, "", 0},
};

/* In how many cases of a call for all parts memory was refused. */
static long refused_parts = 0;

static int has_parts(gaxtrel_matcher *m, size_t k) {
    const uint8_t *line = (const uint8_t *)cases[k].line;
    size_t length = strlen(cases[k].line), count = 77;
    gaxtrel_part parts[3] = {{90, 91}, {90, 91}, {90, 91}};
    uint32_t status = gaxtrel_parts(m, line, length, 0, parts, 3, &count);
    if (status == GAXTREL_NO_MEMORY) {
        refused_parts++;
        if (count != 77 || m->work.built + m->work.reused + m->work.passed != 0) return 4;
        for (size_t i = 0; i < 3; i++)
            if (parts[i].start != 90 || parts[i].end != 91) return 4;
        status = gaxtrel_parts(m, line, length, 0, parts, 3, &count);
    }
    if (status != cases[k].matched || count != cases[k].parts) return 5;
    return count && (parts[0].start != cases[k].start || parts[0].end != cases[k].end) ? 6 : 0;
}

static int answers(gaxtrel_matcher *m, size_t k) {
    const uint8_t *line = (const uint8_t *)cases[k].line, *text = (const uint8_t *)cases[k].text;
    size_t length = strlen(cases[k].line), size = strlen(cases[k].text), at = 0;
    size_t number, count;
    gaxtrel_part part;
    gaxtrel_line found;
    uint64_t lines, n = 0;
    if (gaxtrel_is_match(m, line, length) != cases[k].matched) return 1;
    if (gaxtrel_find(m, line, length, 0, &part) != cases[k].matched) return 2;
    if (cases[k].matched && (part.start != cases[k].start || part.end != cases[k].end)) return 3;
    uint32_t which = gaxtrel_which(m, line, length, &number, 1, &count);
    if (which != cases[k].matched && which != GAXTREL_JOINED) return 11;
    int wrong = has_parts(m, k);
    if (wrong) return wrong;
    if (gaxtrel_count_lines(m, text, size, &lines) > 1 || lines != cases[k].lines) return 7;
    for (; gaxtrel_next_line(m, text, size, at, &part) == GAXTREL_YES; at = part.end + 1) n++;
    if (gaxtrel_lines(m, text, size, 0, 1, &found, 1, &count) != (lines > 0)) return 12;
    return n == lines ? 0 : 8;
}

int main(void) {
    long runs = 0, refused = 0;
    for (size_t run = 0; run < 2 * (sizeof cases / sizeof *cases); run++) {
        size_t k = run / 2;
        for (long n = 0;; n++) {
            gaxtrel_matcher m = GAXTREL_NONE;
            gaxtrel_fault fault;
            const uint8_t *patterns = (const uint8_t *)cases[k].patterns;
            size_t length = strlen(cases[k].patterns);
            left = n;
            uint32_t (*compile)(gaxtrel_matcher *, const uint8_t *, size_t, uint32_t, bool, bool, gaxtrel_fault *) =
                run % 2 ? gaxtrel_compile_each : strchr(cases[k].patterns, '\n') ? gaxtrel_compile_lines : gaxtrel_compile;
            uint32_t status = compile(&m, patterns, length, cases[k].syntax, cases[k].fold, false, &fault);
            int wrong = 0;
            if (status == GAXTREL_OK) {
                for (int again = 0; again < 3 && !wrong; again++) wrong = answers(&m, k);
            } else if (status != GAXTREL_NO_MEMORY) {
                wrong = 9;
            } else {
                refused++;
                if (gaxtrel_is_match(&m, patterns, length) != GAXTREL_MISUSED) wrong = 10;
            }
            bool reached = left < 0;
            left = -1;
            gaxtrel_free(&m);
            runs++;
            if (wrong) {
                printf("case %zu, allocation %ld: check %d\n", k, n, wrong);
                return 1;
            }
            if (live != 0) {
                printf("case %zu, allocation %ld: %ld blocks left\n", k, n, live);
                return 2;
            }
            if (!reached) break;
        }
    }
    printf("%ld runs, %ld of them refused, %ld times all parts\n", runs, refused, refused_parts);
    return refused_parts == 0;
}
