/* Calls each function. Says the number of the first check that fails, if one does. */
#include "gaxtrel.h"
#include <stdio.h>
#include <stdlib.h>
#include <string.h>

#define P(s) (const uint8_t *)(s), sizeof(s) - 1
#define CHECK(n, holds)                                                                                                \
    do {                                                                                                               \
        if (!(holds)) {                                                                                                \
            printf("check %d\n", n);                                                                                   \
            return n;                                                                                                  \
        }                                                                                                              \
    } while (0)

static uint64_t steps(const gaxtrel_matcher *m) { return m->work.built + m->work.reused; }

/* What an answer that rests on bytes took is shown: contracts have its upper bound alone. */
static bool took(const gaxtrel_matcher *m) { return steps(m) + m->work.passed > 0; }

/* An answer, and that 'no' took each byte. */
static bool answered(const gaxtrel_matcher *m, uint32_t answer, size_t bytes) {
    return answer == GAXTREL_YES || (answer == GAXTREL_NO && steps(m) + m->work.passed >= bytes);
}

/* One pattern. */
static int one(void) {
    gaxtrel_matcher m = GAXTREL_NONE;
    gaxtrel_fault fault = {0, 0, 7};
    gaxtrel_part part = {9, 9};
    CHECK(1, gaxtrel_is_match(&m, P("x")) == GAXTREL_MISUSED);
    CHECK(23, gaxtrel_version() == GAXTREL_VERSION_NUMBER);
    CHECK(2, gaxtrel_compile(&m, P("ab|abcd|bc"), GAXTREL_EXTENDED, false, false, &fault) == GAXTREL_OK);
    CHECK(3, gaxtrel_is_match(&m, P("xabcde")) == GAXTREL_YES && steps(&m) <= 7 && m.work.passed <= 7);
    CHECK(4, took(&m) && gaxtrel_is_match(&m, P("xacde")) == GAXTREL_NO && took(&m));
    CHECK(5, gaxtrel_find(&m, P("xabcdebc"), 0, &part) == 1 && part.start == 1 && part.end == 5 && took(&m));
    CHECK(6, gaxtrel_find(&m, P("xabcdebc"), part.end, &part) == 1 && part.start == 6 && part.end == 8);
    CHECK(7, gaxtrel_find(&m, P("xabcdebc"), 8, &part) == GAXTREL_NO && part.start == 6);
    CHECK(8, gaxtrel_find(&m, P("xabcdebc"), 9, &part) == GAXTREL_NO);
    CHECK(9, gaxtrel_find(&m, P("xabcdebc"), SIZE_MAX, &part) == GAXTREL_NO && steps(&m) == 0);
    CHECK(10, fault.pattern == 7);
    /* over a matcher that is held */
    CHECK(11, gaxtrel_compile(&m, P("\\(a\\)\\1"), GAXTREL_BASIC, false, false, &fault) == GAXTREL_REFUSED);
    CHECK(12, fault.kind == GAXTREL_BACK_REFERENCE && fault.at == 5 && fault.pattern == 0);
    CHECK(21, !strcmp(gaxtrel_kind_name(fault.kind), "BackReference") && !strcmp(gaxtrel_kind_name(16), "Unknown"));
    CHECK(22, !strcmp(gaxtrel_kind_name(GAXTREL_TOO_MANY_PATTERNS), "TooManyPatterns") && *gaxtrel_kind_name(0) == 'U');
    CHECK(13, gaxtrel_is_match(&m, P("aa")) == GAXTREL_MISUSED);
    CHECK(14, gaxtrel_compile(&m, P("a"), 7, false, false, &fault) == GAXTREL_NO_SYNTAX);
    CHECK(15, gaxtrel_compile(&m, P("A.b"), GAXTREL_FIXED, true, true, &fault) == GAXTREL_OK);
    CHECK(16, gaxtrel_is_match(&m, P("a.B")) == 1 && gaxtrel_is_match(&m, P("a.Bc")) == 0);
    CHECK(17, gaxtrel_compile(&m, P(""), GAXTREL_EXTENDED, false, true, &fault) == GAXTREL_OK);
    CHECK(18, gaxtrel_is_match(&m, P("")) == 1 && gaxtrel_is_match(&m, P("a")) == 0);
    gaxtrel_matcher moved = m;
    CHECK(19, gaxtrel_is_match(&moved, P("")) == 1 && gaxtrel_is_match(&moved, P("a")) == 0);
    gaxtrel_free(&moved);
    gaxtrel_free(&moved);
    CHECK(20, gaxtrel_is_match(&moved, P("x")) == GAXTREL_MISUSED);
    return 0;
}

/* Several patterns. */
static int several(void) {
    gaxtrel_matcher m = GAXTREL_NONE;
    gaxtrel_fault fault = {0, 0, 0};
    gaxtrel_part part;
    CHECK(30, gaxtrel_compile_lines(&m, P("error\nwarn(ing)?\n[0-9]+x\n"), GAXTREL_EXTENDED, true, false, &fault) ==
                  GAXTREL_OK);
    CHECK(31, gaxtrel_is_match(&m, P("a Warning")) == 1 && gaxtrel_is_match(&m, P("12x")) == 1);
    CHECK(32, gaxtrel_is_match(&m, P("12 x")) == 0 && steps(&m) <= 3 * 5);
    CHECK(33, gaxtrel_find(&m, P("warn 7x ERROR"), 1, &part) == 1 && part.start == 5 && part.end == 7);
    CHECK(34,
          gaxtrel_compile_lines(&m, P("a\nb\n[c\n(d\n"), GAXTREL_EXTENDED, false, false, &fault) == GAXTREL_REFUSED);
    CHECK(35, fault.pattern == 2 && fault.kind == GAXTREL_UNCLOSED_BRACKET && fault.at == 0);
    CHECK(36, gaxtrel_is_match(&m, P("a")) == GAXTREL_MISUSED);
    /* no pattern, and one that is empty */
    CHECK(37, gaxtrel_compile_lines(&m, P(""), GAXTREL_EXTENDED, false, false, &fault) == GAXTREL_OK);
    CHECK(38, gaxtrel_is_match(&m, P("a")) == GAXTREL_NO);
    CHECK(39, gaxtrel_compile_lines(&m, P("\n"), GAXTREL_EXTENDED, false, false, &fault) == GAXTREL_OK);
    CHECK(40, gaxtrel_is_match(&m, P("a")) == GAXTREL_YES);
    gaxtrel_free(&m);
    return 0;
}

/* As many patterns as are allowed, and one more. */
static int most_patterns(void) {
    enum { MOST = 65535 };
    static uint8_t text[2 * (MOST + 1)];
    gaxtrel_matcher m = GAXTREL_NONE;
    gaxtrel_fault fault = {0, 7, 0};
    for (size_t k = 0; k < sizeof text; k += 2) {
        text[k] = '(';
        text[k + 1] = '\n';
    }
    CHECK(41, gaxtrel_compile_lines(&m, text, 2 * MOST, GAXTREL_BASIC, false, false, &fault) == GAXTREL_OK);
    CHECK(42, gaxtrel_is_match(&m, P("a(b")) == GAXTREL_YES);
    /* whatever the patterns are: each is refused as an extended expression, too */
    for (uint32_t syntax = GAXTREL_BASIC; syntax <= GAXTREL_FIXED; syntax++) {
        CHECK(43, gaxtrel_compile_lines(&m, text, sizeof text, syntax, false, false, &fault) == GAXTREL_REFUSED);
        CHECK(44, fault.kind == GAXTREL_TOO_MANY_PATTERNS && fault.at == 0 && fault.pattern == MOST);
        CHECK(45, gaxtrel_is_match(&m, P("a(b")) == GAXTREL_MISUSED);
        CHECK(49, gaxtrel_compile_each(&m, text, sizeof text, syntax, false, false, &fault) == GAXTREL_REFUSED);
    }
    CHECK(46, gaxtrel_compile_lines(&m, text, sizeof text, 7, false, false, &fault) == GAXTREL_NO_SYNTAX);
    CHECK(47, gaxtrel_compile_lines(&m, text, 2 * MOST, GAXTREL_EXTENDED, false, false, &fault) == GAXTREL_REFUSED);
    CHECK(48, fault.kind == GAXTREL_UNCLOSED_GROUP && fault.pattern == 0);
    return 0;
}

/* Which of several patterns match a line. */
static int which(void) {
    gaxtrel_matcher m = GAXTREL_NONE;
    gaxtrel_fault fault;
    size_t numbers[4] = {90, 90, 90, 90}, count = 77;
    CHECK(100, gaxtrel_which(&m, P("x"), numbers, 4, &count) == GAXTREL_MISUSED && count == 77);
    CHECK(101, gaxtrel_compile_each(&m, P("ab\n^x\nb$\n[0-9]"), GAXTREL_EXTENDED, false, false, &fault) == GAXTREL_OK);
    CHECK(102, gaxtrel_which(&m, P("xab"), numbers, 4, &count) == GAXTREL_YES && count == 3 && took(&m));
    CHECK(103, numbers[0] == 0 && numbers[1] == 1 && numbers[2] == 2 && numbers[3] == 90);
    CHECK(104, steps(&m) <= 4 * 4 && m.work.passed <= 4 * 4);
    CHECK(105, gaxtrel_which(&m, P("7b"), numbers, 1, &count) == GAXTREL_YES && count == 2);
    CHECK(106, numbers[0] == 2 && numbers[1] == 1);
    CHECK(107, gaxtrel_which(&m, P("z"), numbers, 4, &count) == GAXTREL_NO && count == 0 && numbers[0] == 2);
    CHECK(108, gaxtrel_which(&m, P("x"), numbers, 0, &count) == GAXTREL_YES && count == 1 && numbers[0] == 2);
    /* other calls ask all of them */
    CHECK(109, gaxtrel_is_match(&m, P("xz")) == GAXTREL_YES && gaxtrel_is_match(&m, P("z")) == GAXTREL_NO);
    CHECK(110, gaxtrel_which(&m, P("ab 1"), numbers, 4, &count) == GAXTREL_YES && count == 2);
    CHECK(111, numbers[0] == 0 && numbers[1] == 3);
    /* one pattern is apart, joined ones are not */
    CHECK(112, gaxtrel_compile(&m, P("b"), GAXTREL_EXTENDED, false, false, &fault) == GAXTREL_OK);
    CHECK(113, gaxtrel_which(&m, P("ab"), numbers, 4, &count) == GAXTREL_YES && count == 1 && numbers[0] == 0);
    CHECK(114, gaxtrel_compile_lines(&m, P("a\nb"), GAXTREL_EXTENDED, false, false, &fault) == GAXTREL_OK);
    CHECK(115, gaxtrel_which(&m, P("ab"), numbers + 1, 3, &count) == GAXTREL_JOINED && count == 1 && numbers[1] == 3);
    CHECK(116, steps(&m) + m.work.passed == 0 && gaxtrel_is_match(&m, P("ab")) == GAXTREL_YES);
    CHECK(117, gaxtrel_compile_each(&m, P("a\n(b"), GAXTREL_EXTENDED, false, false, &fault) == GAXTREL_REFUSED);
    CHECK(118, fault.pattern == 1 && fault.kind == GAXTREL_UNCLOSED_GROUP && fault.at == 0);
    CHECK(119, gaxtrel_which(&m, P("a"), numbers, 4, &count) == GAXTREL_MISUSED);
    CHECK(120, gaxtrel_compile_each(&m, P(""), GAXTREL_EXTENDED, false, false, &fault) == GAXTREL_OK);
    CHECK(121, gaxtrel_which(&m, P("a"), numbers, 4, &count) == GAXTREL_NO && count == 0);
    gaxtrel_free(&m);
    return 0;
}

/* All parts of a line at once. */
static int parts(void) {
    gaxtrel_matcher m = GAXTREL_NONE;
    gaxtrel_fault fault;
    gaxtrel_part found[4] = {{90, 91}, {90, 91}, {90, 91}, {90, 91}};
    size_t count = 77;
    CHECK(50, gaxtrel_parts(&m, P("x"), 0, found, 4, &count) == GAXTREL_MISUSED && count == 77);
    CHECK(51, gaxtrel_compile(&m, P("a|ab+"), GAXTREL_EXTENDED, false, false, &fault) == GAXTREL_OK);
    CHECK(52, gaxtrel_parts(&m, P("abba ab"), 0, found, 4, &count) == GAXTREL_YES && count == 3 && took(&m));
    CHECK(53, found[0].start == 0 && found[0].end == 3 && found[1].start == 3 && found[1].end == 4);
    CHECK(54, found[2].start == 5 && found[2].end == 7 && found[3].start == 90 && found[3].end == 91);
    CHECK(55, gaxtrel_parts(&m, P("abba ab"), 1, found, 1, &count) == GAXTREL_YES && count == 2);
    CHECK(56, found[0].start == 3 && found[0].end == 4 && found[1].start == 3 && found[1].end == 4);
    CHECK(57, gaxtrel_parts(&m, P("abba ab"), 0, found, 0, &count) == GAXTREL_YES && count == 3);
    CHECK(58, gaxtrel_parts(&m, P("abba ab"), 7, found, 4, &count) == GAXTREL_NO && count == 0);
    CHECK(59, gaxtrel_parts(&m, P("abba ab"), 8, found, 4, &count) == GAXTREL_NO && count == 0);
    /* each search for a part alone goes on to the line's end */
    static uint8_t line[100000];
    memset(line, 'a', sizeof line);
    CHECK(60, gaxtrel_compile(&m, P("a|a*[bc]"), GAXTREL_EXTENDED, false, false, &fault) == GAXTREL_OK);
    CHECK(61, gaxtrel_parts(&m, line, sizeof line, 0, found, 4, &count) == GAXTREL_YES && count == sizeof line);
    CHECK(62, steps(&m) <= sizeof line + 1 && m.work.passed <= sizeof line + 1);
    CHECK(63, found[3].start == 3 && found[3].end == 4);
    CHECK(64, gaxtrel_compile_lines(&m, P("a\na*[bc]"), GAXTREL_EXTENDED, false, false, &fault) == GAXTREL_OK);
    CHECK(65, gaxtrel_parts(&m, line, sizeof line, 1, found, 4, &count) == GAXTREL_YES && count == sizeof line - 1);
    CHECK(66, steps(&m) <= 2 * (sizeof line + 1) && m.work.passed <= 2 * (sizeof line + 1));
    CHECK(67, gaxtrel_parts(&m, line, sizeof line, SIZE_MAX, found, 4, &count) == GAXTREL_NO && steps(&m) == 0);
    gaxtrel_free(&m);
    return 0;
}

/* The lines of a text. */
static int lines(void) {
    gaxtrel_matcher m = GAXTREL_NONE;
    gaxtrel_fault fault;
    gaxtrel_part line = {9, 9};
    uint64_t count = 7;
    CHECK(70, gaxtrel_next_line(&m, P("x"), 0, &line) == GAXTREL_MISUSED && line.start == 9);
    CHECK(71, gaxtrel_count_lines(&m, P("x"), &count) == GAXTREL_MISUSED && count == 7);
    CHECK(72, gaxtrel_compile_lines(&m, P("^a\nz$"), GAXTREL_BASIC, false, false, &fault) == GAXTREL_OK);
    static const uint8_t text[] = "xa\nab\n\nxyz\nzx\nbz";
    static const gaxtrel_part wanted[] = {{3, 5}, {7, 10}, {14, 16}};
    size_t n = 0, at = 0;
    uint64_t taken = 0;
    for (; gaxtrel_next_line(&m, text, sizeof text - 1, at, &line) == GAXTREL_YES; at = line.end + 1) {
        CHECK(73, n < 3 && line.start == wanted[n].start && line.end == wanted[n].end && took(&m));
        CHECK(74, steps(&m) <= 2 * (line.end + 1 - at) && m.work.passed <= 2 * (line.end + 1 - at));
        taken += steps(&m);
        n++;
    }
    CHECK(75, n == 3 && at == 17 && taken <= 2 * 17);
    CHECK(76, gaxtrel_count_lines(&m, text, sizeof text - 1, &count) == GAXTREL_YES && count == 3 && took(&m));
    CHECK(77, gaxtrel_count_lines(&m, text, sizeof text - 2, &count) == GAXTREL_YES && count == 2);
    CHECK(78, gaxtrel_count_lines(&m, text, 3, &count) == GAXTREL_NO && count == 0);
    CHECK(79, gaxtrel_next_line(&m, text, 3, SIZE_MAX, &line) == GAXTREL_NO);
    CHECK(80, gaxtrel_next_line(&m, text, 0, 0, &line) == GAXTREL_NO);
    gaxtrel_free(&m);
    return 0;
}

/* The lines of a text at once, with their numbers. */
static int numbered_lines(void) {
    gaxtrel_matcher m = GAXTREL_NONE;
    gaxtrel_fault fault;
    gaxtrel_line found[4] = {{90, 91, 92}, {90, 91, 92}, {90, 91, 92}, {90, 91, 92}};
    size_t count = 77;
    static const uint8_t text[] = "xa\nab\n\nxyz\nzx\nbz";
    CHECK(130, gaxtrel_lines(&m, P("x"), 0, 1, found, 4, &count) == GAXTREL_MISUSED && count == 77);
    CHECK(131, gaxtrel_compile_lines(&m, P("^a\nz$"), GAXTREL_BASIC, false, false, &fault) == GAXTREL_OK);
    CHECK(132, gaxtrel_lines(&m, text, sizeof text - 1, 0, 1, found, 4, &count) == GAXTREL_YES && count == 3);
    CHECK(133, found[0].start == 3 && found[0].end == 5 && found[0].number == 2);
    CHECK(134, found[1].start == 7 && found[1].end == 10 && found[1].number == 4);
    CHECK(135, found[2].start == 14 && found[2].end == 16 && found[2].number == 6 && found[3].start == 90);
    CHECK(136, steps(&m) <= 2 * 17 && m.work.passed <= 2 * 17);
    /* as far as there is room, and on from there */
    CHECK(137, gaxtrel_lines(&m, text, sizeof text - 1, 0, 1, found, 1, &count) == GAXTREL_YES && count == 1);
    CHECK(138, found[0].start == 3 && found[1].start == 7 && steps(&m) <= 2 * 6 && m.work.passed <= 2 * 6);
    CHECK(139, gaxtrel_lines(&m, text, sizeof text - 1, 6, 3, found + 1, 1, &count) == GAXTREL_YES && count == 1);
    CHECK(140, found[1].start == 7 && found[1].number == 4 && steps(&m) <= 2 * 5 && m.work.passed <= 2 * 5);
    CHECK(141, gaxtrel_lines(&m, text, sizeof text - 1, 11, UINT64_MAX, found, 4, &count) == GAXTREL_YES && count == 1);
    CHECK(142, found[0].start == 14 && found[0].end == 16 && found[0].number == UINT64_MAX && found[1].start == 7);
    CHECK(143, gaxtrel_lines(&m, text, sizeof text - 1, 17, 7, found, 4, &count) == GAXTREL_NO && count == 0);
    CHECK(144, gaxtrel_lines(&m, text, sizeof text - 1, SIZE_MAX, 7, found, 4, &count) == GAXTREL_NO && count == 0);
    CHECK(145, gaxtrel_lines(&m, text, sizeof text - 1, 0, 1, found, 0, &count) == GAXTREL_NO && count == 0);
    CHECK(146, steps(&m) + m.work.passed == 0 && found[0].start == 14);
    /* each line is matched, and empty */
    CHECK(147, gaxtrel_compile(&m, P(""), GAXTREL_BASIC, false, false, &fault) == GAXTREL_OK);
    CHECK(148, gaxtrel_lines(&m, P("\n\na"), 0, 1, found, 4, &count) == GAXTREL_YES && count == 3);
    CHECK(149, found[0].end == 0 && found[1].start == 1 && found[1].number == 2 && found[2].start == 2);
    CHECK(150, found[2].end == 3 && found[2].number == 3 && found[3].start == 90);
    gaxtrel_free(&m);
    return 0;
}

/* Calls that may take so much work: two patterns, or one. */
static int limits(void) {
    gaxtrel_matcher m = GAXTREL_NONE;
    gaxtrel_fault fault;
    gaxtrel_part part = {9, 9};
    gaxtrel_line found[2] = {{90, 91, 92}, {90, 91, 92}};
    size_t count = 77, number = 9;
    uint64_t lines = 7;
    static const uint8_t text[] = "xa\nab\n\nxyz\nzx\nbz";
    CHECK(160, gaxtrel_limit(&m, 9) == GAXTREL_MISUSED);
    CHECK(161, gaxtrel_compile_each(&m, P("^a\nz$"), GAXTREL_BASIC, false, false, &fault) == GAXTREL_OK);
    CHECK(162, gaxtrel_is_match(&m, P("abc")) == GAXTREL_YES && gaxtrel_limit(&m, 8) == GAXTREL_OK && !took(&m));
    /* a line of three bytes, and one of four */
    CHECK(163, gaxtrel_is_match(&m, P("abc")) == GAXTREL_YES && gaxtrel_is_match(&m, P("xyx")) == GAXTREL_NO);
    CHECK(164, steps(&m) <= 8 && m.work.passed <= 8);
    CHECK(165, gaxtrel_is_match(&m, P("abcd")) == GAXTREL_STOPPED && !took(&m));
    CHECK(166, gaxtrel_find(&m, P("abcd"), 0, &part) == GAXTREL_STOPPED && part.start == 9);
    CHECK(167, gaxtrel_parts(&m, P("abcd"), 0, &part, 1, &count) == GAXTREL_STOPPED && count == 77 && part.start == 9);
    CHECK(168, gaxtrel_which(&m, P("abcd"), &number, 1, &count) == GAXTREL_STOPPED && count == 77 && number == 9);
    CHECK(169, gaxtrel_parts(&m, P("azz"), 0, &part, 1, &count) == GAXTREL_YES && count == 2 && part.end == 1);
    CHECK(170, gaxtrel_limit(&m, 1) == GAXTREL_OK && gaxtrel_is_match(&m, P("")) == GAXTREL_NO);
    CHECK(171, gaxtrel_is_match(&m, P("a")) == GAXTREL_STOPPED);
    /* all bytes of a text, and one less; a line's newline, and one less; no byte */
    CHECK(172, !gaxtrel_limit(&m, 34) && gaxtrel_count_lines(&m, text, 16, &lines) == GAXTREL_YES && lines == 3);
    CHECK(173, !gaxtrel_limit(&m, 33) && gaxtrel_count_lines(&m, text, 16, &lines) == GAXTREL_STOPPED && lines == 2);
    CHECK(174, !gaxtrel_limit(&m, 14) && gaxtrel_count_lines(&m, text, 16, &lines) == GAXTREL_STOPPED && lines == 1);
    CHECK(175, steps(&m) <= 14 && m.work.passed <= 14);
    CHECK(176, !gaxtrel_limit(&m, 13) && gaxtrel_count_lines(&m, text, 16, &lines) == GAXTREL_STOPPED && lines == 0);
    CHECK(177, !gaxtrel_limit(&m, 1) && gaxtrel_count_lines(&m, text, 16, &lines) == GAXTREL_STOPPED && !took(&m));
    CHECK(178, !gaxtrel_limit(&m, 12) && gaxtrel_next_line(&m, text, 16, 6, &part) == GAXTREL_YES && part.end == 10);
    CHECK(179, !gaxtrel_limit(&m, 11) && gaxtrel_next_line(&m, text, 16, 6, &part) == GAXTREL_STOPPED);
    CHECK(180, part.end == 10 && gaxtrel_next_line(&m, text, 16, 16, &part) == GAXTREL_NO);
    CHECK(181, !gaxtrel_limit(&m, 14) && gaxtrel_lines(&m, text, 16, 0, 1, found, 2, &count) == GAXTREL_STOPPED);
    CHECK(182, count == 1 && found[0].start == 3 && found[0].number == 2 && found[1].start == 90);
    CHECK(183, gaxtrel_lines(&m, text, 16, 0, 1, found, 1, &count) == GAXTREL_YES && count == 1);
    CHECK(184, !gaxtrel_limit(&m, 0) && gaxtrel_count_lines(&m, text, 16, &lines) == GAXTREL_YES && lines == 3);
    gaxtrel_free(&m);
    return 0;
}

/* Matchers by options. */
static int options(void) {
    gaxtrel_matcher m = GAXTREL_NONE;
    gaxtrel_fault fault = {0, 7, 7};
    gaxtrel_options o = GAXTREL_OPTIONS;
    size_t numbers[2], count;
    CHECK(190, gaxtrel_compile_with(&m, P("a+"), &o, &fault) == GAXTREL_OK && gaxtrel_is_match(&m, P("xa")) == 1);
    o.size--;
    CHECK(191, gaxtrel_compile_with(&m, P("a+"), &o, &fault) == GAXTREL_MISUSED);
    CHECK(192, gaxtrel_is_match(&m, P("xa")) == GAXTREL_MISUSED && fault.pattern == 7);
    o.size++, o.patterns = 65536;
    CHECK(193, gaxtrel_compile_with(&m, P("a+"), &o, &fault) == GAXTREL_MISUSED);
    o.patterns = 2, o.syntax = 3;
    CHECK(194, gaxtrel_compile_with(&m, P("a+"), &o, &fault) == GAXTREL_MISUSED);
    o.syntax = GAXTREL_BASIC, o.lines = o.apart = o.fold = o.whole = true, o.limit = 8;
    CHECK(195, gaxtrel_compile_with(&m, P("a.c\nab\n"), &o, &fault) == GAXTREL_OK);
    CHECK(196, gaxtrel_which(&m, P("ABC"), numbers, 2, &count) == GAXTREL_YES && count == 1 && numbers[0] == 0);
    CHECK(197, gaxtrel_is_match(&m, P("abca")) == GAXTREL_STOPPED && gaxtrel_is_match(&m, P("b")) == GAXTREL_NO);
    CHECK(198, gaxtrel_compile_with(&m, P("a\n\\(\nb"), &o, &fault) == GAXTREL_REFUSED);
    CHECK(199, fault.kind == GAXTREL_TOO_MANY_PATTERNS && fault.at == 0 && fault.pattern == 2);
    CHECK(200, gaxtrel_compile_with(&m, P("a\n\\("), &o, &fault) == GAXTREL_REFUSED && fault.pattern == 1);
    CHECK(201, fault.kind == GAXTREL_UNCLOSED_GROUP && gaxtrel_is_match(&m, P("a")) == GAXTREL_MISUSED);
    o.apart = false;
    CHECK(202, gaxtrel_compile_with(&m, P("a.c\nab"), &o, &fault) == GAXTREL_OK);
    CHECK(203, gaxtrel_which(&m, P("abc"), numbers, 2, &count) == GAXTREL_JOINED);
    o.lines = false, o.patterns = 0;
    CHECK(204, gaxtrel_compile_with(&m, P("a"), &o, &fault) == GAXTREL_REFUSED && fault.pattern == 0);
    CHECK(205, fault.kind == GAXTREL_TOO_MANY_PATTERNS);
    return 0;
}

/* Patterns that take others time beyond the line: no more than a step a byte and one more. */
static int hostile(void) {
    static const char *const patterns[] = {
        "(a*)*[bc]",      "(a|aa)*[bc]",           "^(a|b)*a(a|b){20}[cd]$", "(a{1,30}){1,30}[bc]",
        "(a?){50}a{50}b", "(.*)(.*)(.*)(.*)[bc]$", "(((((a*)*)*)*)*)*[^a]",   "(a{250}){16}[b-d]|(a{25}){2}x",
        "a|a*[bc]"};
    static uint8_t line[5000];
    for (size_t i = 0; i < sizeof line; i++) line[i] = "aaaaaaab"[i * i % 8];
    for (size_t k = 0; k < sizeof patterns / sizeof *patterns; k++) {
        gaxtrel_matcher m = GAXTREL_NONE;
        gaxtrel_fault fault;
        gaxtrel_part part;
        size_t count;
        CHECK(90, gaxtrel_compile(&m, (const uint8_t *)patterns[k], strlen(patterns[k]), GAXTREL_EXTENDED, false, false,
                                  &fault) == GAXTREL_OK);
        for (size_t size = 0; size <= sizeof line; size = 2 * size + 13) {
            CHECK(91, answered(&m, gaxtrel_is_match(&m, line, size), size));
            CHECK(92, steps(&m) <= size + 1 && m.work.passed <= size + 1);
            CHECK(93, answered(&m, gaxtrel_find(&m, line, size, 0, &part), size));
            CHECK(94, steps(&m) <= size + 1 && m.work.passed <= size + 1);
            CHECK(95, answered(&m, gaxtrel_parts(&m, line, size, 0, &part, 1, &count), size));
            CHECK(96, steps(&m) <= size + 1 && m.work.passed <= size + 1);
        }
        gaxtrel_free(&m);
    }
    return 0;
}

int main(void) {
    int failed = one();
    if (!failed) failed = several();
    if (!failed) failed = most_patterns();
    if (!failed) failed = which();
    if (!failed) failed = parts();
    if (!failed) failed = lines();
    if (!failed) failed = numbered_lines();
    if (!failed) failed = limits();
    if (!failed) failed = options();
    if (!failed) failed = hostile();
    if (!failed) puts("each call answers as it has to");
    return failed;
}
