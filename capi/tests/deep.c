/* Patterns of 256 levels, and of more, in matchers and sessions, on threads: each answer is right, and no call takes
   more KB of stack than the argument says. The stack of a thread is painted first, and the paint that is left is
   counted. Then a thread makes the same calls that has so much stack and the least of a system. */
#include "gaxtrel.h"
#include <limits.h>
#include <pthread.h>
#include <stdio.h>
#include <stdlib.h>
#include <string.h>

enum { PAINT = 0x5a, ERE = GAXTREL_EXTENDED, BRE = GAXTREL_BASIC };

/* A pattern: `before` at each level, `a`, and `after` at each level. It matches the line of `head`, `yes` times `B`, and
   `tail`, and not the one with `no` times `B`. */
struct deep {
    uint32_t syntax;
    size_t levels;
    const char *before, *after, *head, *tail;
    size_t yes, no;
};

static const struct deep patterns[] = {
    {ERE, 256, "(", ")", "A", "", 0, 1},
    {ERE, 256, "(", "b|c)", "C", "", 255, 256},
    {ERE, 256, "(b", "|c)", "", "C", 255, 256},
    {ERE, 128, "(", ")*", "A", "", 0, 1},
    {ERE, 128, "(", "b|c)*", "A", "", 128, 127},
    {ERE, 128, "(", "b)+", "A", "", 128, 127},
    {ERE, 256, "", "*", "A", "", 0, 1},
    {ERE, 256, "", "{0,1}", "A", "", 0, 1},
    {ERE, 257, "(", ")", "", "", 0, 0},
    {ERE, 5000, "(", ")", "", "", 0, 0},
    {BRE, 256, "\\(", "\\)", "A", "", 0, 1},
    {BRE, 256, "\\(", "b\\|c\\)", "C", "", 255, 256},
    {BRE, 256, "\\(b", "\\|c\\)", "", "C", 255, 256},
    {BRE, 128, "\\(", "b\\|c\\)*", "A", "", 128, 127},
    {BRE, 256, "", "*", "A", "", 0, 1},
    {BRE, 257, "", "*", "", "", 0, 0},
};

static _Alignas(4096) uint8_t stack[1 << 20];
static uint8_t pattern[1 << 15], text[1 << 10], commands[1 << 16];

static size_t append(uint8_t *bytes, size_t at, const char *word, size_t times) {
    for (size_t i = 0; i < times; i++, at += strlen(word)) memcpy(bytes + at, word, strlen(word));
    return at;
}

static size_t append_pattern(const struct deep *it, size_t at) {
    at = append(pattern, append(pattern, at, it->before, it->levels), "a", 1);
    return append(pattern, at, it->after, it->levels);
}

/* Commands by which a session finds the pattern's line. */
static size_t append_commands(const struct deep *it, size_t length, size_t first) {
    size_t at = append(commands, 0, it->syntax == ERE ? "syntax extended\n" : "syntax basic\n", 1);
    at = append(commands, at, "flag i on\nflag x on\npatterns 1\n", 1);
    memcpy(commands + at, pattern, length);
    at = append(commands, at + length, "\nfile f 1\n", 1);
    memcpy(commands + at, text, first);
    return append(commands, at + first, "\nchanges\n", 1);
}

static size_t append_line(const struct deep *it, size_t at, size_t times) {
    return append(text, append(text, append(text, at, it->head, 1), "B", times), it->tail, 1);
}

/* Each function on the pattern, as a whole line and as a list of it twice. */
static bool is_right(const struct deep *it) {
    gaxtrel_matcher m = GAXTREL_NONE;
    gaxtrel_fault fault = {0, 0, 0};
    gaxtrel_part line = {9, 9}, part = {9, 9};
    uint64_t lines = 0;
    size_t parts = 0;
    size_t first = append_line(it, 0, it->yes), next = append(text, first, "\n", 1), end = append_line(it, next, it->no);
    size_t length = append_pattern(it, 0), both = append_pattern(it, append(pattern, length, "\n", 1));
    uint32_t status = gaxtrel_compile(&m, pattern, length, it->syntax, true, true, &fault);
    if (it->levels > 256) return status == GAXTREL_REFUSED && fault.kind == GAXTREL_TOO_DEEP;
    bool right = status == GAXTREL_OK && gaxtrel_is_match(&m, text, first) == GAXTREL_YES &&
                 gaxtrel_is_match(&m, text + next, end - next) == GAXTREL_NO &&
                 gaxtrel_next_line(&m, text, end, 0, &line) == GAXTREL_YES && line.start == 0 && line.end == first &&
                 gaxtrel_count_lines(&m, text, end, &lines) == GAXTREL_YES && lines == 1 &&
                 gaxtrel_compile_lines(&m, pattern, both, it->syntax, true, false, &fault) == GAXTREL_OK &&
                 gaxtrel_find(&m, text, first, 0, &part) == GAXTREL_YES && part.start == 0 && part.end == first &&
                 gaxtrel_parts(&m, text, first, 0, &part, 1, &parts) == GAXTREL_YES && parts == 1 && part.end == first;
    gaxtrel_free(&m);
    return right;
}

/* A session that finds the pattern's line, or refuses the pattern. */
static bool is_right_in_a_session(const struct deep *it) {
    static const char found[] = "ok\nok\nok\nok\nok\nh 0 0 0 1 1\nr 0 - ";
    static const char deep[] = "ok\nok\nok\nrefused Pattern 0 TooDeep ";
    gaxtrel_session s = GAXTREL_NONE;
    uint8_t replies[64];
    size_t count = 0, first = append_line(it, 0, it->yes), length = append_pattern(it, 0);
    const char *wanted = it->levels > 256 ? deep : found;
    bool right = gaxtrel_session_open(&s, 256) == GAXTREL_OK &&
                 gaxtrel_session_answer(&s, commands, append_commands(it, length, first), &count) ==
                     (it->levels > 256 ? GAXTREL_REFUSED : GAXTREL_OK) &&
                 gaxtrel_session_replies(&s, 0, replies, sizeof replies, &count) == GAXTREL_OK &&
                 count >= strlen(wanted) && memcmp(replies, wanted, strlen(wanted)) == 0;
    gaxtrel_session_free(&s);
    return right;
}

struct trial {
    const struct deep *it;
    uintptr_t base;
    bool right;
};

static void *try_one(void *argument) {
    struct trial *trial = argument;
    uint8_t here = 0;
    trial->base = (uintptr_t)&here;
    trial->right = is_right(trial->it) && is_right_in_a_session(trial->it);
    return 0;
}

/* How much stack a thread takes for the pattern: 0 if it is not the painted one, SIZE_MAX if it is wrong. */
static size_t taken(const struct deep *it, const pthread_attr_t *attributes) {
    struct trial trial = {it, 0, false};
    pthread_t thread;
    size_t unused = 0;
    memset(stack, PAINT, sizeof stack);
    if (pthread_create(&thread, attributes, try_one, &trial) || pthread_join(thread, 0) || !trial.right) return SIZE_MAX;
    while (unused < sizeof stack && stack[unused] == PAINT) unused++;
    return unused == sizeof stack ? 0 : trial.base - (uintptr_t)stack - unused;
}

int main(int count, char **words) {
    if (count != 2) return 2;
    size_t most = 0, limit = (size_t)atol(words[1]) * 1024;
    pthread_attr_t painted, small;
    bool wrong = pthread_attr_init(&painted) || pthread_attr_setstack(&painted, stack, sizeof stack) ||
                 pthread_attr_init(&small) || pthread_attr_setstacksize(&small, limit + PTHREAD_STACK_MIN);
    for (size_t i = 0; i < sizeof patterns / sizeof *patterns; i++) {
        const struct deep *it = &patterns[i];
        size_t here = taken(it, &painted);
        most = here > most ? here : most;
        if (here > limit) printf("%zu times %s a %s: %zu bytes of stack\n", it->levels, it->before, it->after, here);
        wrong |= here > limit || taken(it, &small);
    }
    printf("patterns of 256 levels: %zu bytes of stack\n", most);
    return wrong;
}
