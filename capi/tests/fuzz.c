/* Random calls of each function, and the laws that hold between their answers: fuzz [SEED [CALLS]]. Patterns, texts and
   arrays end where a page does with none after it, so that no byte beyond them is read or written unseen. A law that is
   broken is printed, as is the seed. The last line is `N calls, M differ`. */
#define _DEFAULT_SOURCE
#include "gaxtrel.h"
#include <stdio.h>
#include <stdlib.h>
#include <string.h>
#include <sys/mman.h>

enum { BLOCK = 1 << 21, PAGE = 4096, MOST = 4000, ROOM = 1 << 19 };

static uint64_t dice;
static long calls, differ;
static uint8_t *ends[3], *text, pattern[2 * MOST], commands[ROOM];
static size_t length, from, size, patterns, written;
static uint32_t syntax;
static bool several, apart, fold, whole;

#define LAW(holds) law(holds, __LINE__, #holds)
#define CALL(answer) (calls++, answer)
#define ONE_OF(words) words[below(sizeof words / sizeof *words)]
#define TEXT text, length
#define NO_PART(part) ((part).start == 77 && (part).end == 78)
#define NO_LINE(line) (NO_PART(line) && (line).number == 79)

static uint32_t below(size_t n) {
    dice ^= dice << 13, dice ^= dice >> 7, dice ^= dice << 17;
    return (uint32_t)((dice >> 11) % n);
}

static void show(const char *name, const uint8_t *bytes, size_t count) {
    printf("\n  %s of %zu: ", name, count);
    for (size_t i = 0; i < count && i < 400; i++) printf(bytes[i] > 32 && bytes[i] < 127 ? "%c" : "\\x%02x", bytes[i]);
}

static void law(bool holds, int line, const char *words) {
    if (holds || differ++ > 4) return;
    printf("line %d: %s\n  syntax %u, fold %d, whole %d, from %zu", line, words, syntax, fold, whole, from);
    show("pattern", pattern, size), show("text", TEXT), show("commands", commands, written);
    puts("");
}

/* A copy that ends where a page does; of no bytes perhaps null. */
static uint8_t *copied(uint8_t *end, const uint8_t *bytes, size_t count) {
    return count || below(2) ? memmove(end - count, bytes, count) : NULL;
}

/* Patterns and texts. */

static void put(const char *token) {
    for (; *token && size < MOST; token++) {
        if (syntax == GAXTREL_BASIC && strchr("(){}|+?", *token)) pattern[size++] = '\\';
        pattern[size++] = (uint8_t)*token;
    }
}

static void put_tokens(uint32_t count) {
    static const char *const tokens[] = {
        "a", "a", "b", "ab", "aab", "abc", "error", "A", "0", " ", ".", ".", "^", "$", "[ab]", "+", "?", "{0}", "{2}",
        "*", "*", "+", "[^a]", "[a-c]", "|", "|", "|", "x", "b", "[]a]", "{40}", "{2,1}", "{0,2}", "{1,3}", "{2,}",
        "{256}", "{0,255}", "\xc3\xa4", "[a-]", "\\.", "\\\\", "[[.a.]-c]", "[[=a=]]", "[\x80-\xff]", "[[:alpha:]]",
        "[^[:digit:]]"};
    int open = 0;
    while (count--) {
        if (!below(6)) put("("), open++;
        put(ONE_OF(tokens));
        if (open && !below(4)) put(")"), open--;
    }
    while (open--) put(")");
}

/* Tokens, and perhaps a few bytes that are put wrong. */
static void make_pattern(void) {
    syntax = below(40) ? below(3) : GAXTREL_FIXED + 1 + below(1u << below(32));
    several = below(2), apart = !several || below(2), fold = below(2), whole = !below(8), patterns = !several, size = 0;
    uint32_t lines = several ? below(below(9) ? 4 : 200) : 1, most = below(4) ? 4 : lines > 3 ? 9 : 40;
    for (uint32_t k = 0; k < lines; k++) put(k ? "\n" : ""), put_tokens(below(most));
    if (several && below(2)) put("\n");
    for (uint32_t n = below(4) ? 0 : below(9); n-- && size;)
        pattern[below(size)] = below(2) ? (uint8_t)"\\(){}|[]*^$\n\0a-:"[below(17)] : (uint8_t)below(256);
    for (size_t i = 0; several && i < size; i++) patterns += pattern[i] == '\n' || i + 1 == size;
}

static void make_text(void) {
    static const size_t sizes[] = {0, 1, 2, 3, 7, 8, 15, 16, 17, 31, 32, 33, 63, 64, 65, 90, 200, 1000, 4095, 4097};
    static const char *const letters[] = {"a", "ab", "a\n", "aaaaaaab", "aabbcAB01 \n", "abcdef\xc3\xa4 \n"};
    const char *some = ONE_OF(letters);
    uint32_t how = below(8), next = 0;
    length = below(300) ? ONE_OF(sizes) : 65536 + below(3);
    text = length || below(2) ? ends[1] - length : NULL;
    for (size_t i = 0; i < length; i++) {
        text[i] = how > 3 || !size ? (uint8_t)some[below(strlen(some))] : pattern[next++ % size];
        if (how == 0) text[i] = (uint8_t)below(256);
        if (how < 3 && !below(8)) next = below(MOST), text[i] = below(3) ? text[i] : '\n';
    }
    size_t places[] = {0, 0, 0, length, length + 1, SIZE_MAX - below(3), below(length + 1), below(length + 1)};
    from = ONE_OF(places);
}

/* Searches. */

static bool within(const gaxtrel_matcher *m, uint64_t bytes) {
    return m->work.built + m->work.reused <= patterns * bytes && m->work.passed <= patterns * bytes;
}

static gaxtrel_part find(gaxtrel_matcher *m, size_t at, bool wanted) {
    gaxtrel_part part = {77, 78};
    LAW(CALL(gaxtrel_find(m, TEXT, at, &part)) == wanted && within(m, length + 1));
    LAW(wanted ? at <= part.start && part.start < part.end && part.end <= length : NO_PART(part));
    return part;
}

/* The numbers of patterns that are kept apart are those of matchers of one pattern each. */
static void ask_which(gaxtrel_matcher *m, uint32_t matched) {
    size_t room = below(3) ? patterns : below(3), count = 77, seen = 0;
    size_t *end = (size_t *)ends[2], *numbers = end - room;
    for (size_t *number = numbers - 1; number < end; number++) *number = SIZE_MAX;
    uint32_t some = CALL(gaxtrel_which(m, TEXT, room || below(2) ? numbers : NULL, room, &count));
    LAW(apart ? some == matched && some == (count > 0) : some == GAXTREL_JOINED && count == 77);
    LAW(within(m, apart ? length + 1 : 0) && numbers[-1] == SIZE_MAX);
    if (apart && patterns > 3 && below(9)) return;
    for (size_t k = 0, start = 0, stop; apart && k < patterns; k++, start = stop + 1) {
        gaxtrel_matcher one = GAXTREL_NONE;
        gaxtrel_fault fault;
        uint8_t *newline = several ? memchr(pattern + start, '\n', size - start) : NULL;
        stop = newline ? (size_t)(newline - pattern) : size;
        LAW(!CALL(gaxtrel_compile(&one, pattern + start, stop - start, syntax, fold, whole, &fault)));
        if (CALL(gaxtrel_is_match(&one, TEXT))) LAW(seen++ >= room || numbers[seen - 1] == k);
        gaxtrel_free(&one);
    }
    LAW(!apart || seen == count);
    for (; seen < room; seen++) LAW(numbers[seen] == SIZE_MAX);
}

/* The laws of a line; a sum of what is answered, which no history changes. */
static size_t ask_line(gaxtrel_matcher *m) {
    size_t room = below(3) ? length + 2 : below(4), count = 77, at = from;
    gaxtrel_part *end = (gaxtrel_part *)ends[2], *parts = end - room;
    for (gaxtrel_part *part = parts - 1; part < end; part++) *part = (gaxtrel_part){77, 78};
    uint32_t matched = CALL(gaxtrel_is_match(m, TEXT));
    LAW(matched <= GAXTREL_YES && within(m, length + 1));
    uint32_t some = CALL(gaxtrel_parts(m, TEXT, from, room || below(2) ? parts : NULL, room, &count));
    LAW(some == (count > 0) && some <= matched && within(m, length + 1) && NO_PART(parts[-1]));
    size_t seen = count < room ? count : room, k = below(seen + 1);
    gaxtrel_part first = find(m, from, some), next = k < seen ? find(m, parts[k].end, k + 1 < count) : first;
    LAW(!seen || !memcmp(&first, parts, sizeof first));
    LAW(k + 1 >= seen || !memcmp(&next, &parts[k + 1], sizeof next));
    LAW(!whole || (length && !from ? some == matched && (!some || first.end - first.start == length) : !some));
    for (size_t i = 0; i < seen; at = parts[i++].end) LAW(at <= parts[i].start && parts[i].start < parts[i].end);
    for (size_t i = seen; i < room; i++) LAW(NO_PART(parts[i]));
    LAW(!seen || at <= length);
    ask_which(m, matched);
    return matched + 3 * first.start + 5 * first.end + 7 * count;
}

static uint64_t plus(uint64_t number, uint64_t more) { return number > UINT64_MAX - more ? UINT64_MAX : number + more; }

/* How many of the first matched lines from a place on were written over an array at the end of a page. */
static size_t put_lines(gaxtrel_matcher *m, size_t at, uint64_t number, size_t room) {
    gaxtrel_line *end = (gaxtrel_line *)ends[2], *lines = end - room;
    size_t count = 77;
    for (gaxtrel_line *line = lines - 1; line < end; line++) *line = (gaxtrel_line){77, 78, 79};
    uint32_t some = CALL(gaxtrel_lines(m, TEXT, at, number, room || below(2) ? lines : NULL, room, &count));
    LAW(some == (count > 0) && count <= room && NO_LINE(lines[-1]));
    LAW(within(m, count < room ? length + 1 : room ? end[-1].end + 1 - at : 0));
    for (size_t i = count; i < room; i++) LAW(NO_LINE(lines[i]));
    return count;
}

/* The laws of a text; how many of its lines are matched. */
static uint64_t ask_text(gaxtrel_matcher *m) {
    uint64_t lines = 77, seen = 0, number = below(4) ? below(9) : UINT64_MAX - below(9), newlines = 0;
    size_t at = 0, end, room = below(3) ? length + 1 : below(4), count;
    gaxtrel_part line = {77, 78}, left = line;
    gaxtrel_line *found = (gaxtrel_line *)ends[2] - room;
    LAW(CALL(gaxtrel_count_lines(m, TEXT, &lines)) == (lines > 0) && within(m, length + 1));
    uint32_t some = CALL(gaxtrel_next_line(m, TEXT, from, &line));
    LAW(some == (from < length && CALL(gaxtrel_next_line(m, text + from, length - from, 0, &left))));
    LAW(some ? line.start == from + left.start && line.end == from + left.end : NO_PART(line));
    count = put_lines(m, from, number, room);
    for (size_t i = from; some && i < line.start; i++) newlines += text[i] == '\n';
    LAW(!room || (count > 0) == some);
    LAW(!count || (found->start == line.start && found->end == line.end && found->number == plus(number, newlines)));
    if (length > 40 && below(length > 300 ? 30 : 5)) return lines;
    LAW(put_lines(m, 0, number, room) == (lines < room ? lines : room));
    for (size_t start = 0; start < length; start = end + 1, number = plus(number, 1)) {
        uint8_t *newline = memchr(text + start, '\n', length - start);
        end = newline ? (size_t)(newline - text) : length;
        if (!CALL(gaxtrel_is_match(m, text + start, end - start))) continue;
        LAW(CALL(gaxtrel_next_line(m, TEXT, at, &line)) == GAXTREL_YES && within(m, end + 1 - at));
        LAW(line.start == start && line.end == end);
        LAW(seen >= room || (found[seen].start == start && found[seen].end == end && found[seen].number == number));
        at = end + 1, seen++;
    }
    LAW(CALL(gaxtrel_next_line(m, TEXT, at, &line)) == GAXTREL_NO && within(m, length + 1 - at) && seen == lines);
    return lines;
}

/* Whether it is made; of a list perhaps so that its patterns are apart. */
static bool compile(gaxtrel_matcher *m, bool list) {
    gaxtrel_fault fault = {77, 78, 79};
    const uint8_t *at = copied(ends[0], pattern, size);
    gaxtrel_options o = {sizeof o, syntax, fold, whole, list, apart, 65535, 0};
    uint32_t answer = CALL(below(2) ? gaxtrel_compile_with(m, at, size, &o, &fault)
                           : !list ? gaxtrel_compile(m, at, size, syntax, fold, whole, &fault)
                           : apart ? gaxtrel_compile_each(m, at, size, syntax, fold, whole, &fault)
                                  : gaxtrel_compile_lines(m, at, size, syntax, fold, whole, &fault));
    LAW(syntax > GAXTREL_FIXED ? answer == GAXTREL_NO_SYNTAX : answer <= GAXTREL_REFUSED);
    LAW(answer == GAXTREL_REFUSED ? strcmp(gaxtrel_kind_name(fault.kind), "Unknown") && fault.at <= size &&
                                        (list ? fault.pattern < patterns : fault.pattern == 0)
                                  : fault.kind == 77 && fault.at == 78 && fault.pattern == 79);
    return answer == GAXTREL_OK;
}

/* A matcher that is made anew, of one pattern perhaps as of a list, answers the same. */
static void ask_fresh(size_t line, uint64_t lines) {
    gaxtrel_matcher fresh = GAXTREL_NONE;
    bool list = size && !memchr(pattern, '\n', size) ? below(2) : several, before = apart;
    apart = !list || below(2);
    LAW(compile(&fresh, list) && ask_line(&fresh) == line && ask_text(&fresh) == lines);
    apart = before;
    gaxtrel_free(&fresh);
}

/* Under a limit each call answers the same, or is stopped: what was found is right so far, and no work beyond the limit
   is done. Where the number of automata is known, so is the place. */
static void ask_limited(gaxtrel_matcher *m, uint64_t lines) {
    uint64_t limit = 1 + below((patterns + 1) * (length + 2)), counted = 77, first = 77, most = limit / (patterns + !patterns);
    bool exact = apart || patterns == 1;
    gaxtrel_part line = {77, 78}, same = line;
    uint32_t matched = CALL(gaxtrel_is_match(m, TEXT)), next = CALL(gaxtrel_next_line(m, TEXT, from, &same));
    LAW(!CALL(gaxtrel_limit(m, limit)) && within(m, 0));
    uint32_t answer = CALL(gaxtrel_is_match(m, TEXT));
    bool fits = !length || length < most, stops = answer == GAXTREL_STOPPED;
    LAW(stops ? !fits && within(m, 0) : answer == matched && m->work.passed <= limit + patterns);
    LAW(!exact || !patterns || stops == !fits);
    answer = CALL(gaxtrel_next_line(m, TEXT, from, &line));
    LAW(answer == GAXTREL_STOPPED ? NO_PART(line) : answer == next && !memcmp(&line, &same, sizeof line));
    answer = CALL(gaxtrel_count_lines(m, TEXT, &counted));
    LAW((answer == GAXTREL_STOPPED) == stops && (stops ? counted <= lines : counted == lines && answer == (lines > 0)));
    LAW(m->work.built + m->work.reused <= (limit < patterns ? patterns : limit) && !CALL(gaxtrel_limit(m, 0)));
    if (!stops || !exact) return;
    for (most -= most > 0; most && text[most - 1] != '\n';) most--;
    LAW(CALL(gaxtrel_count_lines(m, text, most, &first)) <= GAXTREL_YES && first == counted);
}

static void misuse(gaxtrel_matcher *m, gaxtrel_session *s) {
    gaxtrel_part part = {77, 78};
    gaxtrel_line line = {77, 78, 79};
    size_t count = 77, number = 77;
    uint64_t lines = 77;
    LAW(CALL(gaxtrel_limit(m, 1)) == GAXTREL_MISUSED);
    LAW(CALL(gaxtrel_which(m, TEXT, &number, 1, &count)) == GAXTREL_MISUSED && number == 77);
    LAW(CALL(gaxtrel_lines(m, TEXT, from, 1, &line, 1, &count)) == GAXTREL_MISUSED && NO_LINE(line));
    LAW(CALL(gaxtrel_is_match(m, TEXT)) == GAXTREL_MISUSED && CALL(gaxtrel_find(m, TEXT, 0, &part)) == GAXTREL_MISUSED);
    LAW(CALL(gaxtrel_parts(m, TEXT, from, &part, 1, &count)) == GAXTREL_MISUSED);
    LAW(CALL(gaxtrel_next_line(m, TEXT, from, &part)) == GAXTREL_MISUSED && NO_PART(part));
    LAW(CALL(gaxtrel_count_lines(m, TEXT, &lines)) == GAXTREL_MISUSED && lines == 77);
    LAW(CALL(gaxtrel_session_open(s, below(2) ? 0 : 65537 + below(9))) == GAXTREL_NO_STATES);
    LAW(CALL(gaxtrel_session_answer(s, TEXT, &count)) == GAXTREL_NO_SESSION);
    LAW(CALL(gaxtrel_session_edit(s, TEXT, text, 0, &count)) == GAXTREL_NO_SESSION);
    LAW(CALL(gaxtrel_session_replies(s, 0, text, length, &count)) == GAXTREL_NO_SESSION && count == 77);
}

/* Sessions. */

static void add_command(void) {
    static const char *const plain[] = {
        "show", "show", "changes", "changes", "changes", "page 0 3", "page 1 99999999999999999999", "text off", "show ",
        "text on", "context 1 0", "context off", "context 0 18446744073709551615", "syntax basic", "syntax extended",
        "syntax fixed", "syntax perl", "missing m", "drop 9", "close 0", "close 2", "flag z on", "version", "", "\xff",
        "drop 0", "splice 0 0 1 0", "splice 0 18446744073709551615 1 0"};
    static const char *const counted[] = {
        "splice 0 0 0", "splice 0 1 2", "splice 1 0 1", "file f", "file g", "patterns", "patterns", "pattern"};
    static const char *const lines[] = {
        "", "a", "ab", "b\xff", "aab", "[ab", "a*", "(a|b)+", "\\(a\\)\\1", "a\\{2,\\}", ".", "^b"};
    uint32_t how = below(8), count = how < 4 ? 1 + below(3) : 0;
    char *at = (char *)commands + written;
    if (how < 4) at += sprintf(at, "%s %u\n", ONE_OF(counted), count);
    else if (how < 6) at += sprintf(at, "%s\n", ONE_OF(plain));
    else at += sprintf(at, "flag %c %s\n", "cilnoqsvx"[below(9)], below(2) ? "on" : "off");
    while (count--) at += sprintf(at, "%s\n", ONE_OF(lines));
    written = (size_t)(at - (char *)commands);
}

/* Some commands are answered; where they are one with just its lines, often by the call for that. */
static uint32_t send(gaxtrel_session *s, const uint8_t *bytes, size_t count, size_t *all) {
    const uint8_t *end = memchr(bytes, '\n', count);
    if (end && below(2)) {
        size_t first = end - bytes, rest = count - first - 1;
        uint32_t status =
            CALL(gaxtrel_session_edit(s, copied(ends[0], bytes, first), first, copied(ends[1], end + 1, rest), rest, all));
        if (status != GAXTREL_MISUSED) return status;
    }
    return CALL(gaxtrel_session_answer(s, copied(ends[1], bytes, count), count, all));
}

/* The replies to some commands, as a text of C: how many bytes they have. */
static size_t answer(gaxtrel_session *s, const uint8_t *bytes, size_t count, char *replies) {
    size_t all = 77, other = 77, spare = below(3);
    uint32_t status = send(s, bytes, count, &all);
    size_t cut = below(all + 1), left = all - cut;
    uint8_t *into = ends[2] - left - spare;
    memset(into - 1, 77, left + spare + 1);
    LAW(CALL(gaxtrel_session_replies(s, cut, into, left + spare, &other)) == GAXTREL_OK && other == all);
    LAW(into[-1] == 77 && (!spare || (into[left] == 77 && ends[2][-1] == 77)));
    memcpy(replies + cut, into, left);
    LAW(CALL(gaxtrel_session_replies(s, 0, cut || below(2) ? ends[2] - cut : NULL, cut, &other)) == GAXTREL_OK);
    memcpy(replies, ends[2] - cut, cut);
    replies[all] = 0;
    LAW(status == (!strncmp(replies, "refused ", 8) || strstr(replies, "\nrefused ")));
    return all;
}

/* Commands at once, and some at a time with another number of states: the same replies. */
static void ask_session(void) {
    static char together[ROOM], apart[ROOM];
    gaxtrel_session one = GAXTREL_NONE, other = GAXTREL_NONE;
    size_t cuts[41] = {0}, last = 1 + below(40), at = 0;
    written = 0;
    for (size_t k = 1; k <= last; k++) add_command(), cuts[k] = written;
    if (!below(4)) cuts[last] = --written;
    LAW(CALL(gaxtrel_session_open(&one, 1 + below(300))) == GAXTREL_OK);
    LAW(CALL(gaxtrel_session_open(&other, below(2) ? 65536 : 1)) == GAXTREL_OK);
    for (size_t k = 0, next; k < last; k = next) {
        next = k + 1 + below(last - k);
        at += answer(&other, commands + cuts[k], cuts[next] - cuts[k], apart + at);
    }
    LAW(answer(&one, commands, written, together) == at && !memcmp(together, apart, at));
    gaxtrel_session_free(&one), gaxtrel_session_free(&other), gaxtrel_session_free(&other);
}

int main(int count, char **words) {
    unsigned long long seed = count > 1 ? strtoull(words[1], 0, 10) : 1;
    long most = count > 2 ? atol(words[2]) : 1000000;
    gaxtrel_matcher places[2] = {GAXTREL_NONE, GAXTREL_NONE}, *m = places, *other = places + 1, *moved;
    bool held = false;
    dice = (seed << 1 | 1) * 0x9E3779B97F4A7C15ull;
    printf("seed %llu\n", seed), fflush(stdout);
    for (size_t k = 0; k < 3; k++) {
        uint8_t *at = mmap(0, BLOCK + PAGE, PROT_READ | PROT_WRITE, MAP_PRIVATE | MAP_ANONYMOUS, -1, 0);
        if (at == MAP_FAILED || mprotect(ends[k] = at + BLOCK, PAGE, PROT_NONE)) return 2;
    }
    while (calls < most) {
        if (!held || !below(4)) make_pattern(), held = compile(m, several);
        make_text();
        if (held) {
            size_t line = ask_line(m);
            uint64_t lines = ask_text(m);
            if (!below(4)) ask_fresh(line, lines);
            if (!below(3)) ask_limited(m, lines);
        }
        if (!held || !below(20)) gaxtrel_free(m), misuse(m, &(gaxtrel_session)GAXTREL_NONE), held = false;
        if (!below(8)) ask_session();
        memcpy(other, m, sizeof *m), memset(m, 77, sizeof *m);
        moved = other, other = m, m = moved;
    }
    gaxtrel_free(m);
    printf("%ld calls, %ld differ\n", calls, differ);
    return differ > 0;
}
