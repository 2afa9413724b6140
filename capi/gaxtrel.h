/* gaxtrel.h: POSIX regular expressions over lines, and live sessions of them, proved.

   What a caller owes, since nothing checks it:
   - each pointer points to what its type says, and no two overlap where one is written. That of a
     text of no bytes, or of an array with no room, may be null in a call by name;
   - a matcher or a session begins with GAXTREL_NONE, is written by these calls alone, and is used by
     one call at a time. It may be moved by memcpy, after which the old one is not used, not even to
     free it; and it may go to another thread, ordered by a lock, a start or a join;
   - a thread has 64 KB of stack for a call, which is enough for any pattern;
   - no call from a signal handler, or in the child of a fork of a process with threads.

   Any other argument is allowed: any bytes as a pattern, a line or a text, any number as a syntax, a
   place or a number of states. No call exits, aborts or waits. See docs/LIBRARY.md for what is proved. */
#ifndef GAXTREL_H
#define GAXTREL_H

#include <stdbool.h>
#include <stddef.h>
#include <stdint.h>

#define GAXTREL_VERSION "1.0.0"
#define GAXTREL_VERSION_NUMBER 1000000

#ifdef __cplusplus
extern "C" {
#endif

/* The work of one call. A step is a byte over which a set of positions, or a table of strings, was
   advanced; a passed byte is one over which a search for strings went. */
typedef struct gaxtrel_work {
    uint64_t built;  /* steps that were computed */
    uint64_t reused; /* steps that were found in a cache */
    uint64_t passed; /* bytes that were passed */
} gaxtrel_work;

/* A matcher for one pattern or several, or none. `work` is that of the last call, to be read. */
typedef struct gaxtrel_matcher {
    void *private_at;
    bool private_full;
    gaxtrel_work work;
} gaxtrel_matcher;

/* A live session, or none, as a matcher is. */
typedef struct gaxtrel_session {
    void *private_at;
    bool private_full;
    gaxtrel_work work;
} gaxtrel_session;

#define GAXTREL_NONE {0, false, {0, 0, 0}}

/* Why a pattern is refused, and at which byte of it; of several patterns the number of the first
   that is refused, counted from 0. */
typedef struct gaxtrel_fault {
    uint32_t kind;
    size_t at;
    size_t pattern;
} gaxtrel_fault;

/* A part of a line, or a line of a text: from its first byte to the byte after its last. */
typedef struct gaxtrel_part {
    size_t start;
    size_t end;
} gaxtrel_part;

/* A line of a text: from its first byte to the byte after its last, without its newline; and its
   number, or 2^64 - 1 for a greater one. */
typedef struct gaxtrel_line {
    size_t start;
    size_t end;
    uint64_t number;
} gaxtrel_line;

/* What is asked of a matcher: begin with GAXTREL_OPTIONS, and set what differs. */
typedef struct gaxtrel_options {
    size_t size;     /* that of this struct, which may grow */
    uint32_t syntax; /* GAXTREL_EXTENDED */
    bool fold;       /* both cases of letters are alike */
    bool whole;      /* the whole line has to be matched */
    bool lines;      /* each line is a pattern, as for gaxtrel_compile_lines */
    bool apart;      /* these are kept apart, as by gaxtrel_compile_each */
    size_t patterns; /* how many there may be, up to 65,535 */
    uint64_t limit;  /* as of gaxtrel_limit */
} gaxtrel_options;

#define GAXTREL_OPTIONS {sizeof(gaxtrel_options), GAXTREL_EXTENDED, false, false, false, false, 65535, 0}

/* What the library was compiled for: no other machine, and no option that packs structs. */
#if defined __cplusplus && __cplusplus >= 201103L
#define GAXTREL_HOLDS static_assert
#elif defined __STDC_VERSION__ && __STDC_VERSION__ >= 201112L
#define GAXTREL_HOLDS _Static_assert
#endif
#ifdef GAXTREL_HOLDS
GAXTREL_HOLDS(sizeof(gaxtrel_matcher) == 40 && sizeof(gaxtrel_session) == 40 && sizeof(gaxtrel_fault) == 24 &&
                  sizeof(gaxtrel_part) == 16 && sizeof(gaxtrel_line) == 24 && sizeof(gaxtrel_options) == 32,
              "libgaxtrel has structs of other sizes");
#undef GAXTREL_HOLDS
#endif

enum { GAXTREL_BASIC = 0, GAXTREL_EXTENDED = 1, GAXTREL_FIXED = 2 };

enum { GAXTREL_OK = 0, GAXTREL_REFUSED = 1, GAXTREL_NO_MEMORY = 2, GAXTREL_NO_SYNTAX = 3 };

enum { GAXTREL_NO_STATES = 3, GAXTREL_NO_SESSION = 3 };

enum { GAXTREL_NO = 0, GAXTREL_YES = 1, GAXTREL_MISUSED = 3, GAXTREL_JOINED = 4, GAXTREL_STOPPED = 5 };

enum {
    GAXTREL_UNCLOSED_BRACKET = 1,
    GAXTREL_BAD_CLASS,
    GAXTREL_BAD_COLLATING_SYMBOL,
    GAXTREL_BAD_RANGE,
    GAXTREL_UNCLOSED_GROUP,
    GAXTREL_UNOPENED_GROUP,
    GAXTREL_BAD_INTERVAL,
    GAXTREL_INTERVAL_TOO_LARGE,
    GAXTREL_NOTHING_TO_REPEAT,
    GAXTREL_TRAILING_BACKSLASH,
    GAXTREL_UNDEFINED_ESCAPE,
    GAXTREL_BACK_REFERENCE,
    GAXTREL_TOO_DEEP,
    GAXTREL_TOO_LARGE,
    GAXTREL_TOO_MANY_PATTERNS
};

/* The name of such a kind, as grep writes it. */
static inline const char *gaxtrel_kind_name(uint32_t kind) {
    static const char *const names[] = {
        "UnclosedBracket", "BadClass",      "BadCollatingSymbol", "BadRange",         "UnclosedGroup",
        "UnopenedGroup",   "BadInterval",   "IntervalTooLarge",   "NothingToRepeat",  "TrailingBackslash",
        "UndefinedEscape", "BackReference", "TooDeep",            "TooLarge",         "TooManyPatterns"};
    return kind - 1 < sizeof names / sizeof *names ? names[kind - 1] : "Unknown";
}

/* The version of the library, as GAXTREL_VERSION_NUMBER is that of this header: 1,000,000 times its
   first number, 1,000 times its second, and its third. */
uint32_t gaxtrel_version(void);

/* Makes a matcher of a pattern, and frees what `matcher` held before. With `fold` both cases of
   letters are alike; with `whole` the whole line has to be matched. GAXTREL_OK: it is made.
   GAXTREL_REFUSED: the pattern is none, and `fault` says why, and where; its `pattern` is 0.
   GAXTREL_NO_MEMORY, GAXTREL_NO_SYNTAX: as they say. Unless it answers GAXTREL_OK, `matcher` then
   holds none; unless it answers GAXTREL_REFUSED, `fault` is as before. */
uint32_t gaxtrel_compile(gaxtrel_matcher *matcher, const uint8_t *pattern, size_t length,
                         uint32_t syntax, bool fold, bool whole, gaxtrel_fault *fault);

/* The same for several patterns, which are the lines of `patterns` (the last may lack its newline):
   a line is matched where one of them matches it, and no bytes are no pattern, which match nothing.
   The fault is that of the first line that is refused, and `pattern` its number. More than 65,535
   patterns are refused as GAXTREL_TOO_MANY_PATTERNS at pattern 65,535, whatever they are. */
uint32_t gaxtrel_compile_lines(gaxtrel_matcher *matcher, const uint8_t *patterns, size_t length,
                               uint32_t syntax, bool fold, bool whole, gaxtrel_fault *fault);

/* The same, but each pattern is kept apart, so that gaxtrel_which can say which ones match a line.
   Where there are many, other searches take longer. */
uint32_t gaxtrel_compile_each(gaxtrel_matcher *matcher, const uint8_t *patterns, size_t length,
                              uint32_t syntax, bool fold, bool whole, gaxtrel_fault *fault);

/* The same by options. More patterns than these allow are refused as GAXTREL_TOO_MANY_PATTERNS at the
   first that is too many. GAXTREL_MISUSED: the size, the syntax or the number of patterns is none that
   is known; `matcher` then holds none. */
uint32_t gaxtrel_compile_with(gaxtrel_matcher *matcher, const uint8_t *patterns, size_t length,
                              const gaxtrel_options *options, gaxtrel_fault *fault);

/* Sets how much work each call on `matcher` may take; 0, as at first, is no limit. Of the patterns `q`
   automata are made: one of each, and of joined ones from 0 to p. So n bytes take at most q * (n + 1)
   steps, and as many bytes are passed. If that is above the limit, a call on a line of n bytes answers
   GAXTREL_STOPPED (an empty line never): nothing is searched or written. A call on a text searches the
   whole lines in as many bytes from `from` on as it allows, and answers GAXTREL_STOPPED if it has to go
   on: what it counted and wrote is right so far. So a call stops at the same place each time. But a
   step costs more the more positions its pattern has, up to 64 words for each of 4,096 (SECURITY.md).
   GAXTREL_OK; GAXTREL_MISUSED: `matcher` holds none. */
uint32_t gaxtrel_limit(gaxtrel_matcher *matcher, uint64_t limit);

/* Frees what `matcher` holds. It then holds none, and may be used again. */
void gaxtrel_free(gaxtrel_matcher *matcher);

/* The calls below answer GAXTREL_MISUSED if `matcher` holds none, and write nothing else then; else
   GAXTREL_YES or GAXTREL_NO, or what they say. `p` is the number of patterns: each call takes at most
   so many steps (`built` and `reused` together) as it says, and passes at most as many bytes. */

/* Whether the line is matched. At most p * (length + 1). */
uint32_t gaxtrel_is_match(gaxtrel_matcher *matcher, const uint8_t *line, size_t length);

/* Which patterns match the line: how many these are goes to `count`, and the numbers of the first
   ones, counted from 0 and ascending, to `numbers`, which has room for `room`. At most
   p * (length + 1). A matcher of gaxtrel_compile_lines answers GAXTREL_JOINED: nothing is written,
   and `work` is 0. */
uint32_t gaxtrel_which(gaxtrel_matcher *matcher, const uint8_t *line, size_t length, size_t *numbers,
                       size_t room, size_t *count);

/* The next part of the line: of the matched stretches that are not empty and begin at `from` or
   later the one that begins earliest, and of those that begin there the longest. `part` is written
   for GAXTREL_YES alone. At most p * (length + 1), which a loop over the parts may take for each:
   call gaxtrel_parts for all. */
uint32_t gaxtrel_find(gaxtrel_matcher *matcher, const uint8_t *line, size_t length, size_t from,
                      gaxtrel_part *part);

/* All parts of the line from a place on, each searched from the end of the one before: how many
   there are goes to `count`, and the first ones to `parts`, which has room for `room`. At most
   p * (length + 1), however many they are, and 16 bytes of memory for each byte of the line. Where
   these are refused it answers GAXTREL_NO_MEMORY: nothing is written, and `work` is 0. */
uint32_t gaxtrel_parts(gaxtrel_matcher *matcher, const uint8_t *line, size_t length, size_t from,
                       gaxtrel_part *parts, size_t room, size_t *count);

/* The first matched line of what is left of a text from `from` on: its place in the text, without
   its newline. The last line of a text may lack its newline. `line` is written for GAXTREL_YES
   alone. The next search is from `line->end + 1`. At most p * (line->end + 1 - from), or where
   there is no such line p * (length + 1). */
uint32_t gaxtrel_next_line(gaxtrel_matcher *matcher, const uint8_t *text, size_t length, size_t from,
                           gaxtrel_part *line);

/* The matched lines of what is left of a text from `from` on, where the line `number` begins: the
   first ones go to `lines`, which has room for `room`, and how many these are to `count`. If they
   are fewer than `room`, they are all; else the next call is from `lines[room - 1].end + 1`, with
   the number after `lines[room - 1].number`. At most p * (lines[room - 1].end + 1 - from), or where
   they are fewer p * (length + 1), and nothing if `room` is 0. */
uint32_t gaxtrel_lines(gaxtrel_matcher *matcher, const uint8_t *text, size_t length, size_t from,
                       uint64_t number, gaxtrel_line *lines, size_t room, size_t *count);

/* How many lines of a text are matched goes to `count`. At most p * (length + 1). */
uint32_t gaxtrel_count_lines(gaxtrel_matcher *matcher, const uint8_t *text, size_t length,
                             uint64_t *count);

/* Live sessions: what occur(1) keeps, which has the commands and their replies. */

/* Makes a session without files, patterns and options, and frees what `session` held before. Each
   pattern may keep so many states of its automaton, from 1 to 65,536; 256 serve. GAXTREL_OK: it is
   made. GAXTREL_NO_MEMORY, GAXTREL_NO_STATES: as they say, and `session` then holds none. */
uint32_t gaxtrel_session_open(gaxtrel_session *session, size_t states);

/* Answers commands one after the other, each with the lines that it counts, and keeps the replies
   until the next call that answers some: how many bytes they have goes to `count`. The commands go
   on from the session as the last call left it, and end with the text, whose last line may lack its
   newline. Of them `work` has no more than their edits cost (occur(1), COST). GAXTREL_OK: none is
   refused. GAXTREL_REFUSED: some are, as the replies say. GAXTREL_NO_MEMORY: the first commands were
   answered, of the last reply perhaps a beginning; where that is to `changes`, the next may report it
   again or not, so send the files anew. GAXTREL_NO_SESSION: `session` holds none, and nothing is
   written. */
uint32_t gaxtrel_session_answer(gaxtrel_session *session, const uint8_t *commands, size_t length,
                                size_t *count);

/* Answers one command with the lines that it counts, of which the last may lack its newline, as
   gaxtrel_session_answer answers the command, a newline and the lines: so no line is taken for a
   command. GAXTREL_MISUSED: `command` has a newline, or counts more or fewer lines, and nothing is
   done or written. GAXTREL_NO_MEMORY: as above, or before that is known, and then nothing is done or
   written; `count` is as before. */
uint32_t gaxtrel_session_edit(gaxtrel_session *session, const uint8_t *command, size_t command_length,
                              const uint8_t *lines, size_t lines_length, size_t *count);

/* Copies the replies from a place on to `into`, as many bytes as it has room for. How many bytes all
   replies have goes to `count`. GAXTREL_OK, or GAXTREL_NO_SESSION as above. */
uint32_t gaxtrel_session_replies(gaxtrel_session *session, size_t from, uint8_t *into, size_t room,
                                 size_t *count);

/* Frees what `session` holds. It then holds none, and may be opened again. */
void gaxtrel_session_free(gaxtrel_session *session);

/* A call by name gives its function no null: what may be null gets a place. A call through a pointer
   to a function goes without that. */
#define GAXTREL_PLACE(name, type)                                                                        \
    static inline type *name(type *at) {                                                                 \
        static uint64_t none[3];                                                                         \
        return at ? at : (type *)none;                                                                   \
    }
GAXTREL_PLACE(gaxtrel_private_text, const uint8_t)
GAXTREL_PLACE(gaxtrel_private_into, uint8_t)
GAXTREL_PLACE(gaxtrel_private_parts, gaxtrel_part)
GAXTREL_PLACE(gaxtrel_private_numbers, size_t)
GAXTREL_PLACE(gaxtrel_private_lines, gaxtrel_line)
#undef GAXTREL_PLACE

#define GAXTREL_TEXT(call, held, text, ...) call(held, gaxtrel_private_text(text), __VA_ARGS__)
#define GAXTREL_TEXTS(call, held, text, length, lines, ...)                                              \
    call(held, gaxtrel_private_text(text), length, gaxtrel_private_text(lines), __VA_ARGS__)
#define GAXTREL_INTO(call, held, from, into, ...) call(held, from, gaxtrel_private_into(into), __VA_ARGS__)
#define GAXTREL_PARTS(call, held, line, length, from, parts, ...)                                        \
    call(held, gaxtrel_private_text(line), length, from, gaxtrel_private_parts(parts), __VA_ARGS__)
#define GAXTREL_NUMBERS(call, held, line, length, numbers, ...)                                          \
    call(held, gaxtrel_private_text(line), length, gaxtrel_private_numbers(numbers), __VA_ARGS__)
#define GAXTREL_LINES(call, held, text, length, from, number, lines, ...)                                \
    call(held, gaxtrel_private_text(text), length, from, number, gaxtrel_private_lines(lines), __VA_ARGS__)
#define gaxtrel_compile(...) GAXTREL_TEXT(gaxtrel_compile, __VA_ARGS__)
#define gaxtrel_compile_lines(...) GAXTREL_TEXT(gaxtrel_compile_lines, __VA_ARGS__)
#define gaxtrel_compile_each(...) GAXTREL_TEXT(gaxtrel_compile_each, __VA_ARGS__)
#define gaxtrel_compile_with(...) GAXTREL_TEXT(gaxtrel_compile_with, __VA_ARGS__)
#define gaxtrel_is_match(...) GAXTREL_TEXT(gaxtrel_is_match, __VA_ARGS__)
#define gaxtrel_which(...) GAXTREL_NUMBERS(gaxtrel_which, __VA_ARGS__)
#define gaxtrel_find(...) GAXTREL_TEXT(gaxtrel_find, __VA_ARGS__)
#define gaxtrel_parts(...) GAXTREL_PARTS(gaxtrel_parts, __VA_ARGS__)
#define gaxtrel_next_line(...) GAXTREL_TEXT(gaxtrel_next_line, __VA_ARGS__)
#define gaxtrel_lines(...) GAXTREL_LINES(gaxtrel_lines, __VA_ARGS__)
#define gaxtrel_count_lines(...) GAXTREL_TEXT(gaxtrel_count_lines, __VA_ARGS__)
#define gaxtrel_session_answer(...) GAXTREL_TEXT(gaxtrel_session_answer, __VA_ARGS__)
#define gaxtrel_session_edit(...) GAXTREL_TEXTS(gaxtrel_session_edit, __VA_ARGS__)
#define gaxtrel_session_replies(...) GAXTREL_INTO(gaxtrel_session_replies, __VA_ARGS__)

#ifdef __cplusplus
}
#endif

#endif
