/* A live session: each call, and each allocation refused in turn. The answer is then "no memory",
   with a beginning of the replies, or the right one, and nothing leaks or is freed twice. */
#include "gaxtrel.h"
#include "refusals.h"
#include <stdio.h>
#include <stdlib.h>
#include <string.h>

/* Texts of commands that are answered one after the other, with their replies. */
static const struct {
    const char *commands;
    uint32_t status;
    const char *replies;
} texts[] = {
    {"file notes 3\none\ntwo\nthree\npatterns 1\ne\n", GAXTREL_OK, "ok\nok\n"},
    {"changes\n", GAXTREL_OK, "h 0 0 0 3 2\nr 0 - one\nr 2 - three\nstatus 0\n"},
    {"splice 0 1 1 2\nsea\nland\nchanges\n", GAXTREL_OK, "ok\nh 0 1 1 2 1\nr 1 - sea\nstatus 0\n"},
    {"changes", GAXTREL_OK, "status 0\n"},
    {"close 1\nflag o on\npage 0 2\n", GAXTREL_REFUSED, "refused NoSuchFile\nok\nhits 3\np 0 0 2-3 one\np 0 1 1-2 sea\nstatus 0\n"},
    {"patterns 1\n(\nsyntax extended\n", GAXTREL_REFUSED, "ok\nrefused Pattern 1 UnclosedGroup 0\n"},
    {"", GAXTREL_OK, ""},
    {"text off\npatterns 2\nx", GAXTREL_REFUSED, "ok\nrefused Truncated\n"},
    {"drop 1\nshow\npage 2 1\n", GAXTREL_OK, "ok\no e\no e\no e\no e\nstatus 0\nhits 3\np 0 3 3-4,4-5\nstatus 0\n"},
};

static char got[300];

/* The replies that are kept, read by 7 bytes at a time; -1 if the calls disagree. */
static long replies(gaxtrel_session *s, size_t count) {
    size_t all = 0;
    memset(got, 0, sizeof got);
    for (size_t at = 0; at < count; at += 7) {
        uint8_t some[8] = {0, 0, 0, 0, 0, 0, 0, 99};
        if (gaxtrel_session_replies(s, at, some, 7, &all) != GAXTREL_OK || all != count || some[7] != 99) return -1;
        memcpy(got + at, some, count - at < 7 ? count - at : 7);
    }
    return (long)strlen(got);
}

/* All texts. Where memory is refused: a beginning of the replies, and the session can be used and
   freed. The number of the first check that fails. */
static int answered(gaxtrel_session *s, bool *refused) {
    for (size_t k = 0; k < sizeof texts / sizeof *texts; k++) {
        size_t count = 0, length = strlen(texts[k].replies);
        uint32_t status = gaxtrel_session_answer(s, (const uint8_t *)texts[k].commands, strlen(texts[k].commands), &count);
        if (replies(s, count) != (long)count) return 1;
        bool right = status == texts[k].status && count == length && memcmp(got, texts[k].replies, length) == 0;
        if (right) continue;
        if (status == GAXTREL_NO_MEMORY && count <= length) {
            *refused = true;
            return memcmp(got, texts[k].replies, count) == 0 ? 0 : 2;
        }
        /* an edit was refused as out of memory */
        if (status == GAXTREL_REFUSED && strstr(got, "refused Memory\n")) {
            *refused = true;
            return 0;
        }
        printf("text %zu: status %u, %zu bytes:\n%s", k, status, count, got);
        return 3;
    }
    return 0;
}

/* One command with its lines: the number of the first check that fails. */
static const struct {
    const char *command, *lines;
    uint32_t status;
    const char *replies;
} edits[] = {
    {"file f 2", "show\nab", GAXTREL_OK, "ok\n"},
    {"file f 2", "show\nab\nshow", GAXTREL_MISUSED, "ok\n"},
    {"file f 2", "show\n", GAXTREL_MISUSED, "ok\n"},
    {"splice 0 0 1 1\n", "a", GAXTREL_MISUSED, "ok\n"},
    {"splice 0 0 1 1", "\n", GAXTREL_OK, "ok\n"},
    {"close 1", "", GAXTREL_REFUSED, "refused NoSuchFile\n"},
    {"close 1", "a", GAXTREL_MISUSED, "refused NoSuchFile\n"},
    {"patterns 1", "b", GAXTREL_OK, "ok\n"},
    {"page 0 2", "", GAXTREL_OK, "hits 1\np 0 1 - ab\nstatus 0\n"},
};

static int edited(void) {
    gaxtrel_session s = GAXTREL_NONE;
    size_t count = 0;
    int wrong = gaxtrel_session_open(&s, 16) == GAXTREL_OK ? 0 : 40;
    for (size_t k = 0; !wrong && k < sizeof edits / sizeof *edits; k++) {
        uint32_t status = gaxtrel_session_edit(&s, (const uint8_t *)edits[k].command, strlen(edits[k].command),
                                               (const uint8_t *)edits[k].lines, strlen(edits[k].lines), &count);
        if (status != edits[k].status) wrong = 41;
        else if (replies(&s, count) != (long)count || strcmp(got, edits[k].replies)) wrong = 42;
    }
    left = 0;
    if (!wrong && gaxtrel_session_edit(&s, (const uint8_t *)"missing m", 9, NULL, 0, &count) != GAXTREL_NO_MEMORY) wrong = 43;
    left = -1;
    if (!wrong && replies(&s, count) != (long)count) wrong = 44;
    gaxtrel_session_free(&s);
    return wrong;
}

static int misused(void) {
    gaxtrel_session s = GAXTREL_NONE;
    size_t count = 5;
    uint8_t into[2] = {7, 7};
    if (gaxtrel_session_answer(&s, (const uint8_t *)"show\n", 5, &count) != GAXTREL_NO_SESSION || count != 5) return 10;
    if (gaxtrel_session_edit(&s, into, 2, into, 0, &count) != GAXTREL_NO_SESSION || count != 5) return 23;
    if (gaxtrel_session_replies(&s, 0, into, 2, &count) != GAXTREL_NO_SESSION || count != 5 || into[0] != 7) return 11;
    if (gaxtrel_session_open(&s, 0) != GAXTREL_NO_STATES || gaxtrel_session_open(&s, 65537) != GAXTREL_NO_STATES) return 12;
    if (gaxtrel_session_answer(&s, (const uint8_t *)"show\n", 5, &count) != GAXTREL_NO_SESSION) return 13;
    if (gaxtrel_session_open(&s, 65536) != GAXTREL_OK || gaxtrel_session_open(&s, 1) != GAXTREL_OK) return 14;
    if (gaxtrel_session_replies(&s, 9, into, 2, &count) != GAXTREL_OK || count != 0 || into[1] != 7) return 15;
    if (gaxtrel_session_answer(&s, (const uint8_t *)"version\nfile f 1\nab\n", 20, &count) != GAXTREL_OK) return 16;
    if (s.work.built + s.work.reused + s.work.passed != 0) return 17;
    if (gaxtrel_session_replies(&s, count - 1, into, 2, &count) != GAXTREL_OK || into[0] != '\n' || into[1] != 7) return 18;
    if (gaxtrel_session_answer(&s, (const uint8_t *)"patterns 1\n[ab]c*$\n", 19, &count) != GAXTREL_OK) return 19;
    if (s.work.built + s.work.reused > 3 || s.work.passed > 3) return 20;
    if (s.work.built + s.work.reused + s.work.passed == 0) return 22;
    gaxtrel_session_free(&s);
    gaxtrel_session_free(&s);
    return gaxtrel_session_replies(&s, 0, into, 2, &count) == GAXTREL_NO_SESSION ? 0 : 21;
}

int main(void) {
    int wrong = misused();
    if (!wrong) wrong = edited();
    long runs = 0, refusals = 0;
    for (long n = -1; !wrong; n++) {
        gaxtrel_session s = GAXTREL_NONE;
        bool refused = false;
        left = n;
        uint32_t status = gaxtrel_session_open(&s, 16);
        if (status == GAXTREL_OK) wrong = answered(&s, &refused);
        else if (status == GAXTREL_NO_MEMORY) refused = true;
        else wrong = 30;
        bool reached = left < 0;
        left = -1;
        if (n < 0 && refused) wrong = 31;
        gaxtrel_session_free(&s);
        runs++;
        refusals += refused;
        if (!wrong && live != 0) wrong = 32;
        if (wrong) printf("allocation %ld: %ld blocks left\n", n, live);
        if (n >= 0 && !reached) break;
    }
    if (wrong) printf("check %d\n", wrong);
    else printf("%ld runs of a session, %ld of them refused\n", runs, refusals);
    return wrong;
}
