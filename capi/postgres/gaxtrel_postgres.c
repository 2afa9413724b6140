/* A PostgreSQL extension: gaxtrel_match(text, pattern) and gaxtrel_part(text, pattern). Patterns are extended. Each
   line of a text is searched alone, as by `~` with (?n), and between lines a query can be cancelled. A part that cuts
   a character is widened to all of it. */
#include "postgres.h"

#include "fmgr.h"
#include "mb/pg_wchar.h"
#include "miscadmin.h"
#include "utils/builtins.h"

#include "gaxtrel.h"

PG_MODULE_MAGIC;

/* What a call site keeps: a matcher, and the pattern that it is of. It goes with the memory context that it is in. */
typedef struct kept {
    gaxtrel_matcher matcher;
    text *pattern;
    MemoryContextCallback end;
} kept;

static void drop(void *held) { gaxtrel_free(&((kept *)held)->matcher); }

static kept *new_kept(MemoryContext context) {
    kept *made = MemoryContextAllocZero(context, sizeof *made);
    made->end = (MemoryContextCallback){.func = drop, .arg = made};
    MemoryContextRegisterResetCallback(context, &made->end);
    return made;
}

static void compile(gaxtrel_matcher *matcher, const text *pattern) {
    gaxtrel_fault fault;
    uint32_t answer = gaxtrel_compile(matcher, (const uint8_t *)VARDATA_ANY(pattern), VARSIZE_ANY_EXHDR(pattern),
                                      GAXTREL_EXTENDED, false, false, &fault);
    if (answer == GAXTREL_REFUSED)
        ereport(ERROR, errcode(ERRCODE_INVALID_REGULAR_EXPRESSION),
                errmsg("invalid regular expression: %s at %zu", gaxtrel_kind_name(fault.kind), fault.at));
    if (answer != GAXTREL_OK) ereport(ERROR, errcode(ERRCODE_OUT_OF_MEMORY), errmsg("out of memory"));
}

/* The matcher of a pattern, which is compiled where the call before had another. */
static gaxtrel_matcher *matcher_of(FmgrInfo *site, const text *pattern) {
    kept *held = site->fn_extra;
    size_t size = VARSIZE_ANY(pattern);
    if (!held) held = site->fn_extra = new_kept(site->fn_mcxt);
    if (held->pattern && VARSIZE_ANY(held->pattern) == size && !memcmp(held->pattern, pattern, size))
        return &held->matcher;
    if (held->pattern) pfree(held->pattern);
    held->pattern = NULL;
    compile(&held->matcher, pattern);
    held->pattern = memcpy(MemoryContextAlloc(site->fn_mcxt, size), pattern, size);
    return &held->matcher;
}

/* The lines of a text, one after the other: the next one is from `start` to `end`. */
typedef struct lines {
    const char *text;
    size_t length, start, end;
} lines;

static lines lines_of(const text *text) {
    return (lines){VARDATA_ANY(text), VARSIZE_ANY_EXHDR(text), 0, 0};
}

/* Puts the line at `start`, if there is one; after the last newline there is always one more. */
static bool has_line(lines *here) {
    const char *newline;
    CHECK_FOR_INTERRUPTS();
    if (here->start > here->length) return false;
    newline = memchr(here->text + here->start, '\n', here->length - here->start);
    here->end = newline ? (size_t)(newline - here->text) : here->length;
    return true;
}

PG_FUNCTION_INFO_V1(gaxtrel_match);
Datum gaxtrel_match(PG_FUNCTION_ARGS) {
    lines here = lines_of(PG_GETARG_TEXT_PP(0));
    gaxtrel_matcher *matcher = matcher_of(fcinfo->flinfo, PG_GETARG_TEXT_PP(1));
    for (; has_line(&here); here.start = here.end + 1) {
        const uint8_t *line = (const uint8_t *)here.text + here.start;
        if (gaxtrel_is_match(matcher, line, here.end - here.start) == GAXTREL_YES) PG_RETURN_BOOL(true);
    }
    PG_RETURN_BOOL(false);
}

/* The part of a line with all of its first and its last character. */
static text *widened(const char *line, size_t length, gaxtrel_part part) {
    int start = pg_mbcliplen(line, length, part.start), end = pg_mbcliplen(line, length, part.end);
    if ((size_t)end < part.end) end += pg_mblen(line + end);
    return cstring_to_text_with_len(line + start, end - start);
}

PG_FUNCTION_INFO_V1(gaxtrel_part_of);
Datum gaxtrel_part_of(PG_FUNCTION_ARGS) {
    lines here = lines_of(PG_GETARG_TEXT_PP(0));
    gaxtrel_matcher *matcher = matcher_of(fcinfo->flinfo, PG_GETARG_TEXT_PP(1));
    for (; has_line(&here); here.start = here.end + 1) {
        const char *line = here.text + here.start;
        size_t length = here.end - here.start;
        gaxtrel_part part;
        if (gaxtrel_find(matcher, (const uint8_t *)line, length, 0, &part) == GAXTREL_YES)
            PG_RETURN_TEXT_P(widened(line, length, part));
    }
    PG_RETURN_NULL();
}
