/* A SQLite extension: `text REGEXP pattern`, gaxtrel_part(pattern, text), and the table gaxtrel_parts(pattern, text) of
   `part`, `first` and `end`. Patterns are extended. A text is one line, whatever its bytes are; places are of bytes,
   from 0. A part that cuts a character of UTF-8 is widened to all of it, and one that begins in the part before it is
   left out. */
#include "gaxtrel.h"
#include <sqlite3ext.h>
#include <string.h>

SQLITE_EXTENSION_INIT1

/* SQLITE_OK; SQLITE_NOMEM; or for a refused pattern SQLITE_ERROR, and a message in place of none. */
static int compile(gaxtrel_matcher *matcher, sqlite3_value *pattern, char **message) {
    gaxtrel_fault fault;
    const uint8_t *text = sqlite3_value_text(pattern);
    int length = sqlite3_value_bytes(pattern);
    if (!text) return SQLITE_NOMEM;
    uint32_t answer = gaxtrel_compile(matcher, text, length, GAXTREL_EXTENDED, false, false, &fault);
    if (answer == GAXTREL_OK) return SQLITE_OK;
    if (answer == GAXTREL_REFUSED)
        *message = sqlite3_mprintf("gaxtrel: %s at %llu", gaxtrel_kind_name(fault.kind), (unsigned long long)fault.at);
    return *message ? SQLITE_ERROR : SQLITE_NOMEM;
}

/* The part with all of its first and of its last character. */
static gaxtrel_part widened(gaxtrel_part part, const uint8_t *text, size_t length) {
    while (part.start > 0 && text[part.start] >> 6 == 2) part.start--;
    while (part.end < length && text[part.end] >> 6 == 2) part.end++;
    return part;
}

/* The functions. */

static void drop(void *matcher) {
    gaxtrel_free(matcher);
    sqlite3_free(matcher);
}

/* The matcher of a call's pattern, which is kept while the pattern is the same constant; or none, and an error. */
static gaxtrel_matcher *matcher_of(sqlite3_context *context, sqlite3_value *pattern) {
    gaxtrel_matcher *matcher = sqlite3_get_auxdata(context, 0);
    char *message = 0;
    if (matcher) return matcher;
    matcher = sqlite3_malloc(sizeof *matcher);
    if (matcher) {
        *matcher = (gaxtrel_matcher)GAXTREL_NONE;
        if (compile(matcher, pattern, &message) == SQLITE_OK) {
            sqlite3_set_auxdata(context, 0, matcher, drop); /* which drops it where memory is refused */
            matcher = sqlite3_get_auxdata(context, 0);
            if (matcher) return matcher;
        } else {
            drop(matcher);
        }
    }
    if (message) sqlite3_result_error(context, message, -1);
    else sqlite3_result_error_nomem(context);
    sqlite3_free(message);
    return 0;
}

static bool has_null(sqlite3_value **words) {
    return sqlite3_value_type(words[0]) == SQLITE_NULL || sqlite3_value_type(words[1]) == SQLITE_NULL;
}

static void show(sqlite3_context *context, const uint8_t *text, gaxtrel_part part) {
    const char *start = (const char *)text + part.start;
    sqlite3_result_text64(context, start, part.end - part.start, SQLITE_TRANSIENT, SQLITE_UTF8);
}

/* Both functions; what was given to sqlite3_create_function says whether a part is wanted. */
static void answer(sqlite3_context *context, int count, sqlite3_value **words) {
    (void)count;
    if (has_null(words)) return;
    gaxtrel_part part;
    gaxtrel_matcher *matcher = matcher_of(context, words[0]);
    const uint8_t *text = sqlite3_value_text(words[1]);
    size_t length = (size_t)sqlite3_value_bytes(words[1]);
    if (!matcher) return;
    if (!text)
        sqlite3_result_error_nomem(context);
    else if (!sqlite3_user_data(context))
        sqlite3_result_int(context, gaxtrel_is_match(matcher, text, length) == GAXTREL_YES);
    else if (gaxtrel_find(matcher, text, length, 0, &part) == GAXTREL_YES)
        show(context, text, widened(part, text, length));
}

/* The table. */

enum { PART, FIRST, END, PATTERN, TEXT };

/* Where a reading is: `shown` is the part of its row, `at` the number of the part after it. */
typedef struct cursor {
    sqlite3_vtab_cursor base;
    gaxtrel_matcher matcher;
    sqlite3_value *pattern, *text;
    gaxtrel_part *parts, shown;
    size_t count, at;
    bool ended;
} cursor;

static int parts_connect(sqlite3 *db, void *aux, int count, const char *const *words, sqlite3_vtab **table,
                         char **message) {
    (void)aux, (void)count, (void)words, (void)message;
    int code = sqlite3_declare_vtab(db, "CREATE TABLE parts(part, first, end, pattern HIDDEN, text HIDDEN)");
    if (code != SQLITE_OK) return code;
    *table = sqlite3_malloc(sizeof **table);
    if (!*table) return SQLITE_NOMEM;
    **table = (sqlite3_vtab){0};
    return SQLITE_OK;
}

static int parts_disconnect(sqlite3_vtab *table) {
    sqlite3_free(table);
    return SQLITE_OK;
}

/* The pattern and the text have to be known. */
static int parts_best_index(sqlite3_vtab *table, sqlite3_index_info *info) {
    int known = 0;
    (void)table;
    for (int k = 0; k < info->nConstraint; k++) {
        int word = info->aConstraint[k].iColumn - PATTERN;
        if (word < 0 || info->aConstraint[k].op != SQLITE_INDEX_CONSTRAINT_EQ || !info->aConstraint[k].usable) continue;
        info->aConstraintUsage[k].argvIndex = word + 1;
        known |= 1 << word;
    }
    info->estimatedCost = 100;
    return known == 3 ? SQLITE_OK : SQLITE_CONSTRAINT;
}

static int parts_open(sqlite3_vtab *table, sqlite3_vtab_cursor **base) {
    cursor *made = sqlite3_malloc(sizeof *made);
    (void)table;
    if (!made) return SQLITE_NOMEM;
    *made = (cursor){.matcher = GAXTREL_NONE};
    *base = &made->base;
    return SQLITE_OK;
}

static int parts_close(sqlite3_vtab_cursor *base) {
    cursor *here = (cursor *)base;
    gaxtrel_free(&here->matcher);
    sqlite3_value_free(here->pattern);
    sqlite3_value_free(here->text);
    sqlite3_free(here->parts);
    sqlite3_free(here);
    return SQLITE_OK;
}

/* Goes to the next part. One that begins within the widened part before it is left out. */
static int parts_next(sqlite3_vtab_cursor *base) {
    cursor *here = (cursor *)base;
    while (here->at < here->count && here->parts[here->at].start < here->shown.end) here->at++;
    here->ended = here->at >= here->count;
    if (!here->ended)
        here->shown = widened(here->parts[here->at++], sqlite3_value_text(here->text), sqlite3_value_bytes(here->text));
    return SQLITE_OK;
}

/* Another text, and its parts. */
static int put_text(cursor *here, sqlite3_value *text) {
    sqlite3_value_free(here->text);
    sqlite3_free(here->parts);
    here->parts = 0, here->count = here->at = 0, here->shown = (gaxtrel_part){0, 0};
    here->text = sqlite3_value_dup(text);
    if (!here->text || !sqlite3_value_text(here->text)) return SQLITE_NOMEM;
    size_t length = (size_t)sqlite3_value_bytes(here->text);
    here->parts = sqlite3_malloc64(length * sizeof *here->parts);
    if (length && !here->parts) return SQLITE_NOMEM;
    uint32_t found = gaxtrel_parts(&here->matcher, sqlite3_value_text(here->text), length, 0, here->parts, length,
                                   &here->count);
    return found == GAXTREL_NO_MEMORY ? SQLITE_NOMEM : SQLITE_OK;
}

/* Another pattern, if it is another. */
static int put_pattern(sqlite3_vtab_cursor *base, sqlite3_value *pattern) {
    cursor *here = (cursor *)base;
    const char *before = here->pattern ? (const char *)sqlite3_value_text(here->pattern) : 0;
    const char *text = (const char *)sqlite3_value_text(pattern);
    int length = sqlite3_value_bytes(pattern);
    if (before && text && sqlite3_value_bytes(here->pattern) == length && !memcmp(before, text, length))
        return SQLITE_OK;
    sqlite3_value_free(here->pattern);
    here->pattern = 0;
    int code = compile(&here->matcher, pattern, &base->pVtab->zErrMsg);
    if (code != SQLITE_OK) return code;
    here->pattern = sqlite3_value_dup(pattern);
    return here->pattern ? SQLITE_OK : SQLITE_NOMEM;
}

static int parts_filter(sqlite3_vtab_cursor *base, int plan, const char *name, int count, sqlite3_value **words) {
    (void)plan, (void)name, (void)count;
    ((cursor *)base)->ended = true;
    if (has_null(words)) return SQLITE_OK;
    int code = put_pattern(base, words[0]);
    if (code == SQLITE_OK) code = put_text((cursor *)base, words[1]);
    return code == SQLITE_OK ? parts_next(base) : code;
}

static int parts_eof(sqlite3_vtab_cursor *base) { return ((cursor *)base)->ended; }

static int parts_column(sqlite3_vtab_cursor *base, sqlite3_context *context, int column) {
    cursor *here = (cursor *)base;
    if (column == PART) show(context, sqlite3_value_text(here->text), here->shown);
    if (column == FIRST) sqlite3_result_int64(context, (sqlite3_int64)here->shown.start);
    if (column == END) sqlite3_result_int64(context, (sqlite3_int64)here->shown.end);
    if (column == PATTERN) sqlite3_result_value(context, here->pattern);
    if (column == TEXT) sqlite3_result_value(context, here->text);
    return SQLITE_OK;
}

static int parts_rowid(sqlite3_vtab_cursor *base, sqlite3_int64 *row) {
    *row = (sqlite3_int64)((cursor *)base)->at;
    return SQLITE_OK;
}

static const sqlite3_module parts = {
    .xConnect = parts_connect, .xDisconnect = parts_disconnect, .xBestIndex = parts_best_index, .xOpen = parts_open,
    .xClose = parts_close, .xFilter = parts_filter, .xNext = parts_next, .xEof = parts_eof, .xColumn = parts_column,
    .xRowid = parts_rowid};

int sqlite3_gaxtrel_init(sqlite3 *db, char **message, const sqlite3_api_routines *api) {
    enum { KIND = SQLITE_UTF8 | SQLITE_DETERMINISTIC | SQLITE_INNOCUOUS };
    SQLITE_EXTENSION_INIT2(api);
    (void)message;
    int code = sqlite3_create_function(db, "regexp", 2, KIND, 0, answer, 0, 0);
    if (code == SQLITE_OK) code = sqlite3_create_function(db, "gaxtrel_part", 2, KIND, "", answer, 0, 0);
    return code == SQLITE_OK ? sqlite3_create_module(db, "gaxtrel_parts", &parts, 0) : code;
}
