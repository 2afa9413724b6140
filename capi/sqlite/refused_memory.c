/* Each request for memory of a few queries is refused in turn, SQLite's and the library's: a query ends with its rows
   or with SQLITE_NOMEM, and all is freed. SQLite is linked in, so that its requests are seen. */
#include "tests/refusals.h"
#include <sqlite3.h>
#include <stdbool.h>
#include <stdio.h>
#include <string.h>

int sqlite3_gaxtrel_init(sqlite3 *db, char **message, const sqlite3_api_routines *api);

static const char *const QUERIES[][2] = {
    {"SELECT column1 REGEXP 'a(b|c)+d' FROM (VALUES ('xabcd'), ('x'))", "1,0,"},
    {"SELECT gaxtrel_part('[0-9]{2,3}', column1) FROM (VALUES ('a1234'), ('b77'))", "123,77,"},
    {"SELECT part FROM (VALUES ('ab abc'), ('xab')), gaxtrel_parts('abc?', column1)", "ab,abc,ab,"}};

/* How a query ends; its first column goes to `rows`. */
static int answer(const char *query, char *rows) {
    sqlite3 *db = 0;
    sqlite3_stmt *statement = 0;
    int code = sqlite3_open(":memory:", &db);
    *rows = 0;
    if (code == SQLITE_OK) code = sqlite3_gaxtrel_init(db, 0, 0);
    if (code == SQLITE_OK) code = sqlite3_prepare_v2(db, query, -1, &statement, 0);
    while (code == SQLITE_OK || code == SQLITE_ROW) {
        code = sqlite3_step(statement);
        if (code != SQLITE_ROW) break;
        const char *column = (const char *)sqlite3_column_text(statement, 0);
        strcat(strcat(rows, column ? column : "?"), ",");
    }
    sqlite3_finalize(statement);
    sqlite3_close(db);
    return code;
}

int main(void) {
    char rows[100];
    long runs = 0, refused = 0;
    sqlite3_config(SQLITE_CONFIG_LOOKASIDE, 0, 0);
    sqlite3_initialize();
    long before = live;
    for (size_t k = 0; k < sizeof QUERIES / sizeof *QUERIES; k++) {
        for (long at = 0;; at++) {
            left = at;
            int code = answer(QUERIES[k][0], rows);
            bool untouched = left >= 0;
            left = -1, runs++, refused += code == SQLITE_NOMEM;
            if (live != before || (code == SQLITE_DONE ? strcmp(rows, QUERIES[k][1]) != 0 : code != SQLITE_NOMEM)) {
                printf("%s, request %ld: code %d, rows %s, %ld blocks left\n", QUERIES[k][0], at, code, rows,
                       live - before);
                return 1;
            }
            if (untouched) break;
        }
    }
    printf("%ld runs with a request refused, %ld times SQLITE_NOMEM, else the rows\n", runs, refused);
    return 0;
}
