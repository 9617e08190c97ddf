/*
 * A SQLite extension: tezqulom_ask(table, record, filter), the truth of a filter over a record.
 *
 *     SELECT id FROM records WHERE tezqulom_ask(:table, record, :filter) LIKE 'TRUE %';
 *
 * The table and the record are BLOBs, the filter is TEXT. The answer is a text: `TRUE n`, `FALSE n` or `UNDEFINED n` with the number of
 * tests made, or `REFUSED n` with the refusal's number; it is never NULL. The budget is the largest. An argument of another type, NULL
 * too, is an SQL error. The function is deterministic, and nothing is kept between calls.
 */
#include "tezqulom.h"

#include <sqlite3ext.h>
#include <stddef.h>
SQLITE_EXTENSION_INIT1

#ifndef SQLITE_INNOCUOUS
#define SQLITE_INNOCUOUS 0
#endif

enum { TABLE, RECORD, FILTER, ARGUMENTS };

static const char *const errors[ARGUMENTS] = {
    "tezqulom_ask: the table (first argument) is not a BLOB",
    "tezqulom_ask: the record (second argument) is not a BLOB",
    "tezqulom_ask: the filter (third argument) is not TEXT",
};

/* The word of an answer; the number after it is the count, and of a refusal the refusal's. */
static const char *word(uint64_t number)
{
    switch (number) {
    case TEZQULOM_TRUE:
        return "TRUE";
    case TEZQULOM_FALSE:
        return "FALSE";
    case TEZQULOM_UNDEFINED:
        return "UNDEFINED";
    default:
        return "REFUSED";
    }
}

static void ask(sqlite3_context *context, int count, sqlite3_value **arguments)
{
    const uint8_t *at[ARGUMENTS];
    uint64_t length[ARGUMENTS];
    char text[32];
    tezqulom_answer answer;
    int i;
    (void)count;
    for (i = 0; i < ARGUMENTS; i++) {
        if (sqlite3_value_type(arguments[i]) != (i == FILTER ? SQLITE_TEXT : SQLITE_BLOB)) {
            sqlite3_result_error(context, errors[i], -1);
            return;
        }
        at[i] = i == FILTER ? sqlite3_value_text(arguments[i]) : sqlite3_value_blob(arguments[i]);
        length[i] = (uint64_t)sqlite3_value_bytes(arguments[i]);
        if (at[i] == NULL && (i == FILTER || length[i] > 0)) {
            sqlite3_result_error_nomem(context);
            return;
        }
    }
    answer = tezqulom_ask(at[TABLE], length[TABLE], at[RECORD], length[RECORD], at[FILTER], length[FILTER], TEZQULOM_MAX_BUDGET);
    sqlite3_snprintf(sizeof text, text, "%s %u", word(answer.number),
                     (unsigned)(answer.number < TEZQULOM_FALSE ? answer.number : answer.count));
    sqlite3_result_text(context, text, -1, SQLITE_TRANSIENT);
}

/* SQLite looks for this name in a file tezqulom_sqlite.so. */
__attribute__((visibility("default")))
int sqlite3_tezqulomsqlite_init(sqlite3 *database, char **message, const sqlite3_api_routines *api)
{
    SQLITE_EXTENSION_INIT2(api);
    (void)message;
    return sqlite3_create_function(database, "tezqulom_ask", ARGUMENTS, SQLITE_UTF8 | SQLITE_DETERMINISTIC | SQLITE_INNOCUOUS, NULL, ask, NULL,
                                   NULL);
}
