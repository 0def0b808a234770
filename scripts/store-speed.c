/* Commits into a record's tables through SQLite's own library, with the statements and settings of px_store: for each
   position the row there is read, then one row is replaced. The words: FILE accept|learn FROM TO BYTES, or
   FILE read TIMES. */
#include <sqlite3.h>
#include <stdio.h>
#include <stdlib.h>
#include <string.h>

static sqlite3 *db;

static void must(int code, int wanted)
{
    if (code != wanted) {
        fprintf(stderr, "%s\n", sqlite3_errmsg(db));
        exit(1);
    }
}

static void run(const char *sql)
{
    must(sqlite3_exec(db, sql, NULL, NULL, NULL), SQLITE_OK);
}

static sqlite3_stmt *prepared(const char *sql)
{
    sqlite3_stmt *statement;
    must(sqlite3_prepare_v2(db, sql, -1, &statement, NULL), SQLITE_OK);
    return statement;
}

/* how many rows the statement answers */
static int rows(sqlite3_stmt *statement)
{
    int count = 0;
    while (sqlite3_step(statement) == SQLITE_ROW)
        count++;
    sqlite3_reset(statement);
    return count;
}

static void tables(void)
{
    run("PRAGMA journal_mode=WAL");
    run("PRAGMA synchronous=FULL");
    run("CREATE TABLE IF NOT EXISTS slots (position INTEGER PRIMARY KEY, promised INTEGER NOT NULL, "
        "ballot INTEGER NOT NULL, entry BLOB NOT NULL) STRICT");
    run("CREATE TABLE IF NOT EXISTS learned (position INTEGER PRIMARY KEY, entry BLOB NOT NULL) STRICT");
}

static void reads(long times)
{
    sqlite3_stmt *top = prepared("SELECT position FROM slots WHERE ballot > 0 ORDER BY position DESC LIMIT 1");
    sqlite3_stmt *end = prepared("SELECT position FROM learned ORDER BY position DESC LIMIT 1");
    long found = 0;
    for (long n = 0; n < times; n++)
        found += rows(top) + rows(end);
    printf("%ld\n", found);
}

static void commits(int accepts, long from, long to, int length)
{
    char *entry = calloc(1, length);
    entry[0] = 1;
    sqlite3_stmt *get = prepared(accepts ? "SELECT position, promised, ballot, entry FROM slots WHERE position = ?1"
                                         : "SELECT position, entry FROM learned WHERE position = ?1");
    sqlite3_stmt *put = prepared(accepts ? "INSERT OR REPLACE INTO slots VALUES (?1, ?2, ?3, ?4)"
                                         : "INSERT OR REPLACE INTO learned VALUES (?1, ?2)");
    for (long position = from; position < to; position++) {
        sqlite3_bind_int64(get, 1, position);
        rows(get);
        sqlite3_bind_int64(put, 1, position);
        if (accepts) {
            sqlite3_bind_int64(put, 2, 256);
            sqlite3_bind_int64(put, 3, 256);
            sqlite3_bind_blob(put, 4, entry, length, SQLITE_STATIC);
        } else {
            sqlite3_bind_blob(put, 2, entry, length, SQLITE_STATIC);
        }
        must(sqlite3_step(put), SQLITE_DONE);
        sqlite3_reset(put);
    }
}

int main(int count, char **words)
{
    if (count < 4 || sqlite3_open(words[1], &db) != SQLITE_OK)
        return 2;
    tables();
    if (strcmp(words[2], "read") == 0)
        reads(atol(words[3]));
    else if (count == 6)
        commits(strcmp(words[2], "accept") == 0, atol(words[3]), atol(words[4]), atoi(words[5]));
    else
        return 2;
    return 0;
}
