/* bench_sqlite: the statements of crates/bench_store by the C library of SQLite, so that their times can be compared.

   cc -O2 -o bench_sqlite bench_sqlite.c -lsqlite3
   bench_sqlite FILE one-to-one|commits|fill|load ROUNDS

   It is compiled by hand, and no part of the gate. A file that is not there is made, with the tables of a store, one durable
   subscription and no message. The nanoseconds of the opening, which reads all tables, and of a round are printed. */
#include <sqlite3.h>
#include <stdio.h>
#include <stdlib.h>
#include <string.h>
#include <time.h>

enum { COMMIT = 100, FILL = 1000, RECORD = 96 };

static const char TABLES[] =
    "BEGIN;"
    "CREATE TABLE meta (id INTEGER PRIMARY KEY CHECK (id = 1), version INTEGER NOT NULL, opening INTEGER NOT NULL) STRICT;"
    "CREATE TABLE station (family INTEGER NOT NULL, client TEXT NOT NULL, name TEXT NOT NULL, shared INTEGER NOT NULL,"
    " topic TEXT NOT NULL, selector TEXT NOT NULL, no_local INTEGER NOT NULL, PRIMARY KEY (family, client, name)) STRICT;"
    "CREATE TABLE message (place INTEGER PRIMARY KEY, record BLOB NOT NULL) STRICT;"
    "CREATE TABLE held (family INTEGER NOT NULL, client TEXT NOT NULL, name TEXT NOT NULL,"
    " place INTEGER NOT NULL REFERENCES message(place), deliveries INTEGER NOT NULL CHECK (deliveries >= 0),"
    " PRIMARY KEY (family, client, name, place),"
    " FOREIGN KEY (family, client, name) REFERENCES station(family, client, name)) STRICT;"
    "CREATE INDEX held_by_place ON held(place);"
    "CREATE TABLE delayed (place INTEGER PRIMARY KEY REFERENCES message(place), due INTEGER NOT NULL CHECK (due > 0)) STRICT;"
    "INSERT INTO meta VALUES (1, 2, 1);"
    "INSERT INTO station VALUES (2, 'client', 'subscription', 0, 'topic', '', 0);"
    "COMMIT";

static const char PUT_MESSAGE[] = "INSERT INTO message (place, record) VALUES (?1, ?2)";
static const char PUT_HELD[] =
    "INSERT INTO held (family, client, name, place, deliveries) VALUES (?1, ?2, ?3, ?4, 0)";
static const char DROP_HELD[] = "DELETE FROM held WHERE family = ?1 AND client = ?2 AND name = ?3 AND place = ?4";
static const char DROP_MESSAGE[] = "DELETE FROM message WHERE place = ?1";

static sqlite3 *base;
static sqlite3_stmt *put_message, *put_held, *drop_held, *drop_message;

static void must(int told) {
    if (told != SQLITE_OK && told != SQLITE_DONE && told != SQLITE_ROW) {
        fprintf(stderr, "bench_sqlite: %s\n", sqlite3_errmsg(base));
        exit(1);
    }
}

static double now(void) {
    struct timespec at;
    clock_gettime(CLOCK_MONOTONIC, &at);
    return at.tv_sec * 1e9 + at.tv_nsec;
}

static void run(const char *text) { must(sqlite3_exec(base, text, NULL, NULL, NULL)); }

static void step(sqlite3_stmt *statement) {
    must(sqlite3_step(statement));
    must(sqlite3_reset(statement));
}

static void bind_key(sqlite3_stmt *statement, sqlite3_int64 place) {
    must(sqlite3_bind_int(statement, 1, 2));
    must(sqlite3_bind_text(statement, 2, "client", -1, SQLITE_STATIC));
    must(sqlite3_bind_text(statement, 3, "subscription", -1, SQLITE_STATIC));
    must(sqlite3_bind_int64(statement, 4, place));
}

static void put(sqlite3_int64 place) {
    static char record[RECORD];
    must(sqlite3_bind_int64(put_message, 1, place));
    must(sqlite3_bind_blob(put_message, 2, record, sizeof record, SQLITE_STATIC));
    step(put_message);
    bind_key(put_held, place);
    step(put_held);
}

static void drop(sqlite3_int64 place) {
    bind_key(drop_held, place);
    step(drop_held);
    must(sqlite3_bind_int64(drop_message, 1, place));
    step(drop_message);
}

/* Reads all rows of the query; how many there are. */
static long long read_all(const char *text) {
    sqlite3_stmt *query;
    long long rows = 0;
    must(sqlite3_prepare_v2(base, text, -1, &query, NULL));
    for (; sqlite3_step(query) == SQLITE_ROW; rows++)
        for (int at = 0; at < sqlite3_column_count(query); at++)
            sqlite3_column_blob(query, at);
    must(sqlite3_finalize(query));
    return rows;
}

static sqlite3_int64 load(void) {
    run("BEGIN; UPDATE meta SET version = 2, opening = opening + 1 WHERE id = 1; COMMIT");
    read_all("SELECT family, client, name, shared, topic, selector, no_local FROM station ORDER BY family, client, name");
    long long kept = read_all("SELECT place, record FROM message ORDER BY place");
    read_all("SELECT family, client, name, place, deliveries FROM held ORDER BY family, client, name, place");
    read_all("SELECT place, due FROM delayed ORDER BY place");
    sqlite3_stmt *query;
    must(sqlite3_prepare_v2(base, "SELECT coalesce(max(place), 0) + 1 FROM message", -1, &query, NULL));
    must(sqlite3_step(query));
    sqlite3_int64 next = sqlite3_column_int64(query, 0);
    must(sqlite3_finalize(query));
    printf("kept %lld before\n", kept);
    return next;
}

static void open_base(const char *name) {
    must(sqlite3_open(name, &base));
    run("PRAGMA journal_mode = WAL; PRAGMA synchronous = FULL; PRAGMA foreign_keys = ON");
    if (!read_all("SELECT 1 FROM sqlite_schema WHERE name = 'meta'"))
        run(TABLES);
    must(sqlite3_prepare_v2(base, PUT_MESSAGE, -1, &put_message, NULL));
    must(sqlite3_prepare_v2(base, PUT_HELD, -1, &put_held, NULL));
    must(sqlite3_prepare_v2(base, DROP_HELD, -1, &drop_held, NULL));
    must(sqlite3_prepare_v2(base, DROP_MESSAGE, -1, &drop_message, NULL));
}

static void one_to_one(sqlite3_int64 place) {
    run("BEGIN");
    put(place);
    run("COMMIT");
    run("BEGIN");
    drop(place);
    run("COMMIT");
}

static void commit(sqlite3_int64 first, int count) {
    run("BEGIN");
    for (int at = 0; at < count; at++)
        put(first + at);
    run("COMMIT");
}

static int work(const char *name, sqlite3_int64 next, int rounds) {
    if (!strcmp(name, "one-to-one"))
        for (int at = 0; at < rounds; at++)
            one_to_one(next + at);
    else if (!strcmp(name, "commits"))
        for (int at = 0; at < rounds; at++)
            commit(next + (sqlite3_int64)at * COMMIT, COMMIT);
    else if (!strcmp(name, "fill"))
        for (int at = 0; at < rounds; at += FILL)
            commit(next + at, rounds - at < FILL ? rounds - at : FILL);
    else
        return !strcmp(name, "load");
    return 1;
}

int main(int count, char **words) {
    if (count != 4 || (strcmp(words[2], "load") && atoi(words[3]) < 1)) {
        fprintf(stderr, "bench_sqlite: FILE one-to-one|commits|fill|load ROUNDS\n");
        return 2;
    }
    double start = now();
    open_base(words[1]);
    sqlite3_int64 next = load();
    printf("opening %.0f ns\n", now() - start);
    start = now();
    if (!work(words[2], next, atoi(words[3])))
        return 2;
    if (strcmp(words[2], "load"))
        printf("round %.0f ns\n", (now() - start) / atoi(words[3]));
    /* (nothing is closed: a close would copy the log, which a run of the store leaves beside the file) */
    fflush(stdout);
    _Exit(0);
}
