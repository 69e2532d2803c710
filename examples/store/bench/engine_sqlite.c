/* SPDX-License-Identifier: Apache-2.0 */
/* SQLite in WAL mode, synchronous=FULL: each commit syncs the log. A connection for each thread. */
#include "engines.h"
#include <sqlite3.h>
#include <stdio.h>
#include <stdlib.h>
#include <string.h>

typedef struct opened {
    char path[4096];
    size_t cache_bytes;
} opened;
typedef struct session {
    sqlite3 *db;
    sqlite3_stmt *get, *put, *scan, *begin, *commit;
} session;

static void run(sqlite3 *db, const char *text) { must(sqlite3_exec(db, text, NULL, NULL, NULL), text); }
static sqlite3_stmt *prepare(sqlite3 *db, const char *text) {
    sqlite3_stmt *made;
    must(sqlite3_prepare_v2(db, text, -1, &made, NULL), text);
    return made;
}
static void *begin(void *of) {
    opened *from = of;
    session *it = malloc(sizeof *it);
    char text[100];
    must(sqlite3_open(from->path, &it->db), "sqlite3_open");
    sqlite3_busy_timeout(it->db, 60000);
    snprintf(text, sizeof text, "PRAGMA cache_size=-%zu", from->cache_bytes / 1024);
    run(it->db, "PRAGMA journal_mode=WAL");
    run(it->db, "PRAGMA synchronous=FULL");
    run(it->db, text);
    run(it->db, "CREATE TABLE IF NOT EXISTS t(k BLOB PRIMARY KEY, v BLOB) WITHOUT ROWID");
    it->get = prepare(it->db, "SELECT v FROM t WHERE k=?1");
    it->put = prepare(it->db, "INSERT OR REPLACE INTO t VALUES(?1,?2)");
    it->scan = prepare(it->db, "SELECT k,v FROM t WHERE k>=?1 ORDER BY k LIMIT ?2");
    it->begin = prepare(it->db, "BEGIN IMMEDIATE");
    it->commit = prepare(it->db, "COMMIT");
    return it;
}
static void end(void *of) {
    session *it = of;
    sqlite3_finalize(it->get), sqlite3_finalize(it->put), sqlite3_finalize(it->scan);
    sqlite3_finalize(it->begin), sqlite3_finalize(it->commit);
    sqlite3_close(it->db);
    free(it);
}
static void *open_it(const char *folder, size_t cache_bytes) {
    opened *it = malloc(sizeof *it);
    snprintf(it->path, sizeof it->path, "%s/sqlite", folder);
    it->cache_bytes = cache_bytes;
    end(begin(it));
    return it;
}
static void step(sqlite3_stmt *it, int expected) {
    int status = sqlite3_step(it);
    must(status == expected ? 0 : status, "sqlite3_step");
    sqlite3_reset(it);
}
static int get(void *of, const void *key, size_t key_length, void *value, size_t room) {
    session *it = of;
    sqlite3_bind_blob(it->get, 1, key, (int)key_length, SQLITE_STATIC);
    int status = sqlite3_step(it->get), found = status == SQLITE_ROW;
    if (found) {
        size_t length = (size_t)sqlite3_column_bytes(it->get, 0);
        memcpy(value, sqlite3_column_blob(it->get, 0), length < room ? length : room);
    } else {
        must(status == SQLITE_DONE ? 0 : status, "sqlite3_step");
    }
    sqlite3_reset(it->get);
    return found;
}
static void put_one(session *it, const void *key, size_t key_length, const void *value, size_t value_length) {
    sqlite3_bind_blob(it->put, 1, key, (int)key_length, SQLITE_STATIC);
    sqlite3_bind_blob(it->put, 2, value, (int)value_length, SQLITE_STATIC);
    step(it->put, SQLITE_DONE);
}
static void load(void *of, const void *keys, size_t key_length, size_t count, const void *value, size_t value_length) {
    session *it = of;
    step(it->begin, SQLITE_DONE);
    for (size_t i = 0; i < count; i++) put_one(it, (const char *)keys + i * key_length, key_length, value, value_length);
    step(it->commit, SQLITE_DONE);
}
static void put(void *of, const void *key, size_t key_length, const void *value, size_t value_length) {
    load(of, key, key_length, 1, value, value_length);
}
static size_t scan(void *of, const void *key, size_t key_length, size_t most) {
    session *it = of;
    size_t count = 0;
    sqlite3_bind_blob(it->scan, 1, key, (int)key_length, SQLITE_STATIC);
    sqlite3_bind_int64(it->scan, 2, (sqlite3_int64)most);
    while (sqlite3_step(it->scan) == SQLITE_ROW) count++;
    sqlite3_reset(it->scan);
    return count;
}
static void settle(void *of) {
    session *it = begin(of);
    run(it->db, "PRAGMA wal_checkpoint(TRUNCATE)");
    end(it);
}
static void close_it(void *of) { free(of); }
const engine sqlite_engine = {"SQLite", open_it, begin, get, put, load, scan, end, settle, close_it};
