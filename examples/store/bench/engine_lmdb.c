/* SPDX-License-Identifier: Apache-2.0 */
/* LMDB maps its file: it has no memory of its own for pages, and the system gives it what there is. */
#include "engines.h"
#include <lmdb.h>
#include <stdlib.h>
#include <string.h>

typedef struct opened {
    MDB_env *env;
    MDB_dbi dbi;
} opened;
typedef struct session {
    opened *of;
    MDB_txn *reader;
    MDB_cursor *cursor;
} session;

static void *open_it(const char *folder, size_t cache_bytes) {
    (void)cache_bytes;
    opened *it = malloc(sizeof *it);
    MDB_txn *txn;
    must(mdb_env_create(&it->env), "mdb_env_create");
    must(mdb_env_set_mapsize(it->env, (size_t)8 << 30), "mdb_env_set_mapsize");
    must(mdb_env_open(it->env, folder, 0, 0600), "mdb_env_open"); /* each commit syncs */
    must(mdb_txn_begin(it->env, NULL, 0, &txn), "mdb_txn_begin");
    must(mdb_dbi_open(txn, NULL, 0, &it->dbi), "mdb_dbi_open");
    must(mdb_txn_commit(txn), "mdb_txn_commit");
    return it;
}
static void *begin(void *of) {
    session *it = malloc(sizeof *it);
    it->of = of;
    must(mdb_txn_begin(it->of->env, NULL, MDB_RDONLY, &it->reader), "mdb_txn_begin");
    must(mdb_cursor_open(it->reader, it->of->dbi, &it->cursor), "mdb_cursor_open");
    mdb_txn_reset(it->reader);
    return it;
}
static int get(void *of, const void *key, size_t key_length, void *value, size_t room) {
    session *it = of;
    MDB_val k = {key_length, (void *)key}, v;
    must(mdb_txn_renew(it->reader), "mdb_txn_renew");
    int status = mdb_get(it->reader, it->of->dbi, &k, &v);
    if (status == 0) memcpy(value, v.mv_data, v.mv_size < room ? v.mv_size : room);
    mdb_txn_reset(it->reader);
    if (status != MDB_NOTFOUND) must(status, "mdb_get");
    return status == 0;
}
static void load(void *of, const void *keys, size_t key_length, size_t count, const void *value, size_t value_length) {
    session *it = of;
    MDB_txn *txn;
    must(mdb_txn_begin(it->of->env, NULL, 0, &txn), "mdb_txn_begin");
    for (size_t i = 0; i < count; i++) {
        MDB_val k = {key_length, (char *)keys + i * key_length}, v = {value_length, (void *)value};
        must(mdb_put(txn, it->of->dbi, &k, &v, 0), "mdb_put");
    }
    must(mdb_txn_commit(txn), "mdb_txn_commit");
}
static void put(void *of, const void *key, size_t key_length, const void *value, size_t value_length) {
    load(of, key, key_length, 1, value, value_length);
}
static size_t scan(void *of, const void *key, size_t key_length, size_t most) {
    session *it = of;
    MDB_val k = {key_length, (void *)key}, v;
    size_t count = 0;
    must(mdb_txn_renew(it->reader), "mdb_txn_renew");
    must(mdb_cursor_renew(it->reader, it->cursor), "mdb_cursor_renew");
    int status = mdb_cursor_get(it->cursor, &k, &v, MDB_SET_RANGE);
    while (status == 0 && ++count < most) status = mdb_cursor_get(it->cursor, &k, &v, MDB_NEXT);
    mdb_txn_reset(it->reader);
    return count;
}
static void end(void *of) {
    session *it = of;
    mdb_cursor_close(it->cursor);
    mdb_txn_abort(it->reader);
    free(it);
}
static void settle(void *of) { must(mdb_env_sync(((opened *)of)->env, 1), "mdb_env_sync"); }
static void close_it(void *of) {
    mdb_env_close(((opened *)of)->env);
    free(of);
}
const engine lmdb_engine = {"LMDB", open_it, begin, get, put, load, scan, end, settle, close_it};
