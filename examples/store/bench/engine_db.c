/* SPDX-License-Identifier: Apache-2.0 */
/* Berkeley DB with transactions: a commit syncs the log, and commits of several threads share a sync. */
#include "engines.h"
#include <db.h>
#include <stdlib.h>
#include <string.h>

typedef struct opened {
    DB_ENV *env;
    DB *db;
} opened;

static void *open_it(const char *folder, size_t cache_bytes) {
    opened *it = malloc(sizeof *it);
    must(db_env_create(&it->env, 0), "db_env_create");
    must(it->env->set_cachesize(it->env, (u_int32_t)(cache_bytes >> 30), (u_int32_t)(cache_bytes & ((1u << 30) - 1)), 1), "set_cachesize");
    must(it->env->set_lk_detect(it->env, DB_LOCK_DEFAULT), "set_lk_detect");
    must(it->env->set_lk_max_locks(it->env, 100000), "set_lk_max_locks");
    must(it->env->set_lk_max_objects(it->env, 100000), "set_lk_max_objects");
    must(it->env->open(it->env, folder,
             DB_CREATE | DB_INIT_LOCK | DB_INIT_LOG | DB_INIT_MPOOL | DB_INIT_TXN | DB_THREAD | DB_PRIVATE, 0), "DB_ENV->open");
    must(db_create(&it->db, it->env, 0), "db_create");
    must(it->db->set_pagesize(it->db, 4096), "set_pagesize");
    must(it->db->open(it->db, NULL, "db", NULL, DB_BTREE, DB_CREATE | DB_AUTO_COMMIT | DB_THREAD, 0), "DB->open");
    return it;
}
static void *begin(void *of) { return of; }
static DBT of_bytes(const void *bytes, size_t length) {
    DBT it;
    memset(&it, 0, sizeof it);
    it.data = (void *)bytes;
    it.size = (u_int32_t)length;
    return it;
}
static DBT into(void *bytes, size_t room) {
    DBT it = of_bytes(bytes, 0);
    it.ulen = (u_int32_t)room;
    it.flags = DB_DBT_USERMEM;
    return it;
}
static int get(void *of, const void *key, size_t key_length, void *value, size_t room) {
    opened *it = of;
    for (;;) {
        DBT k = of_bytes(key, key_length), v = into(value, room);
        int status = it->db->get(it->db, NULL, &k, &v, 0);
        if (status == DB_LOCK_DEADLOCK) continue;
        if (status != DB_NOTFOUND) must(status, "DB->get");
        return status == 0;
    }
}
static int try_load(opened *it, const void *keys, size_t key_length, size_t count, DBT v) {
    DB_TXN *txn;
    must(it->env->txn_begin(it->env, NULL, &txn, 0), "txn_begin");
    for (size_t i = 0; i < count; i++) {
        DBT k = of_bytes((const char *)keys + i * key_length, key_length);
        int status = it->db->put(it->db, txn, &k, &v, 0);
        if (status == DB_LOCK_DEADLOCK) return must(txn->abort(txn), "abort"), 0;
        must(status, "DB->put");
    }
    must(txn->commit(txn, DB_TXN_SYNC), "commit");
    return 1;
}
static void load(void *of, const void *keys, size_t key_length, size_t count, const void *value, size_t value_length) {
    while (!try_load(of, keys, key_length, count, of_bytes(value, value_length))) continue;
}
static void put(void *of, const void *key, size_t key_length, const void *value, size_t value_length) {
    load(of, key, key_length, 1, value, value_length);
}
static size_t scan(void *of, const void *key, size_t key_length, size_t most) {
    opened *it = of;
    char key_room[512], value_room[2048];
    for (;;) {
        DBC *cursor;
        size_t count = 0;
        DBT k = into(key_room, sizeof key_room), v = into(value_room, sizeof value_room);
        memcpy(key_room, key, key_length);
        k.size = (u_int32_t)key_length;
        must(it->db->cursor(it->db, NULL, &cursor, DB_READ_COMMITTED), "cursor");
        int status = cursor->get(cursor, &k, &v, DB_SET_RANGE);
        while (status == 0 && ++count < most) status = cursor->get(cursor, &k, &v, DB_NEXT);
        cursor->close(cursor);
        if (status != DB_LOCK_DEADLOCK) return count;
    }
}
static void end(void *of) { (void)of; }
static void settle(void *of) { must(((opened *)of)->env->txn_checkpoint(((opened *)of)->env, 0, 0, DB_FORCE), "txn_checkpoint"); }
static void close_it(void *of) {
    opened *it = of;
    must(it->db->close(it->db, 0), "DB->close");
    must(it->env->close(it->env, 0), "DB_ENV->close");
    free(it);
}
const engine db_engine = {"Berkeley DB", open_it, begin, get, put, load, scan, end, settle, close_it};
