/* SPDX-License-Identifier: Apache-2.0 */
/* RocksDB: writes with sync, which are grouped. Its block cache has the bytes; blocks aren't packed. */
#include "engines.h"
#include <rocksdb/c.h>
#include <stdio.h>
#include <stdlib.h>
#include <string.h>

typedef struct opened {
    rocksdb_t *db;
    rocksdb_readoptions_t *reads;
    rocksdb_writeoptions_t *writes;
    rocksdb_options_t *options;
} opened;

static void see(char *error, const char *what) {
    if (error) fprintf(stderr, "%s\n", error);
    must(error != NULL, what);
}
static void *open_it(const char *folder, size_t cache_bytes) {
    opened *it = malloc(sizeof *it);
    char path[4096], *error = NULL;
    snprintf(path, sizeof path, "%s/rocksdb", folder);
    rocksdb_block_based_table_options_t *table = rocksdb_block_based_options_create();
    rocksdb_block_based_options_set_block_cache(table, rocksdb_cache_create_lru(cache_bytes));
    it->options = rocksdb_options_create();
    rocksdb_options_set_create_if_missing(it->options, 1);
    rocksdb_options_set_compression(it->options, rocksdb_no_compression);
    rocksdb_options_set_block_based_table_factory(it->options, table);
    it->db = rocksdb_open(it->options, path, &error);
    see(error, "rocksdb_open");
    it->reads = rocksdb_readoptions_create();
    it->writes = rocksdb_writeoptions_create();
    rocksdb_writeoptions_set_sync(it->writes, 1);
    return it;
}
static void *begin(void *of) { return of; }
static int get(void *of, const void *key, size_t key_length, void *value, size_t room) {
    opened *it = of;
    char *error = NULL;
    rocksdb_pinnableslice_t *found = rocksdb_get_pinned(it->db, it->reads, key, key_length, &error);
    see(error, "rocksdb_get_pinned");
    if (!found) return 0;
    size_t length;
    const char *bytes = rocksdb_pinnableslice_value(found, &length);
    memcpy(value, bytes, length < room ? length : room);
    rocksdb_pinnableslice_destroy(found);
    return 1;
}
static void put(void *of, const void *key, size_t key_length, const void *value, size_t value_length) {
    opened *it = of;
    char *error = NULL;
    rocksdb_put(it->db, it->writes, key, key_length, value, value_length, &error);
    see(error, "rocksdb_put");
}
static void load(void *of, const void *keys, size_t key_length, size_t count, const void *value, size_t value_length) {
    opened *it = of;
    char *error = NULL;
    rocksdb_writebatch_t *batch = rocksdb_writebatch_create();
    for (size_t i = 0; i < count; i++)
        rocksdb_writebatch_put(batch, (const char *)keys + i * key_length, key_length, value, value_length);
    rocksdb_write(it->db, it->writes, batch, &error);
    see(error, "rocksdb_write");
    rocksdb_writebatch_destroy(batch);
}
static size_t scan(void *of, const void *key, size_t key_length, size_t most) {
    opened *it = of;
    size_t count = 0, length;
    rocksdb_iterator_t *at = rocksdb_create_iterator(it->db, it->reads);
    for (rocksdb_iter_seek(at, key, key_length); count < most && rocksdb_iter_valid(at); rocksdb_iter_next(at)) {
        (void)rocksdb_iter_value(at, &length);
        count++;
    }
    rocksdb_iter_destroy(at);
    return count;
}
static void end(void *of) { (void)of; }
static void settle(void *of) {
    opened *it = of;
    char *error = NULL;
    rocksdb_flushoptions_t *options = rocksdb_flushoptions_create();
    rocksdb_flush(it->db, options, &error);
    see(error, "rocksdb_flush");
    rocksdb_flushoptions_destroy(options);
    rocksdb_compact_range(it->db, NULL, 0, NULL, 0);
}
static void close_it(void *of) {
    rocksdb_close(((opened *)of)->db);
    free(of);
}
const engine rocksdb_engine = {"RocksDB", open_it, begin, get, put, load, scan, end, settle, close_it};
