/* SPDX-License-Identifier: Apache-2.0 */
#include "../store.h"
#include "engines.h"
#include <stdio.h>
#include <stdlib.h>
#include <string.h>

typedef struct opened {
    store *store;
    uint32_t tree;
} opened;

static void *open_it(const char *folder, size_t cache_bytes) {
    char path[4096];
    opened *it = malloc(sizeof *it);
    store_options options = {0};
    options.frames = (uint32_t)(cache_bytes / 4096);
    snprintf(path, sizeof path, "%s/store", folder);
    must(store_open(path, &options, &it->store), "store_open");
    must(store_tree(it->store, "bench", &it->tree), "store_tree");
    return it;
}
static void *begin(void *of) { return of; }
static int get(void *of, const void *key, size_t key_length, void *value, size_t room) {
    opened *it = of;
    size_t length;
    store_answer answer = store_get(it->store, it->tree, key, key_length, value, room, &length);
    if (answer != STORE_NOT_FOUND) must(answer, "store_get");
    return answer == STORE_DONE;
}
static void put(void *of, const void *key, size_t key_length, const void *value, size_t value_length) {
    opened *it = of;
    must(store_put(it->store, it->tree, key, key_length, value, value_length), "store_put");
}
static void load(void *of, const void *keys, size_t key_length, size_t count, const void *value, size_t value_length) {
    opened *it = of;
    store_change *changes = calloc(count, sizeof *changes);
    for (size_t i = 0; i < count; i++)
        changes[i] = (store_change){(const char *)keys + i * key_length, key_length, value, value_length, it->tree, 0};
    must(store_batch(it->store, changes, count), "store_batch");
    free(changes);
}
static int visit(void *context, const void *key, size_t key_length, const void *value, size_t value_length) {
    (void)context, (void)key, (void)key_length, (void)value, (void)value_length;
    return 1;
}
static size_t scan(void *of, const void *key, size_t key_length, size_t most) {
    opened *it = of;
    size_t count;
    must(store_scan(it->store, it->tree, key, key_length, NULL, 0, most, visit, NULL, &count), "store_scan");
    return count;
}
static void end(void *of) { (void)of; }
static void settle(void *of) { must(store_checkpoint(((opened *)of)->store), "store_checkpoint"); }
static void close_it(void *of) {
    must(store_close(((opened *)of)->store), "store_close");
    free(of);
}
const engine store_engine = {"store", open_it, begin, get, put, load, scan, end, settle, close_it};
