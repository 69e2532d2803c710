/* SPDX-License-Identifier: Apache-2.0 */
/* What the benchmark wants of an engine. Each thread has a session of its own. */
#ifndef ENGINES_H
#define ENGINES_H

#include <stddef.h>
#include <stdint.h>

typedef struct engine {
    const char *name;
    /* Opens a new file or folder in this folder, with so many bytes of memory for pages. */
    void *(*open)(const char *folder, size_t cache_bytes);
    void *(*begin)(void *opened);
    /* 1 where the key is there. */
    int (*get)(void *session, const void *key, size_t key_length, void *value, size_t room);
    /* Durable when it returns. */
    void (*put)(void *session, const void *key, size_t key_length, const void *value, size_t value_length);
    /* The same for many keys in one transaction; each has this length, and one value. */
    void (*load)(void *session, const void *keys, size_t key_length, size_t count, const void *value, size_t value_length);
    /* Reads up to so many entries from a key on, and answers how many. */
    size_t (*scan)(void *session, const void *key, size_t key_length, size_t most);
    void (*end)(void *session);
    /* Writes down what is in memory, so that the loads begin alike. */
    void (*settle)(void *opened);
    void (*close)(void *opened);
} engine;

extern const engine store_engine, lmdb_engine, db_engine, sqlite_engine, rocksdb_engine;

/* Ends the program, where something isn't 0. */
void must(int status, const char *what);

#endif
