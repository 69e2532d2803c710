/* SPDX-License-Identifier: Apache-2.0 */
/* An index from keys to values, both numbers: a table of buckets, each with a chain of pages behind it, over a pool that threads share. */
#ifndef HASH_INDEX_H
#define HASH_INDEX_H
#include "pinpool_threads.h"

typedef struct hash_index {
    pinpool_threads *pool;
    pinpool_plan get, add;
} hash_index;

typedef enum hash_answer {
    HASH_FOUND,
    HASH_MISSING,
    HASH_FULL,  /* the bucket's chain is as long as may be, or no page is free. Nothing was changed */
    HASH_FAILED /* a page can't be read or written, or memory ran out. Nothing was changed */
} hash_answer;

/* Has the pool keep the plans of these texts. */
pinpool_answer hash_open(hash_index *index, pinpool_threads *pool, const char *get, const char *add);

/* The value of the key. Any thread may call it, at any time. */
hash_answer hash_get(hash_index *index, uint64_t key, uint64_t *value);

/* Adds to the value of the key, and tells the sum. A key that wasn't there begins at 0. Any thread may call it, at any time. */
hash_answer hash_add(hash_index *index, uint64_t key, uint64_t by, uint64_t *value);

#endif
