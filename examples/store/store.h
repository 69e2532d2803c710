/* SPDX-License-Identifier: Apache-2.0 */
/* A durable store of keys and values, for programs in C and C++. Link libstore.a, -lpthread, -ldl and -lm.
**
** Any thread calls it at any time, but for store_close. Keys and values are bytes of any kind; keys are ordered as memcmp orders them, a
** shorter one first. Each call is answered for any number and any bytes.
**
** **What is promised.** A put, delete or batch that is answered STORE_DONE is on the medium: no crash behind that loses it. One that
** wasn't answered is done as a whole, or not at all. A get or a scan may see what other threads are still waiting for, and single changes
** of a batch that isn't answered.
**
** **Pointers** are valid, and not null; with a length of 0 they may be. They are used during the call alone. */
#ifndef STORE_H
#define STORE_H

#include <stddef.h>
#include <stdint.h>

#ifdef __cplusplus
extern "C" {
#endif

/* A store that is open. */
typedef struct store store;

/* How a call went. But for DONE, NOT_FOUND, FAILED and FILE nothing was changed. */
typedef enum store_answer {
    STORE_DONE = 0,
    STORE_NOT_FOUND = 1,      /* the key has no value */
    STORE_WRONG_ARGUMENT = 2, /* a key, a value, a batch or a name is too long, a number out of its range, or no tree's */
    STORE_FULL = 3,           /* no page is free, or there are as many trees as there may be */
    STORE_IN_USE = 4,         /* somebody else has the file open */
    STORE_FILE = 5,           /* a file can't be read or written */
    STORE_DAMAGED = 6,        /* what stands in the file isn't what the store has written */
    STORE_FAILED = 7          /* an earlier call of a file failed, or there was a slip of the store's own: close it and open it again */
} store_answer;

/* How a store is opened. Zeros stand for what is said here. The first two count for a new file alone. */
typedef struct store_options {
    uint32_t page_bytes; /* bytes of a page, 1,024 to 32,768: 4,096. A key has an eighth of it at most, a value a quarter */
    uint32_t leaves;     /* how many leaves there may be, 64 to 2^30: 1,048,576. A page number costs 40 bytes of memory or so */
    uint32_t frames;     /* how many pages are in memory at once, 16 at least: 8,192 */
    uint32_t unused;
    uint64_t log_bytes;  /* a checkpoint is made behind so many bytes of log: 64 MiB */
} store_options;

/* A change of a batch. */
typedef struct store_change {
    const void *key;
    size_t key_length;
    const void *value; /* null: the key is deleted */
    size_t value_length;
    uint32_t tree;
    uint32_t unused;
} store_change;

/* Sees an entry of a scan. Its bytes stay until it returns. 0 ends the scan. It may call the store. */
typedef int (*store_visit)(void *context, const void *key, size_t key_length, const void *value, size_t value_length);

/* Opens the store of this file, whose name ends with a null, and makes it where it isn't there; it recovers where that is needed. Its log
** is in the files of that name with -log0 and -log1 behind it. `options` may be null.
** DONE: `*opened` is the store. WRONG_ARGUMENT, IN_USE, FILE, DAMAGED: `*opened` is null. */
store_answer store_open(const char *path, const store_options *options, store **opened);

/* The number of the tree of this name, 1 to 32 bytes of UTF-8 and a null. It is made where it isn't there, and durable then.
** DONE; WRONG_ARGUMENT, FULL, FAILED, DAMAGED. */
store_answer store_tree(store *store, const char *name, uint32_t *tree);

/* Copies the value of a key, but no more than `room` bytes, and tells how long it is.
** DONE; NOT_FOUND, WRONG_ARGUMENT, FAILED, DAMAGED: `*length` is 0. */
store_answer store_get(
    store *store, uint32_t tree, const void *key, size_t key_length, void *value, size_t room, size_t *length);

/* Gives a key a value. DONE; WRONG_ARGUMENT, FULL, FAILED, DAMAGED. */
store_answer store_put(
    store *store, uint32_t tree, const void *key, size_t key_length, const void *value, size_t value_length);

/* Takes a key's value away. DONE; NOT_FOUND where it had none; WRONG_ARGUMENT, FAILED, DAMAGED. */
store_answer store_delete(store *store, uint32_t tree, const void *key, size_t key_length);

/* Shows keys from one on, and below another one unless that is null, with their values, by rising keys: `most` of them at most. What one
** parent in the tree has (up to 32 leaves) is seen as it was at one moment. `*count` tells how many were shown, also where the answer
** isn't DONE. DONE; WRONG_ARGUMENT, FAILED, DAMAGED. */
store_answer store_scan(store *store, uint32_t tree, const void *from, size_t from_length, const void *to, size_t to_length, size_t most,
    store_visit visit, void *context, size_t *count);

/* Makes all changes, in their order, or none: 4,096 at most. DONE; WRONG_ARGUMENT, FULL, FAILED, DAMAGED. */
store_answer store_batch(store *store, const store_change *changes, size_t count);

/* Writes and syncs all pages that are changed, and lets the log begin anew. DONE; FAILED, FILE. */
store_answer store_checkpoint(store *store);

/* Makes a checkpoint and closes the store. No other thread may use it from then on, whatever is answered. DONE; FAILED, FILE: it is
** closed, and recovers when it is opened. */
store_answer store_close(store *store);

#ifdef __cplusplus
}
#endif

#endif
