/* SPDX-License-Identifier: Apache-2.0 */
/* Passes the calls of pinpool_cache.h on to the proved side, which is the static library of crates/pp_cache_c.
**
** The proved side holds a cache by a handle, a struct of one pointer, and answers by numbers. Here a cache is a block of
** its own that has the handle in it, so that C sees a pointer, and answers and errors are told apart. The test .ci/header
** compares what is declared here with the code of crates/pp_cache_c. */
#include "pinpool_cache.h"
#include <stdbool.h>
#include <stdlib.h>
#include <string.h>

/* Who builds this over a library that was proved says so (the Makefile and `run` do, where they have seen it). */
#ifndef PINPOOL_CACHE_IS
#define PINPOOL_CACHE_IS "unproved"
#endif

/* A test that mostly holds, and what a hit doesn't need: that stands in functions of its own, so that a hit saves no registers. */
#if defined(__GNUC__)
#define MOSTLY(holds) __builtin_expect(holds, 1)
#define NOT_INLINE __attribute__((noinline))
#else
#define MOSTLY(holds) (holds)
#define NOT_INLINE
#endif

/* ---- the proved side */

/* A handle: null, or what the proved side keeps. */
typedef struct handle {
    void *at;
} handle;

/* What its calls answer. */
enum { DONE = 0, HIT = 1, NEW = 2, NOTHING = 3, NO_CACHE = 4, NO_ROOM = 5, BAD_ARGUMENT = 6 };

typedef struct place {
    uint32_t frame;
    uint32_t left_key;
    uint32_t left_frame;
} place;

typedef struct counts {
    uint32_t size;
    uint32_t pages;
    uint32_t pinned;
    uint32_t frames;
    uint32_t names;
    uint32_t used;
} counts;

uint32_t pinpool_handle_new(handle *handle, uint32_t size);
void pinpool_handle_drop(handle *handle);
uint32_t pinpool_handle_fetch(handle *handle, uint32_t key, uint32_t create, place *place);
uint32_t pinpool_handle_frame(handle *handle, uint32_t key, uint32_t *frame);
uint32_t pinpool_handle_unpin(handle *handle, uint32_t key, uint32_t discard);
uint32_t pinpool_handle_rekey(handle *handle, uint32_t old, uint32_t new_one);
uint32_t pinpool_handle_reserve(handle *handle);
uint32_t pinpool_handle_truncate(handle *handle, uint32_t limit);
uint32_t pinpool_handle_shrink(handle *handle);
uint32_t pinpool_handle_resize(handle *handle, uint32_t size);
uint32_t pinpool_handle_pages(handle *handle);
uint32_t pinpool_handle_counts(handle *handle, counts *counts);
uint32_t pinpool_handle_next(handle *handle, uint32_t from, uint32_t *key);

/* A place is written where C has its page: the two have these fields alike. */
#define IS_LIKE(field) (offsetof(pinpool_page, field) == offsetof(pinpool_page, frame) + offsetof(place, field))
_Static_assert(IS_LIKE(frame) && IS_LIKE(left_key) && IS_LIKE(left_frame), "a page has a place in it");
_Static_assert(sizeof(pinpool_page) == offsetof(pinpool_page, frame) + sizeof(place), "a page ends with its place");

struct pinpool_cache {
    handle held;
    pinpool_memory memory; /* where its blocks come from, and this one */
    uint32_t busy;         /* how many of these functions are under way for it, and one more while it is freed */
    uint64_t asked, others; /* fetches that began, and those of them that weren't hits */
    uint64_t misses, left, bytes;
};

/* ---- memory */

static const pinpool_memory of_c = {malloc, realloc, free};

/* Where the caches that are made from now on take their memory from. */
static pinpool_memory memory = {malloc, realloc, free};

/* The proved side's allocator is asked for so many bytes, and isn't told for which cache. So each call names its cache here, which is
** looked at within a call alone. A block that is there already names its cache itself. */
static _Thread_local pinpool_cache *asking;

/* What stands before each block of the proved side. */
typedef struct block {
    uint64_t bytes;
    pinpool_cache *owner;
} block;

/* What is behind it is at 8 bytes, as what `get` answers. */
enum { ALIGNMENT = 8 };
_Static_assert(sizeof(block) % ALIGNMENT == 0, "a block begins at 8 bytes");

/* What the proved side's allocator is asked and answers (the kit's liblibc_c.a has it over malloc). `at` is some byte where there
** is no memory, and says nothing. */
typedef struct tried {
    bool is_there;
    void *at;
} tried;
_Static_assert(sizeof(tried) == 2 * sizeof(void *) && offsetof(tried, at) == sizeof(void *), "as Tried of the kit's types.rt");

tried rattle_alloc(size_t bytes, size_t align);
tried rattle_realloc(void *at, size_t old_bytes, size_t bytes, size_t align);
void rattle_dealloc(void *at);

static tried refused(void) {
    static char some;
    tried answer = {false, &some};
    return answer;
}

/* The block is the cache's, and has so many bytes; before it had others. */
static tried given(pinpool_cache *owner, block *b, uint64_t bytes, uint64_t before) {
    tried answer = {true, b + 1};
    b->bytes = bytes;
    b->owner = owner;
    owner->bytes += bytes - before;
    return answer;
}

/* Whether a block can't be had, whoever is asked: the bytes before it can't be added, or it wants to stand at more than 8 bytes.
** (No type of the proved side does.) */
static bool is_too_much(size_t bytes, size_t align) { return bytes > SIZE_MAX - sizeof(block) || align > ALIGNMENT; }

/* One of the host's functions is about to run for the cache. A call from within it is refused on this cache, and may be made on another
** one, which then asks. So it answers who asks now. */
static pinpool_cache *to_host(pinpool_cache *owner) {
    owner->busy++;
    return asking;
}

/* That function has run. */
static void from_host(pinpool_cache *owner, pinpool_cache *who_asks) {
    owner->busy--;
    asking = who_asks;
}

tried rattle_alloc(size_t bytes, size_t align) {
    pinpool_cache *owner = asking;
    if (!owner || is_too_much(bytes, align)) return refused();
    pinpool_cache *who_asks = to_host(owner);
    block *b = owner->memory.get(sizeof(block) + bytes);
    from_host(owner, who_asks);
    return b ? given(owner, b, sizeof(block) + bytes, 0) : refused();
}

/* As realloc, it keeps more than the `old_bytes` that it is to keep, and where it fails the block is as it was. */
tried rattle_realloc(void *at, size_t old_bytes, size_t bytes, size_t align) {
    (void)old_bytes;
    if (is_too_much(bytes, align)) return refused();
    block *b = (block *)at - 1;
    pinpool_cache *owner = b->owner;
    uint64_t before = b->bytes;
    pinpool_cache *who_asks = to_host(owner);
    b = owner->memory.resize(b, sizeof(block) + bytes);
    from_host(owner, who_asks);
    return b ? given(owner, b, sizeof(block) + bytes, before) : refused();
}

void rattle_dealloc(void *at) {
    block *b = (block *)at - 1;
    pinpool_cache *owner = b->owner;
    owner->bytes -= b->bytes;
    pinpool_cache *who_asks = to_host(owner);
    owner->memory.give(b);
    from_host(owner, who_asks);
}

void pinpool_cache_memory(const pinpool_memory *from) { memory = from ? *from : of_c; }

/* ---- a call */

/* Begins a call on the cache that has somewhere to put its answers. From within get, resize or give none may begin on the same
** cache: another one is under way there, and the proved side has taken that cache out of its handle. */
static inline pinpool_status begin(pinpool_cache *cache, bool has_answers) {
    if (!MOSTLY(cache != 0)) return PINPOOL_NO_CACHE;
    if (!MOSTLY(!cache->busy)) return PINPOOL_BUSY;
    if (!MOSTLY(has_answers)) return PINPOOL_BAD_ARGUMENT;
    asking = cache;
    return PINPOOL_OK;
}

/* The error that the proved side answered so. It answers NO_CACHE for a null handle, which begin() keeps out. */
static pinpool_status error_of(uint32_t answer, uint32_t key) {
    switch (answer) {
    case NO_ROOM: return key < PINPOOL_KEYS ? PINPOOL_NO_MEMORY : PINPOOL_BAD_KEY;
    case BAD_ARGUMENT: return PINPOOL_BAD_ARGUMENT;
    default: return PINPOOL_BUSY;
    }
}

/* How a call went that the proved side answered so. */
static inline pinpool_status status_of(uint32_t answer, uint32_t key) {
    return answer <= NOTHING ? PINPOOL_OK : error_of(answer, key);
}

static const pinpool_page nowhere = {PINPOOL_NOTHING, 0, PINPOOL_NO_KEY, 0};

/* ---- the calls */

const char *pinpool_cache_version(void) { return PINPOOL_CACHE_VERSION " " PINPOOL_CACHE_IS; }

pinpool_status pinpool_cache_new(uint32_t size, pinpool_cache **cache) {
    if (!cache) return PINPOOL_BAD_ARGUMENT;
    *cache = 0;
    if (!size) return PINPOOL_BAD_ARGUMENT;
    pinpool_memory from = memory; /* (get may name others) */
    pinpool_cache *c = from.get(sizeof *c);
    if (!c) return PINPOOL_NO_MEMORY;
    memset(c, 0, sizeof *c);
    c->memory = from;
    c->bytes = sizeof *c;
    asking = c;
    uint32_t answer = pinpool_handle_new(&c->held, size);
    if (answer != DONE) {
        from.give(c);
        return status_of(answer, 0);
    }
    *cache = c;
    return PINPOOL_OK;
}

void pinpool_cache_free(pinpool_cache *cache) {
    if (begin(cache, true) != PINPOOL_OK) return;
    cache->busy++;
    pinpool_handle_drop(&cache->held);
    cache->memory.give(cache);
}

/* A fetch that was no hit. Its cache is the one that asks for memory: that one is put back after each of the host's functions. Its key
** stands in the page, where the answer isn't NEW: then the proved side leaves the place alone. */
static NOT_INLINE pinpool_status fetched_other(uint32_t answer, pinpool_page *page) {
    pinpool_cache *cache = asking;
    cache->others++;
    if (answer == NEW) {
        cache->misses++;
        cache->left += page->left_key != PINPOOL_NO_KEY;
        page->found = PINPOOL_NEW;
        return PINPOOL_OK;
    }
    pinpool_status status = status_of(answer, page->left_key);
    *page = nowhere;
    return status;
}

/* (inline, as unpin is: so a compiler that sees the whole program puts them into the calls) */
inline pinpool_status pinpool_cache_fetch(pinpool_cache *cache, uint32_t key, pinpool_create create, pinpool_page *page) {
    pinpool_status status = begin(cache, page);
    if (!MOSTLY(status == PINPOOL_OK)) {
        if (page) *page = nowhere;
        return status;
    }
    cache->asked++;
    page->left_key = key;
    uint32_t answer = pinpool_handle_fetch(&cache->held, key, (uint32_t)create, (place *)(void *)&page->frame);
    if (!MOSTLY(answer == HIT)) return fetched_other(answer, page);
    page->found = PINPOOL_HIT;
    return PINPOOL_OK;
}

pinpool_status pinpool_cache_find(pinpool_cache *cache, uint32_t key, pinpool_page *page) {
    if (page) *page = nowhere;
    pinpool_status status = begin(cache, page);
    if (status != PINPOOL_OK) return status;
    uint32_t answer = pinpool_handle_frame(&cache->held, key, &page->frame);
    if (answer == HIT) page->found = PINPOOL_HIT;
    return status_of(answer, 0);
}

inline pinpool_status pinpool_cache_unpin(pinpool_cache *cache, uint32_t key, int discard, int *stays) {
    if (stays) *stays = 1;
    pinpool_status status = begin(cache, true);
    if (status != PINPOOL_OK) return status;
    uint32_t answer = pinpool_handle_unpin(&cache->held, key, (uint32_t)discard);
    if (stays) *stays = answer != NOTHING;
    return status_of(answer, 0);
}

pinpool_status pinpool_cache_reserve(pinpool_cache *cache) {
    pinpool_status status = begin(cache, true);
    return status == PINPOOL_OK ? status_of(pinpool_handle_reserve(&cache->held), 0) : status;
}

pinpool_status pinpool_cache_rekey(pinpool_cache *cache, uint32_t from, uint32_t to) {
    pinpool_status status = begin(cache, true);
    if (status != PINPOOL_OK) return status;
    uint32_t answer = pinpool_handle_rekey(&cache->held, from, to);
    return status_of(answer, to);
}

pinpool_status pinpool_cache_truncate(pinpool_cache *cache, uint32_t limit) {
    pinpool_status status = begin(cache, true);
    return status == PINPOOL_OK ? status_of(pinpool_handle_truncate(&cache->held, limit), 0) : status;
}

pinpool_status pinpool_cache_shrink(pinpool_cache *cache) {
    pinpool_status status = begin(cache, true);
    return status == PINPOOL_OK ? status_of(pinpool_handle_shrink(&cache->held), 0) : status;
}

pinpool_status pinpool_cache_resize(pinpool_cache *cache, uint32_t size) {
    pinpool_status status = begin(cache, true);
    return status == PINPOOL_OK ? status_of(pinpool_handle_resize(&cache->held, size), 0) : status;
}

pinpool_status pinpool_cache_counts(pinpool_cache *cache, pinpool_counts *into) {
    counts has = {0, 0, 0, 0, 0, 0};
    if (into) memset(into, 0, sizeof *into);
    pinpool_status status = begin(cache, into);
    if (status != PINPOOL_OK) return status;
    uint32_t answer = pinpool_handle_counts(&cache->held, &has);
    if (answer != DONE) return status_of(answer, 0);
    into->size = has.size;
    into->pages = has.pages;
    into->pinned = has.pinned;
    into->frames = has.frames;
    into->names = has.names;
    into->used = has.used;
    into->hits = cache->asked - cache->others;
    into->misses = cache->misses;
    into->left = cache->left;
    into->bytes = cache->bytes;
    return PINPOOL_OK;
}

pinpool_status pinpool_cache_next(pinpool_cache *cache, uint32_t from, uint32_t *key, pinpool_page *page) {
    uint32_t next = 0;
    if (page) *page = nowhere;
    pinpool_status status = begin(cache, key && page);
    if (status != PINPOOL_OK) return status;
    uint32_t answer = pinpool_handle_next(&cache->held, from, &next);
    if (answer == HIT) answer = pinpool_handle_frame(&cache->held, next, &page->frame);
    if (answer == HIT) {
        *key = next;
        page->found = PINPOOL_HIT;
    }
    return status_of(answer, 0);
}
