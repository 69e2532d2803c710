/* SPDX-License-Identifier: Apache-2.0 */
/* The edges of pinpool_cache.h, which no proof has: what null pointers are answered, calls from within the memory functions, whose
** memory a block is and how much of it there is, and that an eviction can be taken back. It prints what went wrong, and nothing else. */
#include "pinpool_cache.h"
#include <stdio.h>
#include <stdlib.h>
#include <string.h>
#include <time.h>

static int wrong;
#define SEE(it) ((it) ? (void)0 : (void)(wrong++, printf("border: line %d: %s\n", __LINE__, #it)))

/* Two sources of memory, which count their blocks. */
static long blocks_of[2];
static pinpool_cache *within, *other; /* caches that are used from within the first source: one that is busy, and another */
static long refused;                  /* the block that is refused, counted from now on; 0 for none */
static int is_within;

static void see_busy(void) {
    pinpool_page page = {PINPOOL_HIT, 9, 9, 9};
    pinpool_counts counts = {9, 9, 9, 9, 9, 9, 9, 9, 9, 9};
    uint32_t key = 7;
    int stays = 0;
    SEE(pinpool_cache_fetch(within, 1, PINPOOL_ALWAYS, &page) == PINPOOL_BUSY && page.found == PINPOOL_NOTHING);
    page.found = PINPOOL_HIT;
    SEE(pinpool_cache_find(within, 1, &page) == PINPOOL_BUSY && page.found == PINPOOL_NOTHING);
    page.found = PINPOOL_HIT;
    SEE(pinpool_cache_next(within, 1, &key, &page) == PINPOOL_BUSY && page.found == PINPOOL_NOTHING && key == 7);
    SEE(pinpool_cache_counts(within, &counts) == PINPOOL_BUSY && !counts.size && !counts.bytes);
    SEE(pinpool_cache_unpin(within, 1, 0, &stays) == PINPOOL_BUSY && stays == 1);
    SEE(pinpool_cache_reserve(within) == PINPOOL_BUSY && pinpool_cache_rekey(within, 1, 2) == PINPOOL_BUSY);
    SEE(pinpool_cache_truncate(within, 0) == PINPOOL_BUSY && pinpool_cache_shrink(within) == PINPOOL_BUSY);
    SEE(pinpool_cache_resize(within, 5) == PINPOOL_BUSY);
    pinpool_cache_free(within);
}

/* Another cache can be used, and its blocks are its own. */
static void use_other(void) {
    static uint32_t next = 1000;
    pinpool_page page;
    SEE(pinpool_cache_fetch(other, next, PINPOOL_ALWAYS, &page) == PINPOOL_OK && page.found == PINPOOL_NEW);
    SEE(pinpool_cache_unpin(other, next, 0, 0) == PINPOOL_OK);
    next += 1000;
}

static void called(void) {
    if (is_within) return;
    is_within = 1;
    if (within) see_busy();
    use_other();
    is_within = 0;
}

static void *get_first(size_t bytes) {
    called();
    if (refused && !--refused) return 0;
    void *at = malloc(bytes);
    blocks_of[0] += at != 0;
    return at;
}
static void *resize_first(void *at, size_t bytes) {
    called();
    return refused && !--refused ? 0 : realloc(at, bytes);
}
static void give_first(void *at) {
    called();
    blocks_of[0]--;
    free(at);
}
static void *get_second(size_t bytes) { return blocks_of[1]++, malloc(bytes); }
static void *resize_second(void *at, size_t bytes) { return realloc(at, bytes); }
static void give_second(void *at) { blocks_of[1]--, free(at); }

/* A cache has 72 bytes for each name that there is room for, 4 to 8 for each frame, and some 800 more. */
static void see_bytes(pinpool_cache *of) {
    pinpool_counts counts;
    SEE(pinpool_cache_counts(of, &counts) == PINPOOL_OK);
    SEE(counts.used <= counts.names && counts.bytes >= 72ull * counts.names + 4ull * counts.frames);
    SEE(counts.bytes < 72ull * counts.names + 8ull * counts.frames + 800);
}

/* A source that knows how many bytes it has given, and how many at most. What it resizes it copies. */
static size_t given, most;
static void *get_measured(size_t bytes) {
    size_t *at = malloc(bytes + 16);
    if (!at) return 0;
    *at = bytes;
    given += bytes;
    if (given > most) most = given;
    return at + 16 / sizeof *at;
}
static void give_measured(void *at) {
    size_t *block = (size_t *)at - 16 / sizeof *block;
    given -= *block;
    free(block);
}
static void *resize_measured(void *at, size_t bytes) {
    size_t before = *((size_t *)at - 16 / sizeof before);
    void *larger = get_measured(bytes);
    if (larger) memcpy(larger, at, before < bytes ? before : bytes), give_measured(at);
    return larger;
}

/* Keys that lie far apart. While room grows there is half as much memory more. All of it is told, and given back. */
static void see_growth(void) {
    static const pinpool_memory measured = {get_measured, resize_measured, give_measured};
    pinpool_cache *cache;
    pinpool_page page;
    pinpool_counts counts;
    pinpool_cache_memory(&measured);
    SEE(pinpool_cache_new(100, &cache) == PINPOOL_OK);
    for (uint32_t i = 0; i < 70000; i++) {
        uint32_t key = i * 61356;
        SEE(pinpool_cache_fetch(cache, key, PINPOOL_ALWAYS, &page) == PINPOOL_OK && page.found == PINPOOL_NEW && page.frame <= 5000);
        if (i >= 5000) SEE(pinpool_cache_unpin(cache, key, 0, 0) == PINPOOL_OK);
        if (i == 5000 || i == 69999) see_bytes(cache);
    }
    SEE(pinpool_cache_counts(cache, &counts) == PINPOOL_OK && counts.bytes == given && counts.pinned == 5000 && counts.frames == 5001);
    SEE(counts.names == 8192 && counts.used >= 5000 && counts.used <= 5100 + 100);
    SEE(most > counts.bytes && most < counts.bytes + counts.bytes / 2 + 1000);
    pinpool_cache_free(cache);
    SEE(!given);
    pinpool_cache_memory(0);
}

/* The greatest key of all costs no more than another one, in memory and in time. */
static void see_far_keys(void) {
    static const uint32_t far[] = {60000000, PINPOOL_KEYS - 1, 0};
    pinpool_cache *cache;
    pinpool_page page;
    pinpool_counts counts;
    clock_t begun = clock();
    SEE(pinpool_cache_new(100, &cache) == PINPOOL_OK);
    for (int i = 0; i < 3; i++) SEE(pinpool_cache_fetch(cache, far[i], PINPOOL_ALWAYS, &page) == PINPOOL_OK && page.found == PINPOOL_NEW);
    SEE(pinpool_cache_counts(cache, &counts) == PINPOOL_OK && counts.bytes < 2000 && counts.names == 16 && counts.used == 3);
    pinpool_cache_free(cache);
    SEE(clock() - begun < CLOCKS_PER_SEC / 10);
}

/* Where there is room, no fetch is refused, nor a rekey, which takes none. */
static void see_reserved(pinpool_cache *cache) {
    pinpool_page page;
    SEE(pinpool_cache_reserve(cache) == PINPOOL_OK);
    refused = 1;
    SEE(pinpool_cache_fetch(cache, 4000000000u, PINPOOL_ALWAYS, &page) == PINPOOL_OK && page.found == PINPOOL_NEW);
    SEE(pinpool_cache_rekey(cache, 4000000000u, PINPOOL_KEYS - 1) == PINPOOL_OK);
    SEE(pinpool_cache_rekey(cache, PINPOOL_KEYS - 1, PINPOOL_KEYS) == PINPOOL_BAD_KEY && refused == 1);
    refused = 0;
    SEE(pinpool_cache_find(cache, PINPOOL_KEYS - 1, &page) == PINPOOL_OK && page.found == PINPOOL_HIT);
    SEE(pinpool_cache_unpin(cache, PINPOOL_KEYS - 1, 1, 0) == PINPOOL_OK);
}

static void see_null_pointers(pinpool_cache *cache) {
    pinpool_page page = {PINPOOL_HIT, 9, 9, 9};
    SEE(pinpool_cache_fetch(0, 1, PINPOOL_ALWAYS, &page) == PINPOOL_NO_CACHE && page.found == PINPOOL_NOTHING);
    page.found = PINPOOL_HIT;
    SEE(pinpool_cache_fetch(cache, 1, (pinpool_create)3, &page) == PINPOOL_BAD_ARGUMENT && page.found == PINPOOL_NOTHING);
    page.found = PINPOOL_HIT;
    SEE(pinpool_cache_fetch(cache, PINPOOL_KEYS, PINPOOL_ALWAYS, &page) == PINPOOL_BAD_KEY && page.found == PINPOOL_NOTHING);
    SEE(pinpool_cache_fetch(cache, 1, PINPOOL_ALWAYS, 0) == PINPOOL_BAD_ARGUMENT && pinpool_cache_fetch(0, 1, PINPOOL_ALWAYS, 0) < 0);
    SEE(pinpool_cache_find(0, 1, &page) == PINPOOL_NO_CACHE && pinpool_cache_find(cache, 1, 0) == PINPOOL_BAD_ARGUMENT);
    SEE(pinpool_cache_reserve(0) == PINPOOL_NO_CACHE && pinpool_cache_rekey(0, 1, 2) == PINPOOL_NO_CACHE);
    SEE(pinpool_cache_next(cache, 1, 0, &page) == PINPOOL_BAD_ARGUMENT && pinpool_cache_counts(cache, 0) == PINPOOL_BAD_ARGUMENT);
    SEE(pinpool_cache_resize(cache, 0) == PINPOOL_BAD_ARGUMENT && pinpool_cache_resize(0, 1) == PINPOOL_NO_CACHE);
    SEE(pinpool_cache_new(0, &cache) == PINPOOL_BAD_ARGUMENT && !cache && pinpool_cache_new(1, 0) == PINPOOL_BAD_ARGUMENT);
    pinpool_cache_free(0);
}

/* A full cache: an eviction is named, is taken back, and the page that left is pinned then. */
static void see_eviction(pinpool_cache *cache) {
    pinpool_page page, back;
    for (uint32_t key = 0; key < 2; key++) {
        SEE(pinpool_cache_fetch(cache, key, PINPOOL_ALWAYS, &page) == PINPOOL_OK && page.found == PINPOOL_NEW);
        SEE(page.left_key == PINPOOL_NO_KEY && pinpool_cache_unpin(cache, key, 0, 0) == PINPOOL_OK);
    }
    SEE(pinpool_cache_fetch(cache, 5, PINPOOL_ALWAYS, &page) == PINPOOL_OK && page.left_key == 0 && page.left_frame == page.frame);
    SEE(pinpool_cache_rekey(cache, 5, page.left_key) == PINPOOL_OK);
    SEE(pinpool_cache_find(cache, 0, &back) == PINPOOL_OK && back.found == PINPOOL_HIT && back.frame == page.frame);
    pinpool_counts counts;
    SEE(pinpool_cache_counts(cache, &counts) == PINPOOL_OK && counts.pinned == 1 && counts.pages == 2 && counts.frames <= 3);
    SEE(pinpool_cache_unpin(cache, 0, 0, 0) == PINPOOL_OK && counts.misses == 3 && counts.left == 1);
}

int main(void) {
    static const pinpool_memory first = {get_first, resize_first, give_first}, second = {get_second, resize_second, give_second};
    pinpool_cache *cache;
    pinpool_page page;
    pinpool_cache_memory(&second);
    SEE(pinpool_cache_new(4, &other) == PINPOOL_OK);
    pinpool_cache_memory(&first);
    pinpool_status status = PINPOOL_NO_MEMORY;
    long at = 0;
    while (at < 100) { /* a cache that can't be made leaves nothing */
        refused = ++at;
        status = pinpool_cache_new(2, &cache);
        if (status != PINPOOL_NO_MEMORY) break;
        SEE(!cache && !blocks_of[0]);
    }
    refused = 0;
    SEE(status == PINPOOL_OK && at > 2);
    pinpool_cache_memory(0);
    see_null_pointers(cache);
    see_eviction(cache);
    see_bytes(cache);
    see_bytes(other);
    see_growth();
    see_far_keys();
    see_reserved(cache);
    within = cache; /* from now on each of its blocks is asked for, and given back, with other calls from within */
    for (uint32_t key = 100; key < 140; key++)
        SEE(pinpool_cache_fetch(cache, key, PINPOOL_ALWAYS, &page) == PINPOOL_OK && page.found == PINPOOL_NEW);
    SEE(pinpool_cache_reserve(cache) == PINPOOL_OK && pinpool_cache_rekey(cache, 100, 20000) == PINPOOL_OK);
    see_bytes(cache);
    see_bytes(other);
    pinpool_cache_free(cache);
    within = 0;
    SEE(!blocks_of[0] && blocks_of[1] > 1);
    pinpool_cache_free(other);
    SEE(!blocks_of[1]);
    return wrong != 0;
}
