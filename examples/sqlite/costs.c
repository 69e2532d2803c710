/* SPDX-License-Identifier: Apache-2.0 */
/* A page cache by its calls alone, without SQLite around it: costs WHO KEYS MANY fetches and unpins MANY pages of a cache that is
** full, and prints how many missed. The script `costs` has the instructions of counted() told by valgrind.
**
** WHO is `sqlite` or `pinpool`, by the eleven calls that SQLite makes, or `calls`, by those of pinpool_cache.h. KEYS is `hits`,
** where the pages that are asked for are the cached ones, or `skewed`, where of 20,000 pages the k-th is asked for as often as
** 1 / k^0.99 says (Zipf): both of a cache of 2,000. Or it is `misses`, where no page is asked for twice, or `pinned`, the same while
** 17,000 pages stay pinned: both of a cache of 20,000. */
#include "pinpool_cache.h"
#include "shim.h"
#include <math.h>
#include <stdio.h>
#include <stdlib.h>
#include <string.h>

enum { SIZE = 2000, HITS = 1900, SKEWED = 20000, LARGE = 20000, HELD = 17000, PAGE = 4096, EXTRA = 136 };

static const sqlite3_pcache_methods2 *methods; /* none where the calls are those of pinpool_cache.h */
static sqlite3_pcache *pages;
static pinpool_cache *cache;

/* A number from 0 on and below 1: the same ones in each run (xorshift). */
static double draw(void) {
    static uint64_t chance = 88172645463325252ull;
    chance ^= chance << 13;
    chance ^= chance >> 7;
    chance ^= chance << 17;
    return (double)(chance >> 11) / 9007199254740992.0;
}

/* The number of a page, from 1 on, which is asked for as often as its rank among 20,000 says. Those of the first ranks aren't
** beside each other. */
static unsigned skewed(void) {
    static double below[SKEWED + 1];
    if (below[1] == 0)
        for (int k = 1; k <= SKEWED; k++) below[k] = below[k - 1] + 1 / pow(k, 0.99);
    double at = draw() * below[SKEWED];
    unsigned least = 1, most = SKEWED;
    while (least < most) {
        unsigned middle = (least + most) / 2;
        if (below[middle] > at) most = middle;
        else least = middle + 1;
    }
    return 1 + least * 7919 % SKEWED;
}

/* By SQLite's calls. A page that is new has no mark, and gets one. */
static long use_methods(const unsigned *keys, long many) {
    long missed = 0;
    for (long i = 0; i < many; i++) {
        sqlite3_pcache_page *page = methods->xFetch(pages, keys[i], 2);
        if (!page) exit(1);
        char *mark = page->pExtra;
        missed += !*mark;
        *mark = 1;
        methods->xUnpin(pages, page, 0);
    }
    return missed;
}

/* By those of pinpool_cache.h. */
static long use_calls(const unsigned *keys, long many) {
    long missed = 0;
    pinpool_page page;
    for (long i = 0; i < many; i++) {
        if (pinpool_cache_fetch(cache, keys[i], PINPOOL_ALWAYS, &page) != PINPOOL_OK) exit(1);
        missed += page.found == PINPOOL_NEW;
        pinpool_cache_unpin(cache, keys[i], 0, 0);
    }
    return missed;
}

static long use(const unsigned *keys, long many) { return methods ? use_methods(keys, many) : use_calls(keys, many); }

__attribute__((noinline)) long counted(const unsigned *keys, long many);
long counted(const unsigned *keys, long many) { return use(keys, many); }

/* Fetches the pages, which stay pinned. */
static void hold(const unsigned *keys, long many) {
    pinpool_page page;
    for (long i = 0; i < many; i++)
        if (methods ? !methods->xFetch(pages, keys[i], 2) : pinpool_cache_fetch(cache, keys[i], PINPOOL_ALWAYS, &page) != PINPOOL_OK)
            exit(1);
}

static int begin(const char *who, int size) {
    static sqlite3_pcache_methods2 own;
    if (strcmp(who, "calls") == 0) return pinpool_cache_new((uint32_t)size, &cache) == PINPOOL_OK;
    if (strcmp(who, "pinpool") == 0 && pinpool_for_sqlite() != SQLITE_OK) return 0;
    if (sqlite3_config(SQLITE_CONFIG_GETPCACHE2, &own) != SQLITE_OK || sqlite3_initialize() != SQLITE_OK) return 0;
    methods = &own;
    pages = methods->xCreate(PAGE, EXTRA, 1);
    if (pages) methods->xCachesize(pages, size);
    return pages != 0;
}

/* The number of the i-th page that is asked for. */
static unsigned key_of(const char *kind, long i) {
    if (strcmp(kind, "skewed") == 0) return skewed();
    if (strcmp(kind, "hits") == 0 && i >= HITS) return 1 + (unsigned)(draw() * HITS);
    return (unsigned)i + 1;
}

int main(int count, char **words) {
    long many = count == 4 ? atol(words[3]) : 0, before = 200000;
    if (many < 1) return 2;
    const char *kind = words[2];
    int is_pinned = strcmp(kind, "pinned") == 0, is_large = is_pinned || strcmp(kind, "misses") == 0;
    if (!begin(words[1], is_large ? LARGE : SIZE)) return 2;
    unsigned *keys = malloc((size_t)(before + many) * sizeof *keys);
    if (!keys) return 1;
    for (long i = 0; i < before + many; i++) keys[i] = key_of(kind, i);
    long held = is_pinned ? HELD : 0;
    hold(keys, held);
    use(keys + held, before - held);
    printf("%ld\n", counted(keys + before, many));
    if (methods) methods->xDestroy(pages);
    pinpool_cache_free(cache);
    free(keys);
    return 0;
}
