/* SPDX-License-Identifier: Apache-2.0 */
/* One node of dqlite whose SQLite runs on pinpool's page cache.
**
** node ID ADDRESS FOLDER pinpool | sqlite
**
** With `sqlite` SQLite keeps its own page cache, and all else is the same. The node tells what its page cache did: a line as it
** starts, and one for each line that it reads. Where there are no more it stops. */
#include "../sqlite/shim.h"
#include <dqlite.h>
#include <signal.h>
#include <stdatomic.h>
#include <stdio.h>
#include <stdlib.h>
#include <string.h>

/* A snapshot is taken after so many entries of the log, and so many are kept behind it. They are few, so that a node that was away for
** a while gets a snapshot in place of the log. (dqlite refuses to keep fewer than come between two snapshots.) */
enum { ENTRIES_TO_A_SNAPSHOT = 64, ENTRIES_KEPT = 64 };

/* By this latency, in milliseconds, a node that hears of no leader for 0.75 seconds, or up to twice that, stands for election, and a
** leader that hears of no majority for so long steps back. */
enum { LATENCY = 50 };

/* What SQLite's page cache was asked, by all connections of this node. The node's thread counts, and main reads. */
static struct {
    atomic_ulong caches;    /* that were made */
    atomic_ulong found;     /* fetches of a page that was cached */
    atomic_ulong came;      /* fetches that brought a page in */
    atomic_ulong none;      /* fetches that answered with no page */
    atomic_ulong elsewhere; /* calls by another thread than the one that made the first */
    atomic_ulong at_once;   /* calls while another one was under way, be it on another cache */
} counted;

/* The page cache's calls, which are counted and passed on to it. */
static sqlite3_pcache_methods2 below;

static _Thread_local char here;
static _Atomic(char *) first_thread;
static atomic_int under_way;

/* A page cache takes one call at a time on a cache, by whichever thread. So each call is watched. */
static void enter(void) {
    char *first = 0;
    if (!atomic_compare_exchange_strong(&first_thread, &first, &here) && first != &here) counted.elsewhere++;
    if (under_way++) counted.at_once++;
}

static void leave(void) { under_way--; }

static sqlite3_pcache *create(int page_bytes, int extra_bytes, int is_purgeable) {
    enter();
    counted.caches++;
    sqlite3_pcache *cache = below.xCreate(page_bytes, extra_bytes, is_purgeable);
    leave();
    return cache;
}

static void cache_size(sqlite3_pcache *cache, int pages) {
    enter();
    below.xCachesize(cache, pages);
    leave();
}

static int page_count(sqlite3_pcache *cache) {
    enter();
    int pages = below.xPagecount(cache);
    leave();
    return pages;
}

/* (The extra bytes of a page that SQLite hasn't seen yet begin with a null pointer.) */
static sqlite3_pcache_page *fetch(sqlite3_pcache *cache, unsigned key, int way) {
    enter();
    sqlite3_pcache_page *page = below.xFetch(cache, key, way);
    if (!page) counted.none++;
    else if (*(void **)page->pExtra) counted.found++;
    else counted.came++;
    leave();
    return page;
}

static void unpin(sqlite3_pcache *cache, sqlite3_pcache_page *page, int discard) {
    enter();
    below.xUnpin(cache, page, discard);
    leave();
}

static void rekey(sqlite3_pcache *cache, sqlite3_pcache_page *page, unsigned from, unsigned to) {
    enter();
    below.xRekey(cache, page, from, to);
    leave();
}

static void truncate_from(sqlite3_pcache *cache, unsigned limit) {
    enter();
    below.xTruncate(cache, limit);
    leave();
}

static void destroy(sqlite3_pcache *cache) {
    enter();
    below.xDestroy(cache);
    leave();
}

static void shrink(sqlite3_pcache *cache) {
    enter();
    below.xShrink(cache);
    leave();
}

/* Has SQLite take the page cache, with the counts before it. It has to come before dqlite's first call: that starts SQLite, which then
** takes no other page cache. */
static int configure(const char *which) {
    if (strcmp(which, "pinpool") == 0 && pinpool_for_sqlite() != SQLITE_OK) return SQLITE_MISUSE;
    int status = sqlite3_config(SQLITE_CONFIG_GETPCACHE2, &below);
    if (status != SQLITE_OK) return status;
    sqlite3_pcache_methods2 counting = {
        below.iVersion, below.pArg,  below.xInit, below.xShutdown, create,  cache_size, page_count,
        fetch,          unpin,       rekey,       truncate_from,   destroy, shrink,
    };
    return sqlite3_config(SQLITE_CONFIG_PCACHE2, &counting);
}

static void tell(void) {
    printf("caches %lu found %lu came %lu none %lu elsewhere %lu at_once %lu\n", counted.caches, counted.found, counted.came,
           counted.none, counted.elsewhere, counted.at_once);
    fflush(stdout);
}

/* Has the node listen, and starts it; its thread goes on by itself. */
static int start(dqlite_node *node, const char *address) {
    return dqlite_node_set_bind_address(node, address) || dqlite_node_set_network_latency_ms(node, LATENCY) ||
           dqlite_node_set_snapshot_params(node, ENTRIES_TO_A_SNAPSHOT, ENTRIES_KEPT) || dqlite_node_start(node);
}

static int fail(const char *what, const char *why) {
    fprintf(stderr, "node: %s: %s\n", what, why);
    return 1;
}

int main(int count, char **words) {
    char line[16];
    dqlite_node *node = 0;
    if (count != 5) return fail("it takes", "ID ADDRESS FOLDER pinpool | sqlite");
    /* dqlite writes to connections that the other side may have closed, and leaves the signal to its host. */
    signal(SIGPIPE, SIG_IGN);
    if (configure(words[4]) != SQLITE_OK) return fail("configure", "SQLite takes no page cache");
    if (dqlite_node_create(strtoull(words[1], 0, 10), words[2], words[3], &node)) return fail("create", "it can't be made");
    if (start(node, words[2])) return fail("start", dqlite_node_errmsg(node));
    tell();
    while (fgets(line, sizeof line, stdin)) tell();
    if (dqlite_node_stop(node)) return fail("stop", dqlite_node_errmsg(node));
    dqlite_node_destroy(node);
    return 0;
}
