/* SPDX-License-Identifier: Apache-2.0 */
/* SQLite's page cache over pinpool's: the eleven calls of sqlite3_pcache_methods2.
**
** The proved side knows which page is in which frame and which one leaves. This side keeps the bytes of the frames, and
** has no rule of replacement. SQLite makes all calls on a cache under the lock of its connection. */
#include "shim.h"
#include "pinpool_cache.h"
#include <string.h>

/* In SQLite's own tests want of memory is no error where a fetch may go without. */
#ifdef PINPOOL_IN_TESTFIXTURE
void sqlite3BeginBenignMalloc(void);
void sqlite3EndBenignMalloc(void);
#else
static void sqlite3BeginBenignMalloc(void) {}
static void sqlite3EndBenignMalloc(void) {}
#endif

/* What a hit doesn't need stands in functions of its own, so that it saves no registers; a test that mostly holds; and what holds at all
** times, so that nothing looks whether it does. */
#if defined(__GNUC__)
#define NOT_INLINE __attribute__((noinline))
#define MOSTLY(holds) __builtin_expect(holds, 1)
#define SURELY(holds) do { if (!(holds)) __builtin_unreachable(); } while (0)
#else
#define NOT_INLINE
#define MOSTLY(holds) (holds)
#define SURELY(holds)
#endif

/* More pages than a cache ever has to keep. */
#define MOST_PAGES 100000000

typedef struct cache cache;

/* The bytes of a frame: SQLite's page and what SQLite keeps beside it follow. */
typedef struct bytes {
    sqlite3_pcache_page page;
    cache *owner;
    uint32_t key;
    uint32_t frame;
    uint32_t fetches; /* since it was unpinned */
} bytes;

/* How many bytes stand before a page, which SQLite wants at 8 bytes. */
enum { BYTES_BEFORE = (sizeof(bytes) + 7) / 8 * 8 };

struct cache {
    pinpool_cache *held;
    bytes **by_frame;
    uint32_t at_once;   /* PINPOOL_ALWAYS where the cache is full, else PINPOOL_NEVER (see set_at_once) */
    uint32_t blocks;    /* how many places of by_frame have bytes, and so how many pages are in frames */
    uint32_t full;      /* with so many pages the cache is full: `size`, or more than any where it is squeezed (see may_come) */
    int is_broken;      /* a page couldn't get its number: then each fetch fails (see rekey) */
    int keeps_none;     /* SQLite asked for a size of 0, and a cache has 1 at least */
    int is_purgeable;
    uint32_t size;      /* the size that SQLite asked for */
    uint32_t greatest;  /* no page has a greater key, */
    uint32_t second;    /* and a page that hasn't this greatest one has no greater key than this */
    uint32_t frames;    /* how many places there are in by_frame */
    size_t page_bytes, extra_bytes;
};

/* `full` of a cache that is squeezed. */
#define NEVER_FULL UINT32_MAX

static int init(void *unused) {
    (void)unused;
    return SQLITE_OK;
}

static void shut_down(void *unused) { (void)unused; }

static pinpool_counts counts_of(const cache *c) {
    pinpool_counts counts;
    if (pinpool_cache_counts(c->held, &counts) != PINPOOL_OK) memset(&counts, 0, sizeof counts);
    return counts;
}

/* A fetch with ALWAYS is passed on as it is where the cache is full, since bring_in would do no more: may_come would answer that the page
** may come, and leave the cache's size. So in a full cache such a miss is one call. What SQLite asks is masked by at_once, and else passed
** on as NEVER. */
_Static_assert(PINPOOL_NEVER == 0 && (PINPOOL_IF_ROOM & PINPOOL_ALWAYS) == 0, "IF_ROOM masked by ALWAYS is NEVER");
static void set_at_once(cache *c) { c->at_once = c->blocks >= c->full ? PINPOOL_ALWAYS : PINPOOL_NEVER; }

static sqlite3_pcache *create(int page_bytes, int extra_bytes, int is_purgeable) {
    cache *c = sqlite3_malloc64(sizeof *c);
    if (!c) return 0;
    memset(c, 0, sizeof *c);
    c->page_bytes = (size_t)page_bytes;
    c->extra_bytes = (size_t)extra_bytes;
    c->is_purgeable = is_purgeable;
    c->size = c->full = 1; /* (nothing comes at once yet) */
    /* SQLite tells the size before its first fetch. All pages of an unpurgeable cache stay pinned, whatever the size. */
    if (pinpool_cache_new(1, &c->held) != PINPOOL_OK) {
        sqlite3_free(c);
        return 0;
    }
    return (sqlite3_pcache *)c;
}

/* Gives back the bytes of a frame that has no page. */
static void give_back(cache *c, uint32_t frame) {
    if (frame >= c->frames || !c->by_frame[frame]) return;
    sqlite3_free(c->by_frame[frame]);
    c->by_frame[frame] = 0;
    c->blocks--;
    set_at_once(c);
}

/* Gives back the bytes of each frame that has no page, where pages have left since there were so many. */
static void sweep(cache *c, uint32_t pages_before) {
    if (counts_of(c).pages == pages_before) return;
    for (uint32_t at = 0; at < c->frames; at++) {
        pinpool_page page;
        bytes *b = c->by_frame[at];
        if (!b) continue;
        if (pinpool_cache_find(c->held, b->key, &page) != PINPOOL_OK || page.found != PINPOOL_HIT || page.frame != at)
            give_back(c, at);
    }
}

static void resize(cache *c, uint32_t pages) {
    uint32_t before = counts_of(c).pages;
    pinpool_cache_resize(c->held, pages);
    if (c->keeps_none) pinpool_cache_shrink(c->held);
    sweep(c, before);
}

static void cache_size(sqlite3_pcache *p, int pages) {
    cache *c = (cache *)p;
    if (!c->is_purgeable) return;
    c->keeps_none = pages < 1;
    if (pages < 1) pages = 1;
    if (pages > MOST_PAGES) pages = MOST_PAGES;
    c->size = c->full = (uint32_t)pages;
    set_at_once(c);
    resize(c, c->size);
}

static int page_count(sqlite3_pcache *p) { return (int)counts_of((cache *)p).pages; }

/* Whether one more page would reach the soft heap limit, if there is one. */
static int heap_is_nearly_full(const cache *c) {
    sqlite3_int64 limit = sqlite3_soft_heap_limit64(-1);
    return limit > 0 && sqlite3_memory_used() + (sqlite3_int64)(BYTES_BEFORE + c->page_bytes + c->extra_bytes) >= limit;
}

/* Before a page comes in: where the heap is nearly full, it takes the place of another one that nobody has pinned, as in
** SQLite's own cache. For that the cache is squeezed: it is of as many pages as it has, until the heap has room again. False where
** the page may not come in. In a full cache it takes the place of another anyway; so there the heap is looked at only where fewer
** pages are idle than in use. */
static int may_come(cache *c, int way) {
    if (!c->is_purgeable || c->keeps_none) return 1;
    pinpool_counts counts = counts_of(c);
    uint32_t idle = counts.pages - counts.pinned;
    if (c->blocks >= c->full && (way == PINPOOL_ALWAYS || idle >= counts.pinned)) return 1;
    if (!heap_is_nearly_full(c)) {
        if (c->full == NEVER_FULL) pinpool_cache_resize(c->held, c->size);
        c->full = c->size;
        set_at_once(c);
        return 1;
    }
    if (way == PINPOOL_IF_ROOM && idle < counts.pinned) return 0;
    if (idle && counts.pages < counts.size) {
        pinpool_cache_resize(c->held, counts.pages);
        c->full = NEVER_FULL;
        set_at_once(c);
    }
    return 1;
}

/* The bytes of a frame that has a new page; none where memory can't be had. */
static bytes *bytes_of(cache *c, uint32_t frame) {
    if (frame >= c->frames) {
        uint64_t more = (uint64_t)frame * 2 + 64;
        bytes **by_frame = sqlite3_realloc64(c->by_frame, more * sizeof *by_frame);
        if (!by_frame) return 0;
        memset(by_frame + c->frames, 0, (more - c->frames) * sizeof *by_frame);
        c->by_frame = by_frame;
        c->frames = (uint32_t)more;
    }
    if (!c->by_frame[frame]) {
        bytes *b = sqlite3_malloc64(BYTES_BEFORE + c->page_bytes + c->extra_bytes);
        if (!b) return 0;
        b->page.pBuf = (char *)b + BYTES_BEFORE;
        b->page.pExtra = (char *)b->page.pBuf + c->page_bytes;
        b->owner = c;
        b->frame = frame;
        c->by_frame[frame] = b;
        c->blocks++;
        set_at_once(c);
    }
    return c->by_frame[frame];
}

/* A page has the key from now on. */
static void hear_of(cache *c, uint32_t key) {
    if (key > c->greatest) {
        c->second = c->greatest;
        c->greatest = key;
    } else if (key < c->greatest && key > c->second) {
        c->second = key;
    }
}

/* What a page that was brought in has; none where memory can't be had. */
static bytes *filled(cache *c, uint32_t key, const pinpool_page *page) {
    if (page->left_key != PINPOOL_NO_KEY && page->left_frame != page->frame) give_back(c, page->left_frame);
    bytes *b = bytes_of(c, page->frame);
    if (!b) {
        pinpool_cache_unpin(c->held, key, 1, 0);
        return 0;
    }
    hear_of(c, key);
    b->key = key;
    b->fetches = 1;
    *(void **)b->page.pExtra = 0; /* by which SQLite sees that the page is new: its own cache clears no more */
    return b;
}

/* What SQLite asks for, and what the cache answered. */
typedef struct request {
    uint32_t key;
    int way;
    pinpool_page page;
} request;

/* Brings in a page that is in no frame, or answers where it was brought in at once. None where it may not be, or memory can't be
** had. */
static bytes *bring_in(cache *c, request *asked) {
    if (asked->page.found == PINPOOL_NEW) return filled(c, asked->key, &asked->page);
    if (!may_come(c, asked->way)) return 0;
    if (pinpool_cache_fetch(c->held, asked->key, (pinpool_create)asked->way, &asked->page) != PINPOOL_OK) return 0;
    return asked->page.found == PINPOOL_NEW ? filled(c, asked->key, &asked->page) : 0;
}

/* The page was in no frame, or the cache refused the fetch. */
static NOT_INLINE sqlite3_pcache_page *missed(cache *c, request *asked, pinpool_status status) {
    if (status != PINPOOL_OK || asked->way == PINPOOL_NEVER) return 0;
    if (asked->way == PINPOOL_IF_ROOM) sqlite3BeginBenignMalloc();
    bytes *b = bring_in(c, asked);
    if (asked->way == PINPOOL_IF_ROOM) sqlite3EndBenignMalloc();
    return b ? &b->page : 0;
}

/* (What bring_in wants stands in `asked`, where a hit doesn't touch it again.) */
static sqlite3_pcache_page *fetch(sqlite3_pcache *p, unsigned key, int way) {
    cache *c = (cache *)p;
    request asked;
    SURELY(c->held);
    if (!MOSTLY(!c->is_broken)) return 0;
    asked.key = key;
    asked.way = way;
    pinpool_status status = pinpool_cache_fetch(c->held, key, (pinpool_create)((uint32_t)way & c->at_once), &asked.page);
    if (!MOSTLY(status == PINPOOL_OK && asked.page.found == PINPOOL_HIT)) return missed(c, &asked, status);
    bytes *b = c->by_frame[asked.page.frame];
    b->fetches++;
    return &b->page;
}

/* The page was unpinned, and left its frame. */
static NOT_INLINE void left(bytes *b) { give_back(b->owner, b->frame); }

/* SQLite keeps a page pinned as long as it is dirty, for all of a transaction, and the cache counts no fetch of a pinned page.
** So where there were such fetches, the page is asked for once more, after its last use. */
static NOT_INLINE void unpin_again(cache *c, bytes *b, int discard) {
    pinpool_page again;
    int stays = 0;
    b->fetches = 0;
    pinpool_cache_unpin(c->held, b->key, discard | c->keeps_none, &stays);
    if (!stays) left(b);
    else if (pinpool_cache_fetch(c->held, b->key, PINPOOL_NEVER, &again) == PINPOOL_OK && again.found == PINPOOL_HIT)
        pinpool_cache_unpin(c->held, b->key, 0, 0);
}

static void unpin(sqlite3_pcache *p, sqlite3_pcache_page *page, int discard) {
    cache *c = (cache *)p;
    bytes *b = (bytes *)page;
    int stays = 0;
    SURELY(c->held);
    if (!MOSTLY(b->fetches < 2)) {
        unpin_again(c, b, discard);
        return;
    }
    b->fetches = 0;
    pinpool_cache_unpin(c->held, b->key, discard | c->keeps_none, &stays);
    if (!MOSTLY(stays)) left(b);
}

/* SQLite gives a page the number of another one, of the page at 1 GB of the file, which it never stores, or the one behind its last.
** That takes no memory, and only a number from PINPOOL_KEYS on is refused, of a file of 2 TB or more. SQLite couldn't hear of it: so
** no page of this cache is given out or gets a number any more, none is dropped by its number, and SQLite is out of memory. What had
** the number is dropped, if SQLite hasn't done so before, pinned or not, and its bytes are given back. */
static void rekey(sqlite3_pcache *p, sqlite3_pcache_page *page, unsigned from, unsigned to) {
    cache *c = (cache *)p;
    pinpool_page other;
    if (c->is_broken || to == from) return;
    int is_there = pinpool_cache_find(c->held, to, &other) == PINPOOL_OK && other.found == PINPOOL_HIT;
    if (pinpool_cache_rekey(c->held, from, to) != PINPOOL_OK) {
        c->is_broken = 1;
        sqlite3_log(SQLITE_NOMEM, "pinpool: page %u can't be page %u", from, to);
        return;
    }
    if (is_there) give_back(c, other.frame);
    if (from == c->greatest) c->greatest = c->second;
    hear_of(c, to);
    ((bytes *)page)->key = to;
}

/* SQLite truncates after each transaction, and mostly nothing is there to drop, so the greatest key is kept, and the second, since
** SQLite gives a page the number of the one at 1 GB only for a moment. Where a page couldn't get its number, its key may be
** beyond the limit and its number not, so nothing is dropped. */
static void truncate_from(sqlite3_pcache *p, unsigned limit) {
    cache *c = (cache *)p;
    if (c->is_broken || limit > c->greatest) return;
    uint32_t before = counts_of(c).pages;
    pinpool_cache_truncate(c->held, limit);
    c->greatest = limit ? limit - 1 : 0;
    if (c->second > c->greatest) c->second = c->greatest;
    sweep(c, before);
}

static void destroy(sqlite3_pcache *p) {
    cache *c = (cache *)p;
    pinpool_cache_free(c->held);
    for (uint32_t at = 0; at < c->frames; at++) sqlite3_free(c->by_frame[at]);
    sqlite3_free(c->by_frame);
    sqlite3_free(c);
}

static void shrink(sqlite3_pcache *p) {
    cache *c = (cache *)p;
    uint32_t before = counts_of(c).pages;
    pinpool_cache_shrink(c->held);
    sweep(c, before);
}

const sqlite3_pcache_methods2 pinpool_methods = {
    1, 0, init, shut_down, create, cache_size, page_count, fetch, unpin, rekey, truncate_from, destroy, shrink,
};

/* What the proved side takes is SQLite's, so sqlite3_memory_used and the heap limits see it. */
static void *get(size_t bytes_wanted) { return sqlite3_malloc64(bytes_wanted); }
static void *resize_block(void *at, size_t bytes_wanted) { return sqlite3_realloc64(at, bytes_wanted); }
static const pinpool_memory of_sqlite = {get, resize_block, sqlite3_free};

int pinpool_for_sqlite(void) {
    int status = sqlite3_config(SQLITE_CONFIG_PCACHE2, &pinpool_methods);
    if (status == SQLITE_OK) pinpool_cache_memory(&of_sqlite);
    return status;
}
