/* SPDX-License-Identifier: Apache-2.0 */
/* A page cache for programs in C and C++: which page is in which frame, which pages are pinned, and which page leaves.
**
** A frame is a number, from 0 on, and the host keeps its bytes. There is one frame more at most than pages stood in frames at one
** time. These are `size` pages, and those that came while all others were pinned. So `size` + 1 buffers are enough where never
** more than `size` pages are pinned. A key is a number below PINPOOL_KEYS, and keys may lie as far apart as they like. Pages that
** nobody has pinned leave by ARC.
**
** What the calls of the proved side do to the cache is proved (crates/pp_cache_c, docs/guarantees.md); pinpool_cache.c, which is
** short, passes the calls below on to these, and isn't proved. Each call answers a pinpool_status: 0 where all is well, and below
** 0 an error. Then nothing was done, but where the call says so. Where a pointer is null, the answer is PINPOOL_NO_CACHE or
** PINPOOL_BAD_ARGUMENT.
**
** One call at a time is made on a cache, by whichever thread; this goes for find, counts and next too, and nothing tells a host
** that breaks it. Different caches can be used by different threads at once.
**
** Memory: a cache has a name for each key whose page is in a frame or is remembered by ARC. These are twice `size` at most, and one
** more for each page beyond the size. It takes 72 bytes for each name that there is room for, 4 to 8 for each frame, and some 800
** more. Room for names is made where all are used and one more is wanted: for 16 at first, and then for twice as many. So memory goes
** with the greatest number of pages that were in frames or remembered at one time, whatever their keys are. It is given back by
** pinpool_cache_free alone. pinpool_cache_counts tells it, and pinpool_cache_memory says where it comes from. Only new, fetch and
** reserve take memory, and where there is room for one more name and one more frame (pinpool_cache_reserve) fetch takes none. As
** room for names grows, the tables are copied: that takes a step for each name, and for that time half as much more memory. Where
** memory is refused in the midst of that, 56 bytes a name more may be kept, which the next growth doesn't ask for again.
**
** Steps: each call says how many it takes. A key's name is found by a hash with linear probing, over two places a name: a step or two,
** which is told as a fixed number below. The hash is the same in all programs, so who chooses the keys can choose them such that it
** takes a step for each name. ARC's search for a page that may leave passes over pinned ones, over each once while it
** is pinned, and once more after room for names has grown. A page that was passed over costs some steps more, once, in the call by
** which it is unpinned or leaves, and in the one that finds it: one for each time that the number of names can be halved.
**
** A host with changed pages that aren't pinned writes them before it lets them go. A fetch names the page that left for it. But
** resize, shrink, truncate and rekey let pages go without naming them: so such a host writes changed pages first (next goes over
** all that are cached), or asks afterwards, by find for each key that it knows of; the bytes of a page that left are in
** the frame that it had until another page comes there. */
#ifndef PINPOOL_CACHE_H
#define PINPOOL_CACHE_H

#include <stddef.h>
#include <stdint.h>

#define PINPOOL_CACHE_VERSION "0.3.0"
#define PINPOOL_CACHE_VERSION_NUMBER 300 /* 10,000 for each major version, 100 for each minor one */

/* Keys are below this number. */
#define PINPOOL_KEYS 4294967292u
/* No page has this key. */
#define PINPOOL_NO_KEY 4294967295u

#if defined(__GNUC__)
#define PINPOOL_API __attribute__((visibility("default")))
#define PINPOOL_MUST_USE __attribute__((warn_unused_result))
#else
#define PINPOOL_API
#define PINPOOL_MUST_USE
#endif

#ifdef __cplusplus
extern "C" {
#endif

/* A cache. Who copies the pointer has the same cache. */
typedef struct pinpool_cache pinpool_cache;

/* How a call went. */
typedef enum pinpool_status {
    PINPOOL_OK = 0,
    PINPOOL_NO_MEMORY = -1,    /* memory can't be had; no page has changed */
    PINPOOL_BAD_KEY = -2,      /* the key is too great; no page has changed */
    PINPOOL_BAD_ARGUMENT = -3, /* a size of 0, an unknown way to create, or a null pointer for an answer */
    PINPOOL_NO_CACHE = -4,     /* the cache is null */
    PINPOOL_BUSY = -5          /* the call comes from within get, resize or give, and one on this cache is under way */
} pinpool_status;

/* What a call found. */
typedef enum pinpool_found {
    PINPOOL_HIT = 1,    /* the page was in a frame already, which has its bytes */
    PINPOOL_NEW = 2,    /* the page is in a frame from now on, and the host fills it */
    PINPOOL_NOTHING = 3 /* the page is in no frame */
} pinpool_found;

/* How a fetch may bring a page in that is in no frame. */
typedef enum pinpool_create {
    PINPOOL_NEVER = 0,
    PINPOOL_IF_ROOM = 1, /* unless nine of ten pages of the cache's size are pinned, rounded down: so never for a size of 1 */
    PINPOOL_ALWAYS = 2   /* beyond the size of the cache where each cached page is pinned */
} pinpool_create;

/* Where a page is. */
typedef struct pinpool_page {
    pinpool_found found;
    uint32_t frame;      /* where it is; 0 for NOTHING */
    uint32_t left_key;   /* the page that left for it, at NEW; else PINPOOL_NO_KEY */
    uint32_t left_frame; /* the frame in which that page's bytes are until the host writes there */
} pinpool_page;

/* What a cache has, and what came of the fetches since it was made. */
typedef struct pinpool_counts {
    uint32_t size;   /* how many pages that nobody has pinned it holds at most */
    uint32_t pages;  /* how many pages are in frames */
    uint32_t pinned; /* how many of these are pinned */
    uint32_t frames; /* frames' numbers are below this one */
    uint32_t names;  /* for how many keys there is room: for pages in frames, and for those that are remembered */
    uint32_t used;   /* how many of these names are used */
    uint64_t hits, misses, left; /* fetches that were HIT, and NEW; pages that left for another */
    uint64_t bytes;  /* what the cache has of memory, all in all */
} pinpool_counts;

/* Where memory comes from. The three are as malloc, realloc and free, and what get and resize answer is at 8 bytes. They are called in
** new, fetch, reserve and free, by the thread that makes the call; where several threads use caches, they have to bear that.
** They return: no longjmp, and no exception of C++, leaves them. From within them, other caches can be used; a call on the same cache
** is answered PINPOOL_BUSY, and free does nothing there. */
typedef struct pinpool_memory {
    void *(*get)(size_t bytes);
    void *(*resize)(void *at, size_t bytes);
    void (*give)(void *at);
} pinpool_memory;

/* The version of the library, and whether it was built from proved code: "0.3.0 proved", or "0.3.0 unproved". */
PINPOOL_API const char *pinpool_cache_version(void);

/* Has each cache that is made from now on take its memory from these; null: from malloc. Caches that are there keep theirs. No
** other thread makes a cache meanwhile. */
PINPOOL_API void pinpool_cache_memory(const pinpool_memory *memory);

/* Makes a cache of `size` pages that nobody has pinned, and writes it to *cache. It takes the same steps and memory whatever the
** size is. OK; NO_MEMORY; BAD_ARGUMENT where size is 0. But for OK, *cache is null afterwards. */
PINPOOL_API PINPOOL_MUST_USE pinpool_status pinpool_cache_new(uint32_t size, pinpool_cache **cache);

/* Drops the cache, pinned pages too, and gives back all its memory, as free does. A null pointer is fine. A fixed number of steps,
** and a few blocks, whatever the cache has. */
PINPOOL_API void pinpool_cache_free(pinpool_cache *cache);

/* Pins the page of the key, and writes to *page where it is: HIT, NEW, or NOTHING where it may not be brought in. It stays in
** that frame until it is unpinned, truncated or dropped, or another page gets its key. A page is pinned or not: who fetches it
** twice unpins it once.
**
** At NEW another page may have left. It wasn't pinned; its bytes are in left_frame until the host writes there. That is mostly
** `frame` itself, but no contract says so. So a host with changed pages that aren't pinned writes these bytes back first. If
** that fails, it can take the eviction back, where left_frame is `frame`: pinpool_cache_rekey(cache, key, left_key) gives the frame to
** the page that left. That one is pinned then, and wants an unpin.
**
** A hit takes a fixed number of steps. So does a miss, but for the pinned pages that it passes over, and where it makes
** room. OK; NO_MEMORY, but never where there is room; BAD_KEY; BAD_ARGUMENT; NO_CACHE; BUSY. But for OK, *page says NOTHING. */
PINPOOL_API PINPOOL_MUST_USE pinpool_status pinpool_cache_fetch(
    pinpool_cache *cache, uint32_t key, pinpool_create create, pinpool_page *page);

/* Writes to *page where the page of the key is, HIT or NOTHING, and changes nothing else. A fixed number of steps.
** OK; BAD_ARGUMENT; NO_CACHE; BUSY. But for OK, *page says NOTHING. */
PINPOOL_API PINPOOL_MUST_USE pinpool_status pinpool_cache_find(pinpool_cache *cache, uint32_t key, pinpool_page *page);

/* Takes the pin off the page of the key. Where discard isn't 0, or the page is beyond the size of the cache, it leaves its
** frame; a page that is discarded isn't remembered. A page that isn't pinned stays as it is. Where `stays` isn't null, it
** tells whether the page is in a frame afterwards: where not, the host can give its bytes back. A fixed number of steps.
** OK; NO_CACHE; BUSY. But for OK, *stays is 1. */
PINPOOL_API pinpool_status pinpool_cache_unpin(pinpool_cache *cache, uint32_t key, int discard, int *stays);

/* Makes room for one more name, and a frame for one more page. So the next fetch that brings a page in isn't refused and takes no
** memory, whatever its key is; no other call uses that room up. There is room where counts tells fewer names used than there are, and
** fewer pages than frames. A fixed number of steps, but where room for names grows.
** OK; NO_MEMORY, but never where there is room; NO_CACHE; BUSY. */
PINPOOL_API PINPOOL_MUST_USE pinpool_status pinpool_cache_reserve(pinpool_cache *cache);

/* Gives the page of the key `from` the key `to`, in its frame and with its pin. What had that key is dropped, pinned or not, and its
** frame is free. Where no page has the key `from`, nothing changes. It takes no memory, and is refused only where `to` is too great,
** whatever `from` is. A fixed number of steps. OK; BAD_KEY; NO_CACHE; BUSY. */
PINPOOL_API PINPOOL_MUST_USE pinpool_status pinpool_cache_rekey(pinpool_cache *cache, uint32_t from, uint32_t to);

/* Drops each page whose key is at least limit, pinned or not, and forgets such keys. It takes a step for each name that there is room
** for. OK; NO_CACHE; BUSY. */
PINPOOL_API pinpool_status pinpool_cache_truncate(pinpool_cache *cache, uint32_t limit);

/* Drops each page that isn't pinned. It takes a step for each name that there is room for. OK; NO_CACHE; BUSY. */
PINPOOL_API pinpool_status pinpool_cache_shrink(pinpool_cache *cache);

/* Makes the cache one of `size` pages that nobody has pinned. Where it becomes smaller, pages leave as ARC chooses them;
** pinned ones keep their frames. It takes no memory. It takes a step for each name that there is room for, and a smaller size one for
** each pinned page that it passes over.
** OK; BAD_ARGUMENT where size is 0; NO_CACHE; BUSY. */
PINPOOL_API pinpool_status pinpool_cache_resize(pinpool_cache *cache, uint32_t size);

/* Writes to *counts what the cache has. A fixed number of steps. OK; BAD_ARGUMENT; NO_CACHE; BUSY. But for OK, *counts is all 0. */
PINPOOL_API PINPOOL_MUST_USE pinpool_status pinpool_cache_counts(pinpool_cache *cache, pinpool_counts *counts);

/* Writes to *key the least key from `from` on whose page is in a frame, and to *page where: so a host goes over all pages
** that are cached, from 0 on and from one behind each answer. HIT, or NOTHING where there is none, and then *key stays. It takes a
** step for each name that there is room for.
** OK; BAD_ARGUMENT; NO_CACHE; BUSY. But for OK, *page says NOTHING, and *key stays. */
PINPOOL_API PINPOOL_MUST_USE pinpool_status pinpool_cache_next(
    pinpool_cache *cache, uint32_t from, uint32_t *key, pinpool_page *page);

#ifdef __cplusplus
}
#endif

#endif
