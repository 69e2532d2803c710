/* SPDX-License-Identifier: Apache-2.0 */
#include "hash_index.h"
#include <string.h>

/* The body of a bucket, or of a page in its chain, in the machine's own order of bytes. */
enum { ENTRIES = 30, LONGEST = 16 };
typedef struct entry {
    uint64_t key, value;
} entry;
typedef struct node {
    uint32_t count;  /* of its entries */
    uint32_t next;   /* the page behind it in the chain; 0: none */
    uint32_t length; /* of a bucket's chain */
    uint32_t unused;
    entry entries[ENTRIES];
} node;

/* The body of the map: how many pages of chains were given out. */
typedef struct map {
    uint32_t used;
} map;

/* The slots of the plans, by their names in byte order: b, m and o. (A plan that has no m has o in its place.) */
enum { BUCKET, MAP };
/* The branches for a turn of the loop over a chain. */
enum { NOTHING, LOOK, CHANGE };

/* A query on its way through its plan. */
typedef struct query {
    uint64_t key, value, by;
    node *bucket;   /* which an add has latched all the time */
    map *map;       /* which it has latched while it makes a new page */
    uint32_t visit; /* the page of the chain that comes next; 0: none */
    uint32_t room;  /* a page of the chain where an entry has room; 0: none yet */
    uint32_t turn;
    int has_passed; /* the chain is behind it */
    int is_done;
} query;

static uint32_t bucket_of(uint64_t key, uint32_t buckets) { return (uint32_t)(key * 0x9e3779b97f4a7c15u >> 40) % buckets; }

static entry *find(const node *n, uint64_t key) {
    for (uint32_t i = 0; i < n->count && i < ENTRIES; i++)
        if (n->entries[i].key == key) return (entry *)&n->entries[i];
    return NULL;
}

/* ---- a get: the bucket is latched S all the time, and so nobody changes its chain */

static uint32_t get_page(void *of, const pinpool_ask *ask) {
    query *q = of;
    return ask->slot == BUCKET ? ask->first + bucket_of(q->key, ask->count) : q->visit;
}

static uint32_t get_branch(void *of, const pinpool_ask *ask) {
    (void)ask;
    return ((query *)of)->visit != 0;
}

/* A page that is only seen lies at a place fit for bytes alone. */
static node copy_of(const uint8_t *body) {
    node n;
    memcpy(&n, body, sizeof n);
    return n;
}

static int get_see(void *of, const pinpool_ask *ask, const uint8_t *body) {
    query *q = of;
    const node n = copy_of(body);
    const entry *e = find(&n, q->key);
    (void)ask;
    q->visit = e ? 0 : n.next;
    if (e) q->value = e->value, q->is_done = 1;
    return 1;
}

/* ---- an add: the bucket is latched X all the time */

static uint32_t add_page(void *of, const pinpool_ask *ask) {
    query *q = of;
    if (ask->slot == BUCKET) return ask->first + bucket_of(q->key, ask->count);
    if (ask->slot == MAP) return q->bucket->length < LONGEST ? ask->first : PINPOOL_NOBODY;
    /* A new page; behind the last one it isn't one of the region's, and so the add is given up. */
    return q->map ? ask->first + q->map->used : q->visit;
}

/* The plan asks whether there is a chain to go through; at each turn of that, what to do; and then whether a new page is wanted. */
static uint32_t add_branch(void *of, const pinpool_ask *ask) {
    query *q = of;
    if (ask->count == 3) return q->turn;
    if (q->has_passed) return !q->is_done;
    q->has_passed = 1;
    return q->visit != 0;
}

/* Adds to the entry of the key, if it is in the node. */
static int raise(query *q, node *n) {
    entry *e = find(n, q->key);
    if (e) q->value = e->value += q->by, q->is_done = 1;
    return e != NULL;
}

/* Makes an entry for the key, if there is room. */
static int append(query *q, node *n) {
    if (n->count >= ENTRIES) return 0;
    n->entries[n->count++] = (entry){q->key, q->value = q->by};
    return q->is_done = 1;
}

/* Looks for the key in a page of the chain. Where it is, or else where there is room, that page is asked for once more, to be changed. */
static int add_see(void *of, const pinpool_ask *ask, const uint8_t *body) {
    query *q = of;
    const node n = copy_of(body);
    if (!find(&n, q->key)) {
        if (n.count < ENTRIES) q->room = ask->page;
        q->visit = n.next;
        if (q->visit) return 1;
        q->visit = q->room;
    }
    q->turn = q->visit ? CHANGE : NOTHING;
    return 1;
}

/* The page is new: it begins the chain. */
static void begin_chain(query *q, node *n, uint32_t page) {
    memset(n, 0, sizeof *n);
    n->next = q->bucket->next;
    q->bucket->next = page;
    q->bucket->length++;
    q->map->used++;
    append(q, n);
}

static int add_change(void *of, const pinpool_ask *ask, uint8_t *body) {
    query *q = of;
    node *n = (void *)body;
    if (ask->slot == MAP) {
        q->map = (void *)body;
    } else if (ask->slot == BUCKET) {
        q->bucket = n;
        if (raise(q, n) || (!n->next && append(q, n))) return 1;
        q->visit = n->next;
        q->turn = LOOK;
    } else if (q->map) {
        begin_chain(q, n, ask->page);
    } else {
        if (!raise(q, n)) append(q, n);
        q->turn = NOTHING;
    }
    return 1;
}

/* ---- the calls */

static hash_answer run(hash_index *index, const pinpool_plan *plan, const pinpool_work *work) {
    pinpool_end end;
    if (pinpool_threads_execute(index->pool, plan, work, &end) != PINPOOL_DONE || end.is_gone) return HASH_FAILED;
    if (end.given_up) return HASH_FULL;
    return ((query *)work->of)->is_done ? HASH_FOUND : HASH_MISSING;
}

hash_answer hash_get(hash_index *index, uint64_t key, uint64_t *value) {
    query q = {.key = key};
    pinpool_work work = {&q, get_page, get_branch, get_see, NULL};
    hash_answer answer = run(index, &index->get, &work);
    *value = q.value;
    return answer;
}

hash_answer hash_add(hash_index *index, uint64_t key, uint64_t by, uint64_t *value) {
    query q = {.key = key, .by = by};
    pinpool_work work = {&q, add_page, add_branch, add_see, add_change};
    hash_answer answer = run(index, &index->add, &work);
    *value = q.value;
    return answer;
}

pinpool_answer hash_open(hash_index *index, pinpool_threads *pool, const char *get, const char *add) {
    pinpool_fault fault;
    pinpool_answer answer = pinpool_threads_prepare(pool, get, strlen(get), &index->get, &fault);
    if (answer == PINPOOL_DONE) answer = pinpool_threads_prepare(pool, add, strlen(add), &index->add, &fault);
    index->pool = pool;
    return answer;
}
