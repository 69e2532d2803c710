/* SPDX-License-Identifier: Apache-2.0 */
/* More threads than chairs move ones between pages, while the device fails now and then, reads another page's image, and works give up:
** storm TURNS. Each move is done whole or not at all, so in the end all pages sum up to nothing, and as many ones were moved as were told
** to be. Behind each move its thread looks at two pages where they lie: each has its number twice, at its front and at its end, and both are
** the same. A thread that sleeps for ever never ends it: run it with a limit. */
#include "pinpool_threads.h"
#include <pthread.h>
#include <stdio.h>
#include <stdlib.h>
#include <string.h>

enum { PAGE = 512, PAGES = 40, THREADS = 9, LAST = (PAGE - 12 - 8) / 8 * 8 };
static uint8_t kept[PAGES][PAGE];
static pthread_mutex_t one_call = PTHREAD_MUTEX_INITIALIZER;
static int is_calm = 1; /* the device doesn't fail */
static pinpool_threads *pool;
static pinpool_plan plan, plan_of_looks;
static long turns = 3000;

static const char settings[] = "version = 2\nframes = 11\npage_bytes = 512\nworkers = 4\nwaiting = 1\nflushes = 100000000\n"
    "[[region]]\nname = \"low\"\nfirst = 0\ncount = 20\nclass = 1\n[[region]]\nname = \"top\"\nfirst = 20\ncount = 20\nclass = 2\n";
static const char text[] = "{\"version\":1,\"body\":[{\"fix\":\"a\",\"region\":\"low\"},{\"latch\":\"a\",\"mode\":\"X\"},"
    "{\"fix\":\"b\",\"region\":\"top\"},{\"latch\":\"b\",\"mode\":\"X\"},{\"unlatch\":\"b\"},{\"unfix\":\"b\"},"
    "{\"unlatch\":\"a\"},{\"unfix\":\"a\"}]}";
static const char text_of_looks[] = "{\"version\":1,\"body\":[{\"fix\":\"a\",\"region\":\"low\"},{\"latch\":\"a\",\"mode\":\"S\"},"
    "{\"fix\":\"b\",\"region\":\"top\"},{\"latch\":\"b\",\"mode\":\"S\"},{\"unlatch\":\"a\"},{\"unfix\":\"a\"},"
    "{\"unlatch\":\"b\"},{\"unfix\":\"b\"}]}";

static uint32_t below(uint64_t *seed, uint32_t n) {
    *seed ^= *seed << 13, *seed ^= *seed >> 7, *seed ^= *seed << 17;
    return (uint32_t)(*seed >> 20) % n;
}

/* Whether the device does what it is asked, and whether it gives another page. */
static void draw(int *does, uint32_t *page) {
    static uint64_t seed = 12345;
    uint32_t it = below(&seed, is_calm ? 40 : 43);
    *does = it < 41;
    if (it == 40) *page = (*page + 1) % PAGES;
}

static int read_page(void *of, uint32_t page, uint8_t *image, size_t length) {
    int does;
    (void)of;
    pthread_mutex_lock(&one_call);
    draw(&does, &page);
    if (does) memcpy(image, kept[page], length);
    pthread_mutex_unlock(&one_call);
    return does;
}

static int write_page(void *of, uint32_t page, const uint8_t *image, size_t length) {
    int does;
    uint32_t none = 0;
    (void)of;
    pthread_mutex_lock(&one_call);
    draw(&does, &none);
    if (does) memcpy(kept[page], image, length);
    pthread_mutex_unlock(&one_call);
    return does;
}

typedef struct move {
    uint64_t seed;
    uint8_t *from;
    long moved, gone, given_up, seen, torn;
} move;

static uint32_t page_of(void *of, const pinpool_ask *ask) {
    move *m = of;
    return below(&m->seed, 50) ? ask->first + below(&m->seed, ask->count) : PINPOOL_NOBODY;
}

static void add(uint8_t *body, int64_t one) {
    int64_t *front = (void *)body, *last = (void *)(body + LAST); /* a body that is changed is fit for any type */
    *front += one;
    *last = *front;
}

static int change(void *of, const pinpool_ask *ask, uint8_t *body) {
    move *m = of;
    if (ask->slot == 0) return m->from = body, 1;
    add(m->from, -1);
    add(body, 1);
    return below(&m->seed, 50) != 0;
}

static int see(void *of, const pinpool_ask *ask, const uint8_t *body) {
    move *m = of;
    (void)ask;
    m->seen++;
    m->torn += memcmp(body, body + LAST, 8) != 0;
    return 1;
}

static void *run(void *of) {
    move *m = of;
    const pinpool_work moves = {m, page_of, NULL, NULL, change}, looks = {m, page_of, NULL, see, NULL};
    pinpool_end end;
    for (long turn = 0; turn < turns; turn++) {
        if (pinpool_threads_execute(pool, &plan, &moves, &end) != PINPOOL_DONE) return of;
        if (end.given_up) m->given_up++;
        else if (end.is_gone) m->gone++;
        else m->moved++;
        if (pinpool_threads_execute(pool, &plan_of_looks, &looks, &end) != PINPOOL_DONE) return of;
    }
    return NULL;
}

int main(int count, char **words) {
    const pinpool_policy policy = {THREADS, 3, 5, 2};
    const pinpool_device device = {NULL, read_page, write_page, NULL};
    pthread_t threads[THREADS];
    move moves[THREADS];
    pinpool_fault fault;
    int64_t low = 0, top = 0, number;
    long moved = 0, gone = 0, given_up = 0, seen = 0, torn = 0;
    int wrong = 0;
    if (count > 1) turns = atol(words[1]);
    for (int page = 0; page < PAGES; page++) kept[page][3] = (uint8_t)page;
    if (pinpool_threads_open(settings, sizeof settings - 1, &policy, &device, &pool, &fault) != PINPOOL_DONE) return 1;
    if (pinpool_threads_prepare(pool, text, sizeof text - 1, &plan, &fault) != PINPOOL_DONE) return 1;
    if (pinpool_threads_prepare(pool, text_of_looks, sizeof text_of_looks - 1, &plan_of_looks, &fault) != PINPOOL_DONE) return 1;
    pthread_mutex_lock(&one_call);
    is_calm = 0;
    pthread_mutex_unlock(&one_call);
    for (int i = 0; i < THREADS; i++) {
        moves[i] = (move){.seed = 88172645463325252u + (uint64_t)i};
        if (pthread_create(&threads[i], NULL, run, &moves[i])) return 1;
    }
    for (int i = 0; i < THREADS; i++) {
        void *is_wrong;
        pthread_join(threads[i], &is_wrong);
        wrong |= is_wrong != NULL;
        moved += moves[i].moved, gone += moves[i].gone, given_up += moves[i].given_up;
        seen += moves[i].seen, torn += moves[i].torn;
    }
    pthread_mutex_lock(&one_call);
    is_calm = 1;
    pthread_mutex_unlock(&one_call);
    if (pinpool_threads_close(&pool) != PINPOOL_DONE) return 1;
    for (int page = 0; page < PAGES; page++) {
        memcpy(&number, kept[page] + 12, sizeof number);
        *(page < 20 ? &low : &top) += number;
    }
    wrong |= low != -moved || top != moved || moved + gone + given_up != turns * THREADS || seen < turns || torn;
    printf("storm: %ld moved, %ld gone, %ld given up, %ld seen: %s\n", moved, gone, given_up, seen, wrong ? "WRONG" : "right");
    return wrong;
}
