/* SPDX-License-Identifier: Apache-2.0 */
/* A run whose journal is written: journal FOLDER TURNS. Six threads on four chairs, and a flusher, run plans over a file of pages, while
** calls of the device fail, or give another page, and works give up. FOLDER gets the settings, the plans, the pages, and what recorder.c
** writes: `told`. It is linked with recorder.c. */
#define _POSIX_C_SOURCE 200809L
#include "pinpool_threads.h"
#include "recorder.h"
#include <pthread.h>
#include <sched.h>
#include <stdatomic.h>
#include <stdio.h>
#include <stdlib.h>
#include <string.h>
#include <time.h>

enum { PAGE = 512, PAGES = 24, THREADS = 6, PLANS = 3 };

static const char settings[] = "version = 2\nframes = 9\npage_bytes = 512\nworkers = 4\nwaiting = 1\nflushes = 100000000\n"
    "[[region]]\nname = \"low\"\nfirst = 0\ncount = 12\nclass = 1\n[[region]]\nname = \"top\"\nfirst = 12\ncount = 12\nclass = 2\n";
/* Two pages are changed; some are looked at; one is changed while a bundle of others is held. */
static const char *const texts[PLANS] = {
    "{\"version\":1,\"body\":[{\"fix\":\"a\",\"region\":\"low\"},{\"latch\":\"a\",\"mode\":\"X\"},{\"fix\":\"b\",\"region\":\"top\"},"
    "{\"latch\":\"b\",\"mode\":\"X\"},{\"unlatch\":\"b\"},{\"unfix\":\"b\"},{\"unlatch\":\"a\"},{\"unfix\":\"a\"}]}",
    "{\"version\":1,\"body\":[{\"loop\":3,\"body\":[{\"choice\":[[],"
    "[{\"fix\":\"a\",\"region\":\"low\"},{\"latch\":\"a\",\"mode\":\"S\"},{\"unlatch\":\"a\"},{\"unfix\":\"a\"}],"
    "[{\"fix\":\"b\",\"region\":\"top\"},{\"latch\":\"b\",\"mode\":\"S\"},{\"unlatch\":\"b\"},{\"unfix\":\"b\"}]]}]}]}",
    "{\"version\":2,\"body\":[{\"loop\":3,\"body\":[{\"gather\":\"g\",\"region\":\"low\"}]},{\"fix\":\"t\",\"region\":\"top\"},"
    "{\"latch\":\"t\",\"mode\":\"X\"},{\"unlatch\":\"t\"},{\"unfix\":\"t\"},{\"scatter\":\"g\"}]}"};

static pinpool_threads *pool;
static pinpool_plan plans[PLANS];
static pinpool_device file_of_pages;
static long turns;
static atomic_int running = THREADS;
/* The calls by this thread may fail. Those of the flusher's own thread don't: it would wait for a second then. */
static _Thread_local int is_mine;

static void stop(const char *what) {
    fprintf(stderr, "journal: %s\n", what);
    exit(1);
}

static uint32_t below(uint64_t *seed, uint32_t n) {
    *seed ^= *seed << 13, *seed ^= *seed >> 7, *seed ^= *seed << 17;
    return (uint32_t)(*seed >> 20) % n;
}

/* ---- the device: others go on while it works, and a call in 40 fails. So does one that gives another page. */

static uint32_t draw(void) {
    static pthread_mutex_t one_draw = PTHREAD_MUTEX_INITIALIZER;
    static uint64_t seed = 12345;
    uint32_t it;
    sched_yield();
    if (!is_mine) return PINPOOL_NOBODY;
    pthread_mutex_lock(&one_draw);
    it = below(&seed, 80);
    pthread_mutex_unlock(&one_draw);
    return it;
}

static int read_page(void *of, uint32_t page, uint8_t *image, size_t length) {
    uint32_t it = draw();
    return it > 1 ? file_of_pages.read(of, page, image, length) : it == 1 && file_of_pages.read(of, (page + 1) % PAGES, image, length);
}

static int write_page(void *of, uint32_t page, const uint8_t *image, size_t length) {
    return draw() > 1 && file_of_pages.write(of, page, image, length);
}

/* ---- the works */

static uint32_t some_page(void *of, const pinpool_ask *ask) {
    return below(of, 60) ? ask->first + below(of, ask->count) : PINPOOL_NOBODY;
}

static uint32_t some_branch(void *of, const pinpool_ask *ask) { return below(of, ask->count); }

static int see(void *of, const pinpool_ask *ask, const uint8_t *body) {
    (void)ask;
    if (body[0] != body[1]) stop("a page was seen half changed");
    return below(of, 60) != 0;
}

static int change(void *of, const pinpool_ask *ask, uint8_t *body) {
    (void)ask;
    body[1] = ++body[0];
    return below(of, 60) != 0;
}

static void *run(void *of) {
    const pinpool_work work = {of, some_page, some_branch, see, change};
    pinpool_end end;
    is_mine = 1;
    for (long turn = 0; turn < turns; turn++)
        if (pinpool_threads_execute(pool, &plans[below(of, PLANS)], &work, &end) != PINPOOL_DONE) stop("a plan wasn't run");
    atomic_fetch_sub(&running, 1);
    return NULL;
}

/* ---- the whole */

/* A file of the folder, opened anew. */
static FILE *made(const char *folder, const char *name) {
    char path[4096];
    FILE *file;
    snprintf(path, sizeof path, "%s/%s", folder, name);
    if (!(file = fopen(path, "w"))) stop(path);
    return file;
}

static void write_text(const char *folder, const char *name, const char *text) {
    FILE *file = made(folder, name);
    int went = fputs(text, file) >= 0;
    if (fclose(file) != 0 || !went) stop(name);
}

static void open_pool(const char *folder) {
    const pinpool_policy policy = {THREADS, 3, 6, 4};
    pinpool_device device = file_of_pages;
    pinpool_fault fault;
    char name[32];
    device.read = read_page, device.write = write_page, device.sync = NULL;
    write_text(folder, "settings.toml", settings);
    if (pinpool_threads_open(settings, sizeof settings - 1, &policy, &device, &pool, &fault) != PINPOOL_DONE) stop("no pool");
    for (int it = 0; it < PLANS; it++) {
        snprintf(name, sizeof name, "plan-%d.json", it);
        write_text(folder, name, texts[it]);
        if (pinpool_threads_prepare(pool, texts[it], strlen(texts[it]), &plans[it], &fault) != PINPOOL_DONE) stop("a plan is refused");
    }
}

int main(int count, char **words) {
    const struct timespec pause = {0, 200000};
    pthread_t threads[THREADS];
    uint64_t seeds[THREADS];
    pinpool_file file;
    pinpool_stats stats;
    char path[4096];
    FILE *told;
    if (count != 3) stop("use: journal FOLDER TURNS");
    turns = atol(words[2]);
    snprintf(path, sizeof path, "%s/pages", words[1]);
    if (!pinpool_file_make(path, PAGES, PAGE) || !pinpool_file_open(&file, path, PAGE)) stop(path);
    file_of_pages = pinpool_file_device(&file);
    told = made(words[1], "told");
    recorder_begin(told);
    open_pool(words[1]);
    for (int it = 0; it < THREADS; it++) {
        seeds[it] = 88172645463325252u + (uint64_t)it;
        if (pthread_create(&threads[it], NULL, run, &seeds[it])) stop("no thread");
    }
    /* The flushes by this thread may fail. */
    for (is_mine = 1; atomic_load(&running); nanosleep(&pause, NULL))
        if (pinpool_threads_flush(pool) == PINPOOL_FLUSHES_SPENT) stop("no flush is left");
    is_mine = 0;
    for (int it = 0; it < THREADS; it++) pthread_join(threads[it], NULL);
    stats = pinpool_threads_stats(pool);
    if (pinpool_threads_close(&pool) != PINPOOL_DONE) stop("the pool can't be closed");
    if (!recorder_end() || fclose(told) != 0 || !pinpool_file_close(&file)) stop("what was told can't be written");
    printf("journal: %llu plans done, %llu gone, %llu hits, %llu misses, %llu write-backs\n", (unsigned long long)stats.done,
        (unsigned long long)stats.gone, (unsigned long long)stats.hits, (unsigned long long)stats.misses,
        (unsigned long long)stats.write_backs);
    return 0;
}
