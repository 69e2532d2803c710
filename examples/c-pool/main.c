/* SPDX-License-Identifier: Apache-2.0 */
/* Four threads count keys in one index, over a file: count FOLDER FILE [TURNS [KEYS]]. FOLDER has settings.toml, get.json and add.json.
** FILE is made where it isn't there; else the counts in it go on. */
#include "hash_index.h"
#include <pthread.h>
#include <stdio.h>
#include <stdlib.h>
#include <string.h>
#include <unistd.h>

enum { THREADS = 4, PAGES = 65 + 2048, PAGE_BYTES = 512 };

static hash_index index_of_all;
static int turns = 20000;
static uint64_t keys = 8000;

static void stop(const char *what, const char *why) {
    fprintf(stderr, "count: %s: %s\n", what, why);
    exit(1);
}

static char *text_of(const char *folder, const char *name) {
    static char text[3][8192];
    static int many;
    char path[4096];
    FILE *file;
    snprintf(path, sizeof path, "%s/%s", folder, name);
    if (!(file = fopen(path, "r"))) stop(path, "can't be read");
    text[many][fread(text[many], 1, sizeof text[many] - 1, file)] = 0;
    fclose(file);
    return text[many++];
}

/* One thread's turns: it counts a key, and then looks at another. */
static void *work(void *number) {
    uint64_t seed = 88172645463325252u + (uintptr_t)number, value;
    for (int turn = 0; turn < turns; turn++) {
        seed ^= seed << 13, seed ^= seed >> 7, seed ^= seed << 17;
        if (hash_add(&index_of_all, seed % keys, 1, &value) != HASH_FOUND) stop("add", "failed");
        if (hash_get(&index_of_all, seed / keys % keys, &value) == HASH_FAILED) stop("get", "failed");
    }
    return NULL;
}

/* All counts together. */
static uint64_t sum(void) {
    uint64_t all = 0, value;
    for (uint64_t key = 0; key < keys; key++) {
        if (hash_get(&index_of_all, key, &value) == HASH_FAILED) stop("get", "failed");
        all += value;
    }
    return all;
}

static pinpool_threads *opened(const char *settings, const pinpool_device *device) {
    const pinpool_policy policy = {.queue = 64, .bypass = 4, .flush_from = 24, .flush_to = 12};
    pinpool_threads *pool;
    pinpool_fault fault = {0, PINPOOL_NOBODY};
    pinpool_answer answer = pinpool_threads_open(settings, strlen(settings), &policy, device, &pool, &fault);
    if (answer != PINPOOL_DONE) stop("open", pinpool_answer_name(answer));
    return pool;
}

static void begin(const char *folder, const char *settings, const pinpool_device *device) {
    static char *get, *add;
    pinpool_answer answer;
    if (!get) get = text_of(folder, "get.json"), add = text_of(folder, "add.json");
    answer = hash_open(&index_of_all, opened(settings, device), get, add);
    if (answer != PINPOOL_DONE) stop("prepare", pinpool_answer_name(answer));
}

static void end(void) {
    pinpool_answer answer = pinpool_threads_close(&index_of_all.pool);
    if (answer != PINPOOL_DONE) stop("close", pinpool_answer_name(answer));
}

int main(int count, char **words) {
    pthread_t threads[THREADS];
    pinpool_file file;
    pinpool_device device;
    pinpool_stats stats;
    uint64_t before, after, again;
    if (count < 3) stop("use", "count FOLDER FILE [TURNS [KEYS]]");
    if (count > 3) turns = atoi(words[3]);
    if (count > 4) keys = strtoull(words[4], NULL, 10);
    if (access(words[2], F_OK) != 0 && !pinpool_file_make(words[2], PAGES, PAGE_BYTES)) stop(words[2], "can't be made");
    if (!pinpool_file_open(&file, words[2], PAGE_BYTES)) stop(words[2], "can't be opened");
    device = pinpool_file_device(&file);
    const char *settings = text_of(words[1], "settings.toml");
    begin(words[1], settings, &device);
    before = sum();
    for (uintptr_t i = 0; i < THREADS; i++)
        if (pthread_create(&threads[i], NULL, work, (void *)i)) stop("thread", "can't be started");
    for (int i = 0; i < THREADS; i++) pthread_join(threads[i], NULL);
    after = sum();
    stats = pinpool_threads_stats(index_of_all.pool);
    end();
    begin(words[1], settings, &device); /* a new pool finds in the file what the other one left */
    again = sum();
    end();
    pinpool_file_close(&file);
    printf("pinpool %s: %llu plans, %llu hits, %llu misses, %llu flushes\n", pinpool_version(), (unsigned long long)stats.done,
        (unsigned long long)stats.hits, (unsigned long long)stats.misses, (unsigned long long)stats.flushes);
    printf("counted %llu before, %llu after, %llu in the file: %s\n", (unsigned long long)before, (unsigned long long)after,
        (unsigned long long)again, after == before + (uint64_t)turns * THREADS && again == after ? "right" : "WRONG");
    return after != before + (uint64_t)turns * THREADS || again != after;
}
