/* SPDX-License-Identifier: Apache-2.0 */
/* The loads A to F of YCSB on one engine:
**
**     ycsb ENGINE FOLDER CACHE_BYTES RECORDS SECONDS LOADS THREADS..
**
** FOLDER is made, and filled with RECORDS records of 100 bytes. Then each of LOADS, as ABCDF, runs for so many seconds with each number of
** threads. A line for each: engine, load, threads, operations a second, the microseconds that 99 of 100 operations take at most, and the
** bytes that the folder's disk has written meanwhile, for each operation: those of others too, so nothing else may be at work. E comes last
** in LOADS where D and E add records. */
#include "engines.h"
#include <math.h>
#include <pthread.h>
#include <stdio.h>
#include <stdlib.h>
#include <string.h>
#include <sys/stat.h>
#include <sys/sysmacros.h>
#include <time.h>

enum { KEY_BYTES = 24, VALUE_BYTES = 100, AT_ONCE = 1000, MOST_TIMES = 1 << 22 };
#define SKEW 0.99

void must(int status, const char *what) {
    if (status != 0) {
        fprintf(stderr, "%s: %d\n", what, status);
        exit(3);
    }
}

static uint64_t chance(uint64_t *seed) { /* splitmix64 */
    uint64_t it = *seed += 0x9e3779b97f4a7c15u;
    it = (it ^ (it >> 30)) * 0xbf58476d1ce4e5b9u;
    it = (it ^ (it >> 27)) * 0x94d049bb133111ebu;
    return it ^ (it >> 31);
}
static uint64_t scatter(uint64_t number) { /* FNV-1a */
    uint64_t sum = 0xcbf29ce484222325u;
    for (int i = 0; i < 8; i++) sum = (sum ^ (number >> (8 * i) & 255)) * 0x100000001b3u;
    return sum;
}
static void key_of(uint64_t number, char *key) {
    char text[KEY_BYTES + 1];
    snprintf(text, sizeof text, "user%020llu", (unsigned long long)scatter(number));
    memcpy(key, text, KEY_BYTES);
}
static double now(void) {
    struct timespec it;
    clock_gettime(CLOCK_MONOTONIC, &it);
    return (double)it.tv_sec + (double)it.tv_nsec / 1e9;
}
/* What the disk of the folder has written. (What the system says of a process counts the whole of a large page of its cache for the
** first byte that is changed in it.) */
static char disk[64];
static void find_disk(const char *folder) {
    struct stat it;
    must(stat(folder, &it), "stat");
    snprintf(disk, sizeof disk, "/sys/dev/block/%u:%u/stat", major(it.st_dev), minor(it.st_dev));
}
static unsigned long long bytes_written(void) {
    unsigned long long sectors = 0;
    FILE *file = fopen(disk, "r");
    if (file && fscanf(file, "%*u %*u %*u %*u %*u %*u %llu", &sectors) != 1) sectors = 0;
    if (file) fclose(file);
    return sectors * 512;
}

/* Ranks by Zipf's law (Gray et al., Quickly generating billion-record synthetic databases). */
static double zeta, eta, items;
static void prepare_zipf(uint64_t records) {
    zeta = 0;
    for (uint64_t i = 1; i <= records; i++) zeta += pow((double)i, -SKEW);
    items = (double)records;
    eta = (1 - pow(2 / items, 1 - SKEW)) / (1 - (1 + pow(0.5, SKEW)) / zeta);
}
static uint64_t rank(uint64_t *seed) {
    double fraction = (double)(chance(seed) >> 11) / 9007199254740992.0, scaled = fraction * zeta;
    if (scaled < 1) return 0;
    if (scaled < 1 + pow(0.5, SKEW)) return 1;
    return (uint64_t)(items * pow(eta * fraction - eta + 1, 1 / (1 - SKEW)));
}

typedef struct worker {
    const engine *engine;
    void *opened;
    char load;
    uint64_t seed, count;
    double until;
    float *times;
} worker;

static uint64_t records; /* atomic */

static void operation(worker *w, void *session) {
    char key[KEY_BYTES], value[VALUE_BYTES], found[VALUE_BYTES];
    uint64_t turn = chance(&w->seed) % 100, all = __atomic_load_n(&records, __ATOMIC_RELAXED), ranked = rank(&w->seed);
    key_of(w->load == 'D' ? (ranked < all ? all - 1 - ranked : 0) : scatter(ranked) % all, key);
    memset(value, (int)(chance(&w->seed) & 255), sizeof value);
    uint64_t reads = w->load == 'A' || w->load == 'F' ? 50 : w->load == 'C' ? 100 : 95;
    if (turn < reads && w->load == 'E') {
        w->engine->scan(session, key, sizeof key, 1 + chance(&w->seed) % 100);
    } else if (turn < reads) {
        w->engine->get(session, key, sizeof key, found, sizeof found);
    } else {
        if (w->load == 'D' || w->load == 'E') key_of(__atomic_fetch_add(&records, 1, __ATOMIC_RELAXED), key);
        if (w->load == 'F') w->engine->get(session, key, sizeof key, found, sizeof found);
        w->engine->put(session, key, sizeof key, value, sizeof value);
    }
}
static void *work(void *of) {
    worker *w = of;
    void *session = w->engine->begin(w->opened);
    for (double begun = now(), ended; begun < w->until; begun = ended) {
        operation(w, session);
        ended = now();
        if (w->count < MOST_TIMES) w->times[w->count] = (float)((ended - begun) * 1e6);
        w->count++;
    }
    w->engine->end(session);
    return NULL;
}
static int by_size(const void *a, const void *b) {
    float x = *(const float *)a, y = *(const float *)b;
    return (x > y) - (x < y);
}
static void run(const engine *engine, void *opened, char load, int threads, double seconds) {
    worker *workers = calloc((size_t)threads, sizeof *workers);
    pthread_t *started = calloc((size_t)threads, sizeof *started);
    unsigned long long before = bytes_written();
    double begun = now();
    for (int i = 0; i < threads; i++) {
        workers[i] = (worker){engine, opened, load, (uint64_t)i * 7919 + (uint64_t)load, 0, begun + seconds, malloc(MOST_TIMES * sizeof(float))};
        must(pthread_create(&started[i], NULL, work, &workers[i]), "pthread_create");
    }
    for (int i = 0; i < threads; i++) pthread_join(started[i], NULL);
    double took = now() - begun;
    uint64_t count = 0, kept = 0;
    for (int i = 0; i < threads; i++) count += workers[i].count;
    float *times = malloc((count + 1) * sizeof *times);
    for (int i = 0; i < threads; i++) {
        uint64_t mine = workers[i].count < MOST_TIMES ? workers[i].count : MOST_TIMES;
        memcpy(times + kept, workers[i].times, mine * sizeof *times);
        kept += mine;
        free(workers[i].times);
    }
    qsort(times, kept, sizeof *times, by_size);
    printf("%s\t%c\t%d\t%.0f\t%.0f\t%llu\n", engine->name, load, threads, (double)count / took, kept ? times[kept * 99 / 100] : 0.0,
        count ? (bytes_written() - before) / count : 0);
    fflush(stdout);
    free(times), free(workers), free(started);
}

int main(int count, char **words) {
    const engine *engines[] = {&store_engine, &lmdb_engine, &db_engine, &sqlite_engine, &rocksdb_engine}, *engine = NULL;
    for (size_t i = 0; count >= 8 && i < sizeof engines / sizeof *engines; i++)
        if (strcmp(engines[i]->name, words[1]) == 0) engine = engines[i];
    if (!engine) {
        fprintf(stderr, "use: ycsb store|LMDB|\"Berkeley DB\"|SQLite|RocksDB FOLDER CACHE_BYTES RECORDS SECONDS LOADS THREADS..\n");
        return 2;
    }
    must(mkdir(words[2], 0700), "mkdir");
    find_disk(words[2]);
    records = strtoull(words[4], NULL, 10);
    prepare_zipf(records);
    void *opened = engine->open(words[2], strtoull(words[3], NULL, 10)), *session = engine->begin(opened);
    char *keys = malloc(AT_ONCE * KEY_BYTES), value[VALUE_BYTES];
    memset(value, 7, sizeof value);
    unsigned long long before = bytes_written();
    double begun = now();
    for (uint64_t first = 0; first < records; first += AT_ONCE) {
        uint64_t some = records - first < AT_ONCE ? records - first : AT_ONCE;
        for (uint64_t i = 0; i < some; i++) key_of(first + i, keys + i * KEY_BYTES);
        engine->load(session, keys, KEY_BYTES, some, value, sizeof value);
    }
    engine->end(session);
    engine->settle(opened);
    printf("%s\tload\t1\t%.0f\t\t%llu\n", engine->name, (double)records / (now() - begun), (bytes_written() - before) / records);
    for (const char *load = words[6]; *load; load++)
        for (int i = 7; i < count; i++) run(engine, opened, *load, atoi(words[i]), strtod(words[5], NULL));
    engine->close(opened);
    free(keys);
    return 0;
}
