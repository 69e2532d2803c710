/* SPDX-License-Identifier: Apache-2.0 */
/* A file of pages used through the cache, in C alone: least FILE makes FILE anew, and what it had is lost. It reads its pages of
** 4096 bytes in some order, changes each, and writes it back when it leaves. */
#include "pinpool_cache.h"
#include <stdio.h>
#include <stdlib.h>
#include <string.h>

enum { PAGE = 4096, SIZE = 64, PAGES = 512 };

static FILE *file;
static char (*bytes)[PAGE]; /* of each frame */
static char changed[SIZE + 1];

/* Reads or writes the page of a key, and stops where that fails. */
static void pass(uint32_t key, uint32_t frame, int writes) {
    if (fseek(file, (long)key * PAGE, SEEK_SET) != 0 ||
        (writes ? fwrite(bytes[frame], PAGE, 1, file) : fread(bytes[frame], PAGE, 1, file)) != 1) {
        perror("least");
        exit(1);
    }
}

int main(int count, char **words) {
    pinpool_cache *cache;
    pinpool_page page;
    pinpool_counts counts;
    uint32_t key, from = 0;
    if (count != 2 || !(file = fopen(words[1], "w+b")) || !(bytes = calloc(SIZE + 1, PAGE))) return 2;
    for (key = 0; key < PAGES; key++) pass(key, 0, 1);
    if (pinpool_cache_new(SIZE, &cache) != PINPOOL_OK) return 1;
    for (int i = 0; i < 20000; i++) {
        key = (uint32_t)(i % 3 ? i * 7 % 40 : i * 31 % PAGES);
        if (pinpool_cache_fetch(cache, key, PINPOOL_ALWAYS, &page) != PINPOOL_OK) return 1;
        if (page.found == PINPOOL_NEW) {
            /* The page that left is still in its frame. */
            if (page.left_key != PINPOOL_NO_KEY && changed[page.left_frame]) pass(page.left_key, page.left_frame, 1);
            pass(key, page.frame, 0);
            changed[page.frame] = 0;
        }
        ++*(uint32_t *)(void *)bytes[page.frame]; /* how often the page was used */
        changed[page.frame] = 1;
        pinpool_cache_unpin(cache, key, 0, 0);
    }
    /* All pages that are cached are written back. */
    while (pinpool_cache_next(cache, from, &key, &page) == PINPOOL_OK && page.found == PINPOOL_HIT) {
        if (changed[page.frame]) pass(key, page.frame, 1);
        from = key + 1;
    }
    if (pinpool_cache_counts(cache, &counts) != PINPOOL_OK) return 1;
    pinpool_cache_free(cache);
    uint64_t uses = 0;
    for (key = 0; key < PAGES; key++) pass(key, 0, 0), uses += *(uint32_t *)(void *)bytes[0];
    printf("pinpool %s: %llu hits, %llu misses, %llu uses of pages in the file\n", pinpool_cache_version(),
        (unsigned long long)counts.hits, (unsigned long long)counts.misses, (unsigned long long)uses);
    free(bytes);
    return fclose(file) != 0 || uses != 20000;
}
