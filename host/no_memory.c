/* SPDX-License-Identifier: Apache-2.0 */
/* Each block of memory that a life of a pool asks for is refused in turn: the call that asks says so, and goes through when it is made
** again. Link it with -Wl,--wrap=malloc,--wrap=calloc,--wrap=realloc. It prints how many blocks there were, or what is wrong. */
#include "pinpool_threads.h"
#include <stdio.h>
#include <stdlib.h>
#include <string.h>

static long left = -1; /* so many blocks are given before one is refused; below 0: none is */
static long seen;
static int is_refused(void) {
    seen++;
    return left >= 0 && left-- == 0;
}
void *__real_malloc(size_t bytes);
void *__real_calloc(size_t many, size_t bytes);
void *__real_realloc(void *at, size_t bytes);
void *__wrap_malloc(size_t bytes);
void *__wrap_calloc(size_t many, size_t bytes);
void *__wrap_realloc(void *at, size_t bytes);
void *__wrap_malloc(size_t bytes) { return is_refused() ? NULL : __real_malloc(bytes); }
void *__wrap_calloc(size_t many, size_t bytes) { return is_refused() ? NULL : __real_calloc(many, bytes); }
void *__wrap_realloc(void *at, size_t bytes) { return is_refused() ? NULL : __real_realloc(at, bytes); }

static const char settings[] = "version = 2\nframes = 2\npage_bytes = 512\nworkers = 1\nwaiting = 1\nflushes = 1000\n"
    "[[region]]\nname = \"r\"\nfirst = 0\ncount = 4\nclass = 1\n";
static const char text[] = "{\"version\":1,\"body\":[{\"fix\":\"a\",\"region\":\"r\"},{\"latch\":\"a\",\"mode\":\"X\"},"
    "{\"unlatch\":\"a\"},{\"unfix\":\"a\"}]}";
static const char proof[] = "{\"notes\":[{},{\"a\":[\"r\",\"-\"]},{\"a\":[\"r\",\"X\"]},{\"a\":[\"r\",\"-\"]},{}],\"peak\":1,\"steps\":4}";
static uint8_t pages[4][512];
static long refused;

/* A call that is refused memory says so once. */
#define AGAIN(call) do { \
        pinpool_answer answer_ = (call); \
        if (answer_ == PINPOOL_OUT_OF_MEMORY) refused++, answer_ = (call); \
        if (answer_ != PINPOOL_DONE) { \
            printf("no_memory: %s: %s\n", #call, pinpool_answer_name(answer_)); \
            exit(1); \
        } \
    } while (0)

/* One life by single calls. */
static void by_calls(void) {
    const pinpool_policy policy = {3, 0, 1, 0};
    pinpool pool = PINPOOL_NONE;
    pinpool_fault fault;
    pinpool_plan plan;
    pinpool_told told;
    pinpool_ask ask;
    pinpool_dirty dirty[3];
    size_t count;
    uint64_t ticket, flusher;
    AGAIN(pinpool_open(&pool, (const uint8_t *)settings, sizeof settings - 1, &policy, &fault));
    AGAIN(pinpool_prepare(&pool, (const uint8_t *)text, sizeof text - 1, (const uint8_t *)proof, sizeof proof - 1, &plan, &fault, &told));
    AGAIN(pinpool_prepare_alone(&pool, (const uint8_t *)text, sizeof text - 1, &plan, &fault, &told));
    AGAIN(pinpool_enter(&pool, plan.plan, &ticket));
    AGAIN(pinpool_start(&pool, &ticket, &ask, &told));
    while (ask.step != PINPOOL_OVER) {
        uint32_t argument = ask.step == PINPOOL_FIX ? 3 : ask.step == PINPOOL_READ;
        if (ask.step == PINPOOL_READ) AGAIN(pinpool_came(&pool, ticket, pages[ask.page], sizeof pages[0]));
        AGAIN(pinpool_go(&pool, ticket, argument, &ask, &told));
    }
    AGAIN(pinpool_dirty_pages(&pool, dirty, 3, &count));
    if (count != 1 || dirty[0].page != 3) exit(1);
    AGAIN(pinpool_flusher(&pool, &flusher, &ask));
    AGAIN(pinpool_go(&pool, flusher, 0, &ask, &told));
    AGAIN(pinpool_image(&pool, flusher, pages[ask.page], sizeof pages[0]));
    AGAIN(pinpool_go(&pool, flusher, 1, &ask, &told));
    AGAIN(pinpool_leave(&pool, flusher, &told));
    AGAIN(pinpool_close(&pool));
}

static int read_page(void *of, uint32_t page, uint8_t *image, size_t length) {
    return memcpy(image, pages[page], length), of == NULL;
}
static int write_page(void *of, uint32_t page, const uint8_t *image, size_t length) {
    return memcpy(pages[page], image, length), of == NULL;
}
static uint32_t last(void *of, const pinpool_ask *ask) { return (void)of, ask->first + ask->count - 1; }
static int change(void *of, const pinpool_ask *ask, uint8_t *body) { return (void)of, (void)ask, body[0]++, 1; }

/* One life by pinpool_threads.h. */
static void by_threads(void) {
    const pinpool_policy policy = {3, 0, 1, 0};
    const pinpool_device device = {NULL, read_page, write_page, NULL};
    const pinpool_work work = {NULL, last, NULL, NULL, change};
    pinpool_threads *pool;
    pinpool_fault fault;
    pinpool_plan plan;
    pinpool_end end;
    AGAIN(pinpool_threads_open(settings, sizeof settings - 1, &policy, &device, &pool, &fault));
    AGAIN(pinpool_threads_prepare(pool, text, sizeof text - 1, &plan, &fault));
    AGAIN(pinpool_threads_execute(pool, &plan, &work, &end));
    AGAIN(pinpool_threads_close(&pool));
}

/* How many blocks such a life asks for, each of which was refused once. */
static long all_of(void (*life)(void)) {
    for (long k = 0;; k++) {
        memset(pages, 0, sizeof pages);
        for (uint8_t page = 0; page < 4; page++) pages[page][3] = page;
        left = k;
        seen = refused = 0;
        life();
        int is_right = pages[3][12] == (life == by_threads) && pages[3][11] == 1 && refused == (left < 0);
        if (!is_right) {
            printf("no_memory: block %ld: %ld calls were refused\n", k, refused);
            exit(1);
        }
        if (left >= 0) return seen;
    }
}

int main(void) {
    long calls = all_of(by_calls), threads = all_of(by_threads);
    printf("no_memory: %ld blocks by calls, and %ld by threads, were refused in turn\n", calls, threads);
    return 0;
}
