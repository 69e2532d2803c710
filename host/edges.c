/* SPDX-License-Identifier: Apache-2.0 */
/* The edges of pinpool_threads.h, which no proof has: devices that fail, works that give up, a full queue, a stop while somebody waits, and
** pools that can't be closed. edges FOLDER prints what went wrong, and nothing else. */
#define _POSIX_C_SOURCE 200809L
#include "pinpool_threads.h"
#include <pthread.h>
#include <sched.h>
#include <stdio.h>
#include <stdlib.h>
#include <string.h>
#include <time.h>
#include <unistd.h>

static int wrong;
#define SEE(it) ((it) ? (void)0 : (void)(wrong++, printf("edges: line %d: %s\n", __LINE__, #it)))

enum { PAGE = 512, PAGES = 8 };
static uint8_t kept[PAGES][PAGE];
static uint32_t unread = PINPOOL_NOBODY, unwritten = PINPOOL_NOBODY; /* pages whose calls fail */
static int no_sync, gives_other, reads;

static int read_page(void *of, uint32_t page, uint8_t *image, size_t length) {
    (void)of;
    reads++;
    if (page == unread) return 0;
    memcpy(image, kept[gives_other ? (page + 1) % PAGES : page], length);
    return 1;
}
static int write_page(void *of, uint32_t page, const uint8_t *image, size_t length) {
    (void)of;
    if (page == unwritten) return 0;
    memcpy(kept[page], image, length);
    return 1;
}
static int sync_all(void *of) { return (void)of, !no_sync; }
static const pinpool_device device = {NULL, read_page, write_page, sync_all};

static const char settings[] = "version = 2\nframes = 2\npage_bytes = 512\nworkers = 1\nwaiting = 1\nflushes = %d\n"
    "[[region]]\nname = \"low\"\nfirst = 0\ncount = 4\nclass = 1\n[[region]]\nname = \"top\"\nfirst = 4\ncount = 4\nclass = 2\n";
static const char one[] = "{\"version\":1,\"body\":[{\"choice\":[[{\"fix\":\"a\",\"region\":\"low\"},{\"latch\":\"a\",\"mode\":\"X\"},"
    "{\"unlatch\":\"a\"},{\"unfix\":\"a\"}],[]]}]}";
static const char two[] = "{\"version\":1,\"body\":[{\"fix\":\"a\",\"region\":\"low\"},{\"latch\":\"a\",\"mode\":\"X\"},"
    "{\"fix\":\"b\",\"region\":\"top\"},{\"latch\":\"b\",\"mode\":\"S\"},{\"unlatch\":\"b\"},{\"unfix\":\"b\"},"
    "{\"unlatch\":\"a\"},{\"unfix\":\"a\"}]}";
static const char three[] = "{\"version\":1,\"body\":[{\"loop\":3,\"body\":[{\"fix\":\"a\",\"region\":\"low\"},"
    "{\"latch\":\"a\",\"mode\":\"X\"},"
    "{\"unlatch\":\"a\"},{\"unfix\":\"a\"}]}]}";
static pinpool_threads *pool;
static pinpool_plan plan_of_one, plan_of_two, plan_of_three;

/* A work that adds one to a page. */
typedef struct adding {
    uint32_t low, top, branch;
    int sees, changes;          /* what the calls answer */
    pthread_barrier_t *barrier; /* where it stays, if at all */
    uint8_t *first;
} adding;

static uint32_t page_of(void *of, const pinpool_ask *ask) { return ask->slot == 0 ? ((adding *)of)->low : ((adding *)of)->top; }
static uint32_t branch_of(void *of, const pinpool_ask *ask) { return (void)ask, ((adding *)of)->branch; }
static int see(void *of, const pinpool_ask *ask, const uint8_t *body) { return (void)ask, (void)body, ((adding *)of)->sees; }
static int change(void *of, const pinpool_ask *ask, uint8_t *body) {
    adding *a = of;
    (void)ask;
    body[0]++;
    a->first = body;
    if (a->barrier) pthread_barrier_wait(a->barrier), pthread_barrier_wait(a->barrier);
    return a->changes;
}

static pinpool_answer run(const pinpool_plan *plan, adding *of, pinpool_end *end) {
    const pinpool_work work = {of, page_of, branch_of, see, change};
    return pinpool_threads_execute(pool, plan, &work, end);
}

static void begin_with(int flushes, uint32_t flush_from) {
    const pinpool_policy policy = {1, 0, flush_from, 0};
    pinpool_fault fault;
    char text[1000];
    memset(kept, 0, sizeof kept);
    for (int page = 0; page < PAGES; page++) kept[page][3] = (uint8_t)page;
    snprintf(text, sizeof text, settings, flushes);
    SEE(pinpool_threads_open(text, strlen(text), &policy, &device, &pool, &fault) == PINPOOL_DONE);
    SEE(pinpool_threads_prepare(pool, one, sizeof one - 1, &plan_of_one, &fault) == PINPOOL_DONE);
    SEE(pinpool_threads_prepare(pool, two, sizeof two - 1, &plan_of_two, &fault) == PINPOOL_DONE);
    SEE(pinpool_threads_prepare(pool, three, sizeof three - 1, &plan_of_three, &fault) == PINPOOL_DONE);
}

static void begin(int flushes) { begin_with(flushes, 9); }

/* Closes the pool; then these are the first bytes of the bodies. */
static void end_with(const char *bytes) {
    SEE(pinpool_threads_close(&pool) == PINPOOL_DONE && !pool);
    SEE(pinpool_threads_close(&pool) == PINPOOL_DONE && pinpool_threads_abandon(&pool) == 0);
    for (int page = 0; page < PAGES; page++) SEE(kept[page][12] == bytes[page] - '0');
}

static void see_refusals(void) {
    const pinpool_policy policy = {1, 0, 9, 8}, none = {0, 0, 9, 8};
    pinpool_fault fault = {0, 0};
    char text[1000];
    pinpool_plan plan;
    snprintf(text, sizeof text, settings, 5);
    SEE(pinpool_threads_open("frames = 4", 10, &policy, &device, &pool, &fault) == PINPOOL_REFUSED && fault.number == 2 && !pool);
    SEE(pinpool_threads_open(text, strlen(text), &none, &device, &pool, &fault) == PINPOOL_WRONG_ARGUMENT && !pool);
    *strstr(text, "waiting = 1") = '#';
    SEE(pinpool_threads_open(text, strlen(text), &policy, &device, &pool, &fault) == PINPOOL_REFUSED && !pool);
    begin(5);
    fault.number = 0;
    SEE(pinpool_threads_prepare(pool, "{}", 2, &plan, &fault) == PINPOOL_REFUSED && fault.number == 13);
    SEE(pinpool_threads_prepare(pool, "\xff", 1, &plan, &fault) == PINPOOL_WRONG_ARGUMENT);
    end_with("00000000");
}

/* A device whose last page can't be read, or is another page, is of other settings. */
static void see_other_devices(void) {
    const pinpool_policy policy = {1, 0, 9, 8};
    pinpool_fault fault = {0, 0};
    char text[1000];
    begin(5);
    end_with("00000000");
    snprintf(text, sizeof text, settings, 5);
    unread = PAGES - 1;
    SEE(pinpool_threads_open(text, strlen(text), &policy, &device, &pool, &fault) == PINPOOL_OTHER_SETTINGS && !pool);
    unread = PINPOOL_NOBODY;
    for (int byte = 0; byte < 4; byte++) {
        kept[PAGES - 1][byte] ^= 8;
        SEE(pinpool_threads_open(text, strlen(text), &policy, &device, &pool, &fault) == PINPOOL_OTHER_SETTINGS && !pool);
        kept[PAGES - 1][byte] ^= 8;
    }
    unread = PAGES - 2; /* no other page is looked at */
    SEE(pinpool_threads_open(text, strlen(text), &policy, &device, &pool, &fault) == PINPOOL_DONE);
    unread = PINPOOL_NOBODY;
    SEE(pinpool_threads_close(&pool) == PINPOOL_DONE);
}

static void see_failures(void) {
    adding a = {1, 5, 0, 1, 1, NULL, NULL};
    pinpool_end end;
    begin(1000);
    unread = 1;
    SEE(run(&plan_of_one, &a, &end) == PINPOOL_DONE && end.is_gone && end.page == 1 && end.why == PINPOOL_READ_FAILED);
    unread = 5; /* the first page was changed by then, and is still latched */
    for (int turn = 0; turn < 3; turn++)
        SEE(run(&plan_of_two, &a, &end) == PINPOOL_DONE && end.is_gone && end.page == 5 && end.why == PINPOOL_READ_FAILED);
    unread = PINPOOL_NOBODY;
    const pinpool_work looks_away = {&a, page_of, branch_of, NULL, NULL};
    SEE(pinpool_threads_execute(pool, &plan_of_one, &looks_away, &end) == PINPOOL_DONE && !end.is_gone && !end.given_up);
    gives_other = 1;
    a.low = 2;
    SEE(run(&plan_of_one, &a, &end) == PINPOOL_DONE && end.is_gone && end.page == 2 && end.why == PINPOOL_READ_OTHER);
    gives_other = 0;
    for (a.low = 0; a.low < 2; a.low++) SEE(run(&plan_of_one, &a, &end) == PINPOOL_DONE && !end.is_gone && !end.given_up);
    unwritten = 0; /* which has to make room */
    a.low = 3;
    SEE(run(&plan_of_one, &a, &end) == PINPOOL_DONE && end.is_gone && end.page == 0 && end.why == PINPOOL_WRITE_FAILED);
    unwritten = PINPOOL_NOBODY;
    SEE(run(&plan_of_one, &a, &end) == PINPOOL_DONE && !end.is_gone);
    SEE(run(&plan_of_three, &a, &end) == PINPOOL_DONE && !end.is_gone && !end.given_up);
    end_with("11040000");
}

static void see_giving_up(void) {
    adding a = {1, 5, 0, 1, 1, NULL, NULL};
    pinpool_end end;
    begin(1000);
    a.low = PINPOOL_NOBODY;
    reads = 0;
    SEE(run(&plan_of_one, &a, &end) == PINPOOL_DONE && end.given_up && !end.is_gone && !end.page && !end.why && !reads);
    a.low = 4; /* of another region */
    SEE(run(&plan_of_one, &a, &end) == PINPOOL_DONE && end.given_up);
    a.low = 1, a.branch = 2;
    const uint64_t misses = pinpool_threads_stats(pool).misses;
    SEE(run(&plan_of_one, &a, &end) == PINPOOL_DONE && end.given_up && pinpool_threads_stats(pool).misses == misses);
    a.branch = 0, a.changes = 0;
    SEE(run(&plan_of_one, &a, &end) == PINPOOL_DONE && end.given_up);
    a.changes = 1, a.sees = 0; /* the first page was changed by then, and is still latched */
    SEE(run(&plan_of_two, &a, &end) == PINPOOL_DONE && end.given_up);
    a.sees = 1;
    SEE(run(&plan_of_two, &a, &end) == PINPOOL_DONE && !end.given_up && !end.is_gone);
    end_with("01000000");
}

static void *run_for_thread(void *of) {
    pinpool_end end;
    return (void *)(uintptr_t)run(&plan_of_one, of, &end);
}

/* One runs, one waits to start, and a third finds the queue full. Then nobody starts any more. A page that is changed, and latched X, can't
** be flushed; else the pool can't be closed, since a plan runs. */
static void see_queue(int is_dirty) {
    pthread_barrier_t barrier;
    pthread_t threads[2];
    adding running = {1, 5, 0, 1, 1, &barrier, NULL}, waiting = {2, 5, 0, 1, 1, NULL, NULL};
    pinpool_end end;
    void *answer;
    begin(1000);
    if (is_dirty) running.barrier = NULL, SEE(run(&plan_of_one, &running, &end) == PINPOOL_DONE), running.barrier = &barrier;
    pthread_barrier_init(&barrier, NULL, 2);
    pthread_create(&threads[0], NULL, run_for_thread, &running);
    pthread_barrier_wait(&barrier);
    pthread_create(&threads[1], NULL, run_for_thread, &waiting);
    while (!pinpool_threads_stats(pool).waiting) sched_yield();
    SEE(run(&plan_of_one, &waiting, &end) == PINPOOL_QUEUE_FULL);
    SEE(pinpool_threads_flush(pool) == (is_dirty ? PINPOOL_STILL_DIRTY : PINPOOL_DONE));
    SEE(pinpool_threads_close(&pool) == (is_dirty ? PINPOOL_STILL_DIRTY : PINPOOL_IN_USE) && pinpool_threads_stats(pool).is_stopped);
    pthread_join(threads[1], &answer);
    SEE((uintptr_t)answer == PINPOOL_STOPPED);
    SEE(run(&plan_of_one, &waiting, &end) == PINPOOL_STOPPED);
    pthread_barrier_wait(&barrier);
    pthread_join(threads[0], &answer);
    SEE((uintptr_t)answer == PINPOOL_DONE);
    pthread_barrier_destroy(&barrier);
    end_with(is_dirty ? "02000000" : "01000000");
}

static void see_ends(void) {
    adding a = {1, 5, 0, 1, 1, NULL, NULL};
    pinpool_plan other = {7, 0, 1, 1};
    pinpool_end end;
    begin(1000);
    SEE(run(&other, &a, &end) == PINPOOL_WRONG_ARGUMENT);
    SEE(run(&plan_of_one, &a, &end) == PINPOOL_DONE);
    unwritten = 1;
    SEE(pinpool_threads_flush(pool) == PINPOOL_STILL_DIRTY && pinpool_threads_close(&pool) == PINPOOL_STILL_DIRTY && pool);
    unwritten = PINPOOL_NOBODY, no_sync = 1;
    SEE(pinpool_threads_close(&pool) == PINPOOL_STILL_DIRTY && pinpool_threads_stats(pool).dirty == 0);
    no_sync = 0;
    end_with("01000000");
    begin(1);
    for (a.low = 0; a.low < 2; a.low++) SEE(run(&plan_of_one, &a, &end) == PINPOOL_DONE);
    SEE(pinpool_threads_close(&pool) == PINPOOL_FLUSHES_SPENT && pinpool_threads_stats(pool).dirty == 1);
    SEE(pinpool_threads_abandon(&pool) == 1 && !pool);
}

/* The flusher begins where two pages are changed, and goes on until none is. */
static void see_flusher(void) {
    adding a = {1, 5, 0, 1, 1, NULL, NULL};
    pinpool_end end;
    begin_with(1000, 2);
    SEE(run(&plan_of_one, &a, &end) == PINPOOL_DONE && pinpool_threads_stats(pool).dirty == 1);
    a.low = 2;
    SEE(run(&plan_of_one, &a, &end) == PINPOOL_DONE);
    for (int turn = 0; turn < 500 && pinpool_threads_stats(pool).dirty; turn++) {
        const struct timespec rest = {0, 10000000};
        nanosleep(&rest, NULL);
    }
    SEE(pinpool_threads_stats(pool).dirty == 0 && pinpool_threads_stats(pool).flushes == 2);
    end_with("01100000");
}

static void see_file(const char *folder) {
    char path[1000];
    pinpool_file file;
    uint8_t image[PAGE];
    snprintf(path, sizeof path, "%s/edges.pages", folder);
    SEE(!pinpool_file_open(&file, path, PAGE));
    SEE(pinpool_file_make(path, 3, PAGE) && !pinpool_file_make(path, 3, PAGE));
    SEE(pinpool_file_open(&file, path, PAGE));
    pinpool_device of = pinpool_file_device(&file);
    SEE(of.read(of.of, 2, image, PAGE) && image[3] == 2 && !of.read(of.of, 3, image, PAGE));
    image[PAGE - 1] = 9;
    SEE(of.write(of.of, 1, image, PAGE) && of.sync(of.of) && of.read(of.of, 1, image, PAGE) && image[PAGE - 1] == 9);
    file.page_bytes = 1 << 20; /* beyond 2^32 bytes */
    SEE(of.write(of.of, 5000, image, PAGE) && of.read(of.of, 5000, image, PAGE) && image[PAGE - 1] == 9);
    SEE(lseek(file.descriptor, 0, SEEK_END) == (off_t)5000 * (1 << 20) + PAGE);
    SEE(pinpool_file_close(&file) && !of.read(of.of, 1, image, PAGE));
    unlink(path);
}

int main(int count, char **words) {
    see_refusals();
    see_other_devices();
    see_failures();
    see_giving_up();
    see_queue(0);
    see_queue(1);
    see_flusher();
    see_ends();
    see_file(count > 1 ? words[1] : ".");
    return wrong != 0;
}
