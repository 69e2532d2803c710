/* SPDX-License-Identifier: Apache-2.0 */
/* The lock, the bells and the loop over pinpool.h. There are two locks: `flushing` guards the flusher's ticket, and `lock` the pool. Who
** takes both takes `flushing` first. Neither is held while a work or a device is called, but `flushing` while a flush is written. */
#define _POSIX_C_SOURCE 200809L
#include "pinpool_threads.h"
#include <pthread.h>
#include <stdlib.h>
#include <string.h>
#include <time.h>

/* An image is a head and a body; a plan has so many slots at most. */
enum { HEAD = 12, SLOTS = 32 };

/* A page that a plan has latched X. What the work changes is a copy, which is put in right before the latch is taken off. For a work may
** give up, or a device fail, when the page was changed already: then it stays as it was. A page that is latched S needs no copy. */
typedef struct changing {
    uint8_t *copy;  /* one of the chair's bodies; NULL: the slot has none */
    uint8_t *place; /* where the pool keeps the body, as long as it is latched X; else NULL */
} changing;

/* What a chair's thread has of its own. */
typedef struct chair {
    uint8_t *image;           /* what a device reads into or writes from */
    uint8_t *bodies;          /* room for `room` bodies */
    uint32_t room, used;      /* bit k of `used`: body k is a slot's */
    changing changing[SLOTS]; /* each slot's */
} chair;

struct pinpool_threads {
    pthread_mutex_t lock, flushing;
    pthread_cond_t *bells;
    pinpool pool;
    pinpool_sizes sizes;
    pinpool_device device;
    chair *chairs;
    uint64_t ticket; /* the flusher's */
    pinpool_ask ask; /* its next step */
    uint8_t *image;  /* what it writes from */
    pthread_t flusher;
    int has_flusher;
};

/* A plan that runs, by one thread. */
typedef struct job {
    pinpool_threads *pool;
    const pinpool_work *work;
    chair *chair;
    uint64_t ticket;
    pinpool_ask ask;   /* the next step */
    pinpool_told told; /* whom calls have told since the lock was taken */
    int has_lock, given_up;
} job;

/* ---- bells */

static void ring(pinpool_threads *pool, const pinpool_told *told) {
    uint32_t bell;
    for (bell = 0; bell < 32 && told->running >> bell; bell++)
        if (told->running >> bell & 1) pthread_cond_signal(&pool->bells[bell]);
    if (told->next != PINPOOL_NOBODY) pthread_cond_signal(&pool->bells[told->next]);
    if (told->all)
        for (bell = pool->sizes.workers; bell < pool->sizes.bells - 1; bell++) pthread_cond_signal(&pool->bells[bell]);
    if (told->flusher) pthread_cond_signal(&pool->bells[pool->sizes.bells - 1]);
}

/* Sleeps until the ticket's bell rings. It may wake for nothing. */
static void sleep_at(pinpool_threads *pool, uint64_t ticket) { pthread_cond_wait(&pool->bells[pinpool_bell(ticket)], &pool->lock); }

/* The same, but for a second at most. */
static void nap_at(pinpool_threads *pool, uint64_t ticket) {
    struct timespec until;
    clock_gettime(CLOCK_REALTIME, &until);
    until.tv_sec++;
    pthread_cond_timedwait(&pool->bells[pinpool_bell(ticket)], &pool->lock, &until);
}

/* ---- the lock of a plan's thread. It is taken for as many calls as follow one another, and let go where the work, the device or a copy
** comes in between. */

static const pinpool_told nobody = {0, PINPOOL_NOBODY, 0, 0};

/* Takes the lock, if the thread hasn't got it. */
static void take(job *job) {
    if (!job->has_lock) pthread_mutex_lock(&job->pool->lock);
    job->has_lock = 1;
}

/* Rings for those whom calls have told. */
static void ring_all(job *job) {
    ring(job->pool, &job->told);
    job->told = nobody;
}

/* Lets the lock go, if the thread has it. (The bells are rung before that, at the last moment: helgrind calls the other order dubious.) */
static void let_go(job *job) {
    if (!job->has_lock) return;
    ring_all(job);
    pthread_mutex_unlock(&job->pool->lock);
    job->has_lock = 0;
}

/* A call has told these, too. */
static void tell(job *job, const pinpool_told *told) {
    if (told->next != PINPOOL_NOBODY) {
        if (job->told.next != PINPOOL_NOBODY && job->told.next != told->next) ring_all(job);
        job->told.next = told->next;
    }
    job->told.running |= told->running;
    job->told.all |= told->all;
    job->told.flusher |= told->flusher;
}

/* Sleeps, with the lock, until the job's bell rings. */
static void await_bell(job *job) {
    ring_all(job);
    sleep_at(job->pool, job->ticket);
}

/* ---- bodies that are changed */

static size_t body_bytes(const pinpool_threads *pool) { return pool->sizes.page_bytes - HEAD; }

/* What a body takes in a block, so that the next one is fit for any type too. */
static size_t body_stride(const pinpool_threads *pool) { return (body_bytes(pool) + 63) / 64 * 64; }

/* Makes room for the bodies of a plan with this peak: it latches no more slots at once than it holds pages. */
static int make_room(pinpool_threads *pool, chair *chair, uint64_t peak) {
    uint32_t room = peak < SLOTS ? (uint32_t)peak : SLOTS;
    uint8_t *bodies;
    if (room <= chair->room) return 1;
    if (!(bodies = malloc(room * body_stride(pool)))) return 0;
    free(chair->bodies);
    chair->bodies = bodies;
    chair->room = room;
    return 1;
}

/* Copies a body that lies at this place, and was latched X in this slot. NULL where the chair has no room for it. */
static uint8_t *copied(job *job, uint32_t slot, uint8_t *place) {
    chair *chair = job->chair;
    changing *changing = &chair->changing[slot];
    uint32_t at = 0;
    while (at < chair->room && chair->used >> at & 1) at++;
    if (at == chair->room) return NULL;
    chair->used |= (uint32_t)1 << at;
    changing->place = place;
    changing->copy = chair->bodies + at * body_stride(job->pool);
    return memcpy(changing->copy, place, body_bytes(job->pool));
}

/* The slot is about to be unlatched: what is in its copy becomes the page, unless the work has given up. */
static void put_in(job *job, uint32_t slot) {
    chair *chair = job->chair;
    changing *changing = &chair->changing[slot < SLOTS ? slot : 0];
    if (slot >= SLOTS || !changing->copy) return;
    if (!job->given_up) {
        let_go(job);
        memcpy(changing->place, changing->copy, body_bytes(job->pool));
    }
    chair->used &= ~((uint32_t)1 << (size_t)(changing->copy - chair->bodies) / body_stride(job->pool));
    changing->copy = NULL;
}

/* Whether the slot, which is unlatched now, had a page that the work might change. */
static int was_mine(job *job, uint32_t slot) {
    if (slot >= SLOTS || !job->chair->changing[slot].place) return 0;
    job->chair->changing[slot].place = NULL;
    return 1;
}

/* ---- a plan's steps */

/* The page that the work names, or the branch; where it gives up, the first page and the last branch. */
static uint32_t named(job *job, uint32_t (*names)(void *of, const pinpool_ask *ask), uint32_t first, uint32_t otherwise) {
    uint32_t answer;
    if (job->given_up) return otherwise;
    let_go(job);
    answer = names ? names(job->work->of, &job->ask) : PINPOOL_NOBODY;
    if (answer - first < job->ask.count) return answer;
    job->given_up = 1;
    return otherwise;
}

/* Has the device read the page, and hands in what came. 1 where it did. */
static uint32_t read_page(job *job) {
    pinpool_threads *pool = job->pool;
    uint8_t *image = job->chair->image;
    let_go(job);
    if (!pool->device.read(pool->device.of, job->ask.page, image, pool->sizes.page_bytes)) return 0;
    take(job);
    return pinpool_came(&pool->pool, job->ticket, image, pool->sizes.page_bytes) == PINPOOL_DONE;
}

/* Has the device write the page that makes room. 1 where it did. */
static uint32_t write_page(job *job) {
    pinpool_threads *pool = job->pool;
    uint8_t *image = job->chair->image;
    take(job);
    if (pinpool_image(&pool->pool, job->ticket, image, pool->sizes.page_bytes) != PINPOOL_DONE) return 0;
    let_go(job);
    return pool->device.write(pool->device.of, job->ask.page, image, pool->sizes.page_bytes) != 0;
}

/* Does what the next step wants of the host, and gives its argument. */
static uint32_t argument_of(job *job) {
    const pinpool_ask *ask = &job->ask;
    switch (ask->step) {
    case PINPOOL_FIX:
    case PINPOOL_GATHER: return named(job, job->work->page, ask->first, ask->first);
    case PINPOOL_CHOOSE: return named(job, job->work->branch, 0, ask->count - 1);
    case PINPOOL_READ: return !job->given_up && read_page(job);
    case PINPOOL_WRITE: return !job->given_up && write_page(job);
    case PINPOOL_UNLATCH: put_in(job, ask->slot); return 0;
    default: return 0;
    }
}

/* Whether the work is for pages that are latched by this step. */
static int wants(const job *job, uint32_t step) {
    if (job->given_up) return 0;
    return step == PINPOOL_LATCH_X ? job->work->change != NULL : step == PINPOOL_LATCH_S && job->work->see != NULL;
}

/* The latch is made: the work sees the page where it lies, or changes a copy of it. */
static void show(job *job, const pinpool_ask *latched) {
    const pinpool_work *work = job->work;
    pinpool_lent lent;
    uint8_t *copy;
    job->given_up = 1;
    if (latched->slot >= SLOTS || pinpool_lend(&job->pool->pool, job->ticket, latched->slot, &lent) != PINPOOL_DONE) return;
    let_go(job);
    if (latched->step == PINPOOL_LATCH_S) {
        job->given_up = !work->see(work->of, latched, lent.bytes);
    } else if ((copy = copied(job, latched->slot, lent.bytes))) {
        job->given_up = !work->change(work->of, latched, copy);
    }
}

/* Fixes the page and latches it S by one call, where that goes, and shows it to the work. Else it tells why not. */
static pinpool_answer get(job *job, uint32_t page) {
    const pinpool_ask latched = {.step = PINPOOL_LATCH_S, .slot = job->ask.slot, .page = page};
    pinpool_told told;
    uint8_t nothing;
    pinpool_answer answer = pinpool_get(&job->pool->pool, job->ticket, page, 0, &nothing, 0, &job->ask, &told);
    tell(job, &told);
    if (answer == PINPOOL_DONE) show(job, &latched);
    return answer;
}

/* Takes a latch S off and unfixes the page by one call, where that goes. Else it tells why not. */
static pinpool_answer put(job *job) {
    pinpool_told told;
    pinpool_answer answer = pinpool_put(&job->pool->pool, job->ticket, &job->ask, &told);
    tell(job, &told);
    return answer;
}

/* Makes two steps by one call, where the next one begins a reading for the work, or ends one. NOT_AT_ONCE: it doesn't go. */
static pinpool_answer at_once(job *job, uint32_t argument) {
    if (job->ask.step == PINPOOL_FIX && wants(job, PINPOOL_LATCH_S)) return get(job, argument);
    if (job->ask.step == PINPOOL_UNLATCH && !was_mine(job, job->ask.slot)) return put(job);
    return PINPOOL_NOT_AT_ONCE;
}

/* Makes the next step, once it is possible. */
static pinpool_answer go(job *job, uint32_t argument) {
    pinpool_told told;
    pinpool_answer answer;
    for (;;) {
        answer = pinpool_go(&job->pool->pool, job->ticket, argument, &job->ask, &told);
        tell(job, &told);
        if (answer != PINPOOL_NOT_NOW) return answer;
        await_bell(job);
    }
}

/* The plan has a chair: runs it to its end. */
static pinpool_answer run(job *job) {
    pinpool_ask step;
    pinpool_answer answer;
    while (job->ask.step != PINPOOL_OVER && job->ask.step != PINPOOL_GONE) {
        uint32_t argument = argument_of(job);
        step = job->ask;
        take(job);
        if ((answer = at_once(job, argument)) == PINPOOL_DONE) continue;
        if (answer == PINPOOL_NOT_AT_ONCE) answer = go(job, argument);
        if (answer != PINPOOL_DONE) return answer;
        if (wants(job, step.step)) show(job, &step);
    }
    return PINPOOL_DONE;
}

/* Gives back the chair of a plan that wasn't taken. */
static void leave(job *job) {
    pinpool_told told;
    if (pinpool_leave(&job->pool->pool, job->ticket, &told) == PINPOOL_DONE) tell(job, &told);
}

/* Waits for a chair, and for room for the plan's pages. */
static pinpool_answer sit(job *job, const pinpool_plan *plan) {
    pinpool_threads *pool = job->pool;
    pinpool_told told;
    pinpool_answer answer = pinpool_enter(&pool->pool, plan->plan, &job->ticket);
    if (answer != PINPOOL_DONE) return answer;
    for (;;) {
        answer = pinpool_start(&pool->pool, &job->ticket, &job->ask, &told);
        tell(job, &told);
        if (answer == PINPOOL_DONE) break;
        if (answer != PINPOOL_NOT_NOW) return answer;
        await_bell(job);
    }
    job->chair = &pool->chairs[pinpool_bell(job->ticket)];
    job->chair->used = 0;
    memset(job->chair->changing, 0, sizeof job->chair->changing);
    if (make_room(pool, job->chair, plan->peak)) return PINPOOL_DONE;
    leave(job);
    return PINPOOL_OUT_OF_MEMORY;
}

pinpool_answer pinpool_threads_execute(
    pinpool_threads *pool, const pinpool_plan *plan, const pinpool_work *work, pinpool_end *end) {
    job job = {.pool = pool, .work = work, .told = nobody};
    pinpool_answer answer;
    memset(end, 0, sizeof *end);
    take(&job);
    answer = sit(&job, plan);
    if (answer == PINPOOL_DONE) {
        answer = run(&job);
        if (answer == PINPOOL_OUT_OF_MEMORY) leave(&job);
    }
    let_go(&job);
    if (answer != PINPOOL_DONE) return answer;
    end->given_up = job.given_up != 0;
    if (end->given_up || job.ask.step != PINPOOL_GONE) return answer;
    end->is_gone = 1;
    end->page = job.ask.page;
    end->why = job.ask.why;
    return answer;
}

/* ---- the flusher. Both locks are held, and `lock` is given back while the device is called. */

/* Makes the flusher's next step. */
static pinpool_answer flusher_goes(pinpool_threads *pool, uint32_t argument) {
    pinpool_told told;
    pinpool_answer answer = pinpool_go(&pool->pool, pool->ticket, argument, &pool->ask, &told);
    ring(pool, &told);
    return answer;
}

/* Has the device write the page whose flush has begun. 1 where it did. */
static uint32_t write_changed(pinpool_threads *pool) {
    int is_written;
    if (pinpool_image(&pool->pool, pool->ticket, pool->image, pool->sizes.page_bytes) != PINPOOL_DONE) return 0;
    pthread_mutex_unlock(&pool->lock);
    is_written = pool->device.write(pool->device.of, pool->ask.page, pool->image, pool->sizes.page_bytes);
    pthread_mutex_lock(&pool->lock);
    return is_written != 0;
}

/* Writes one changed page back. DONE; STILL_DIRTY where the device failed; NONE_TO_FLUSH; FLUSHES_SPENT. */
static pinpool_answer flush_one(pinpool_threads *pool) {
    uint32_t is_written;
    pinpool_answer answer = flusher_goes(pool, 0);
    if (answer != PINPOOL_DONE) return answer == PINPOOL_NOT_NOW ? PINPOOL_NONE_TO_FLUSH : answer;
    is_written = write_changed(pool);
    answer = flusher_goes(pool, is_written);
    return answer == PINPOOL_DONE && !is_written ? PINPOOL_STILL_DIRTY : answer;
}

static void take_both(pinpool_threads *pool) {
    pthread_mutex_lock(&pool->flushing);
    pthread_mutex_lock(&pool->lock);
}

/* The flusher's thread: flushes while the policy wants it, and sleeps else. Where a flush fails it waits for a second. */
static void *flush_by_policy(void *of) {
    pinpool_threads *pool = of;
    uint32_t is_on = 0;
    for (;;) {
        pinpool_answer wanted, flushed = PINPOOL_NOT_NOW;
        take_both(pool);
        wanted = pinpool_flush_wanted(&pool->pool, pool->ticket, is_on);
        if (wanted == PINPOOL_DONE) flushed = flush_one(pool);
        pthread_mutex_unlock(&pool->flushing);
        is_on = flushed == PINPOOL_DONE;
        if (wanted == PINPOOL_NOT_NOW) sleep_at(pool, pool->ticket);
        else if (wanted == PINPOOL_DONE && !is_on) nap_at(pool, pool->ticket);
        pthread_mutex_unlock(&pool->lock);
        if (wanted != PINPOOL_NOT_NOW && wanted != PINPOOL_DONE) return NULL;
    }
}

pinpool_answer pinpool_threads_flush(pinpool_threads *pool) {
    pinpool_stats stats;
    pinpool_answer answer = PINPOOL_DONE;
    while (answer == PINPOOL_DONE) {
        take_both(pool);
        answer = flush_one(pool);
        if (answer == PINPOOL_NONE_TO_FLUSH && pinpool_stats_of(&pool->pool, &stats) == PINPOOL_DONE && stats.dirty)
            answer = PINPOOL_STILL_DIRTY;
        pthread_mutex_unlock(&pool->lock);
        pthread_mutex_unlock(&pool->flushing);
    }
    if (answer != PINPOOL_NONE_TO_FLUSH) return answer;
    return !pool->device.sync || pool->device.sync(pool->device.of) ? PINPOOL_DONE : PINPOOL_STILL_DIRTY;
}

/* ---- the whole */

/* Frees what there is of a pool whose handle holds none. */
static void set_free(pinpool_threads *pool) {
    uint32_t at;
    for (at = 0; pool->chairs && at < pool->sizes.workers; at++) {
        free(pool->chairs[at].image);
        free(pool->chairs[at].bodies);
    }
    for (at = 0; pool->bells && at < pool->sizes.bells; at++) pthread_cond_destroy(&pool->bells[at]);
    pthread_mutex_destroy(&pool->lock);
    pthread_mutex_destroy(&pool->flushing);
    free(pool->bells);
    free(pool->chairs);
    free(pool->image);
    free(pool);
}

/* Gets the memory of bells and chairs, whose numbers are known. */
static int furnish(pinpool_threads *pool) {
    uint32_t at;
    if (!(pool->bells = calloc(pool->sizes.bells, sizeof *pool->bells))) return 0;
    for (at = 0; at < pool->sizes.bells; at++) pthread_cond_init(&pool->bells[at], NULL);
    if (!(pool->chairs = calloc(pool->sizes.workers, sizeof *pool->chairs))) return 0;
    for (at = 0; at < pool->sizes.workers; at++)
        if (!(pool->chairs[at].image = malloc(pool->sizes.page_bytes))) return 0;
    return (pool->image = malloc(pool->sizes.page_bytes)) != NULL;
}

/* Takes the flusher's ticket, and starts its thread. */
static int start_flusher(pinpool_threads *pool) {
    if (pinpool_flusher(&pool->pool, &pool->ticket, &pool->ask) != PINPOOL_DONE) return 0;
    pool->has_flusher = !pthread_create(&pool->flusher, NULL, flush_by_policy, pool);
    return pool->has_flusher;
}

/* Whether the device is of these settings, by its last page: that can be read, and its image names it. */
static int is_of_settings(pinpool_threads *pool) {
    const uint8_t *head = pool->image;
    const uint32_t last = pool->sizes.pages - 1;
    if (!pool->device.read(pool->device.of, last, pool->image, pool->sizes.page_bytes)) return 0;
    return ((uint32_t)head[0] << 24 | (uint32_t)head[1] << 16 | (uint32_t)head[2] << 8 | head[3]) == last;
}

/* Gets what an opened pool wants besides, looks whether the device is of its settings, and starts the flusher. */
static pinpool_answer set_up(pinpool_threads *pool) {
    pinpool_answer answer = pinpool_sizes_of(&pool->pool, &pool->sizes);
    if (answer != PINPOOL_DONE) return answer;
    if (!furnish(pool)) return PINPOOL_OUT_OF_MEMORY;
    if (!is_of_settings(pool)) return PINPOOL_OTHER_SETTINGS;
    return start_flusher(pool) ? PINPOOL_DONE : PINPOOL_OUT_OF_MEMORY;
}

pinpool_answer pinpool_threads_open(const char *settings, size_t length, const pinpool_policy *policy,
    const pinpool_device *device, pinpool_threads **made, pinpool_fault *fault) {
    pinpool_threads *pool = calloc(1, sizeof *pool);
    pinpool_answer answer;
    uint32_t lost;
    *made = NULL;
    if (!pool) return PINPOOL_OUT_OF_MEMORY;
    pool->device = *device;
    pthread_mutex_init(&pool->lock, NULL);
    pthread_mutex_init(&pool->flushing, NULL);
    answer = pinpool_open(&pool->pool, (const uint8_t *)settings, length, policy, fault);
    if (answer == PINPOOL_DONE) {
        answer = set_up(pool);
        if (answer == PINPOOL_DONE) {
            *made = pool;
            return answer;
        }
        if (pinpool_abandon(&pool->pool, &lost) != PINPOOL_DONE) answer = PINPOOL_BROKEN;
    }
    set_free(pool);
    return answer;
}

pinpool_answer pinpool_threads_prepare(
    pinpool_threads *pool, const char *text, size_t length, pinpool_plan *plan, pinpool_fault *fault) {
    pinpool_told told;
    pinpool_answer answer;
    pthread_mutex_lock(&pool->lock);
    answer = pinpool_prepare_alone(&pool->pool, (const uint8_t *)text, length, plan, fault, &told);
    ring(pool, &told);
    pthread_mutex_unlock(&pool->lock);
    return answer;
}

void pinpool_threads_stop(pinpool_threads *pool) {
    pinpool_told told;
    pthread_mutex_lock(&pool->lock);
    if (pinpool_stop(&pool->pool, &told) == PINPOOL_DONE) ring(pool, &told);
    pthread_mutex_unlock(&pool->lock);
}

pinpool_sizes pinpool_threads_sizes(pinpool_threads *pool) { return pool->sizes; }

pinpool_stats pinpool_threads_stats(pinpool_threads *pool) {
    pinpool_stats stats;
    pthread_mutex_lock(&pool->lock);
    if (pinpool_stats_of(&pool->pool, &stats) != PINPOOL_DONE) memset(&stats, 0, sizeof stats);
    pthread_mutex_unlock(&pool->lock);
    return stats;
}

/* Stops the pool, and waits for the flusher's thread. */
static void stop_flusher(pinpool_threads *pool) {
    pinpool_threads_stop(pool);
    if (pool->has_flusher) pthread_join(pool->flusher, NULL);
    pool->has_flusher = 0;
}

/* Gives the flusher's ticket back, and ends the pool. Where that can't be, the ticket is taken again. */
static pinpool_answer end_pool(pinpool_threads *pool) {
    pinpool_told told;
    pinpool_answer answer = pinpool_leave(&pool->pool, pool->ticket, &told);
    if (answer != PINPOOL_DONE) return answer;
    answer = pinpool_close(&pool->pool);
    if (answer != PINPOOL_DONE && pinpool_flusher(&pool->pool, &pool->ticket, &pool->ask) != PINPOOL_DONE) return PINPOOL_BROKEN;
    return answer;
}

pinpool_answer pinpool_threads_close(pinpool_threads **of) {
    pinpool_threads *pool = *of;
    pinpool_answer answer;
    if (!pool) return PINPOOL_DONE;
    stop_flusher(pool);
    answer = pinpool_threads_flush(pool);
    if (answer != PINPOOL_DONE) return answer;
    take_both(pool);
    answer = end_pool(pool);
    pthread_mutex_unlock(&pool->lock);
    pthread_mutex_unlock(&pool->flushing);
    if (answer != PINPOOL_DONE) return answer;
    set_free(pool);
    *of = NULL;
    return answer;
}

uint32_t pinpool_threads_abandon(pinpool_threads **of) {
    pinpool_threads *pool = *of;
    uint32_t lost = 0;
    if (!pool) return 0;
    stop_flusher(pool);
    if (pinpool_abandon(&pool->pool, &lost) != PINPOOL_DONE) lost = 0;
    set_free(pool);
    *of = NULL;
    return lost;
}
