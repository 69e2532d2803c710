/* SPDX-License-Identifier: Apache-2.0 */
/* A pool that threads share: the lock, the bells and the loop that pinpool.h leaves to the host, over POSIX threads, and a device over a
** file. A thread hands in a prepared plan and its *work*, a few functions, and comes back when the plan has ended:
**
**     pinpool_threads_open(settings, length, &policy, &device, &pool, &fault)
**     pinpool_threads_prepare(pool, text, length, &plan, &fault)      once for each kind of work
**     pinpool_threads_execute(pool, &plan, &work, &end)               by any thread, at any time
**     pinpool_threads_close(&pool)                                    once no thread has it any more
**
** It is plain C over the proved calls, and isn't proved itself. Answers are those of pinpool.h. Everything is written for one
** purpose, to be read: a host with an event loop, or with io_uring, writes a loop of its own from it. */
#ifndef PINPOOL_THREADS_H
#define PINPOOL_THREADS_H

#include "pinpool.h"

#ifdef __cplusplus
extern "C" {
#endif

/* A pool, its lock, its bells and its flusher's thread. */
typedef struct pinpool_threads pinpool_threads;

/* Where images of pages are kept. Several threads call it at once, outside the lock, but no two for one page. Each call answers 1 where
** it did what it was asked, and 0 where it failed. `sync` may be null. */
typedef struct pinpool_device {
    void *of; /* handed to each call */
    int (*read)(void *of, uint32_t page, uint8_t *image, size_t length);
    int (*write)(void *of, uint32_t page, const uint8_t *image, size_t length);
    int (*sync)(void *of); /* what was written stays, whatever happens to the machine */
} pinpool_device;

/* What a thread does with the pages of its plan, and which way it takes where the plan leaves that open. The calls come one after another,
** by the thread that executes the plan, outside the lock, in the order of the plan's statements.
**
** A body is a page behind its head: page_bytes - 12 bytes. It stays where it is from the call in which it is handed over until the plan takes
** the latch off that slot, so a work may keep the pointer so long, and have several pages at once; behind that it must not. The body of a page
** that is latched S is read where the pool keeps it, at a place fit for bytes alone: numbers are copied out. That of a page that is latched X
** is a copy, at a place fit for any type. What stands there when its latch is taken off, is the page from then on.
**
** A work can give its plan up, by PINPOOL_NOBODY as its page or branch, or by 0 as it sees or changes a page. A plan can't be left in the
** midst, so what is left of it is run without the work and the device: the first page of each region, the last branch of each choice,
** and where a page would have to be read, the plan is left. No page is changed by that, and pages that are still latched stay as they were
** when they were latched. So they do where a call of the device fails and the plan is left.
**
** A work must not call the pool: its thread holds pages and latches meanwhile. Nor may it leave by longjmp or an exception. */
typedef struct pinpool_work {
    void *of; /* handed to each call */
    /* The page to fix or gather into ask->slot: from ask->first on, one of ask->count. */
    uint32_t (*page)(void *of, const pinpool_ask *ask);
    /* The branch to take, below ask->count. May be null where the plan has no choice. */
    uint32_t (*branch)(void *of, const pinpool_ask *ask);
    /* ask->page in ask->slot is latched S. 1 goes on, 0 gives the plan up. May be null. */
    int (*see)(void *of, const pinpool_ask *ask, const uint8_t *body);
    /* ask->page in ask->slot is latched X. 1 goes on, 0 gives the plan up. May be null: then the page isn't changed. */
    int (*change)(void *of, const pinpool_ask *ask, uint8_t *body);
} pinpool_work;

/* How a plan ended. */
typedef struct pinpool_end {
    uint32_t given_up; /* 1: the work gave it up, or answered a page or a branch that it may not; then the others are 0 */
    uint32_t is_gone;  /* 1: it was left, since a call of the device failed. What it had unlatched by then is done */
    uint32_t page;     /* the page of that call; else 0 */
    uint32_t why;      /* a pinpool_failure */
} pinpool_end;

/* Opens a pool (see pinpool_open), with a thread that flushes by the policy. The device stands until the pool is closed. Its last page
** is read once: where it can't be read, or is another page, the device is of other settings.
** DONE; WRONG_ARGUMENT; REFUSED, with `fault`; OTHER_SETTINGS, of the pool or of the device; OUT_OF_MEMORY, also where no thread can be
** had; BROKEN. But for DONE *pool is null. */
PINPOOL_API PINPOOL_MUST_USE pinpool_answer pinpool_threads_open(const char *settings, size_t length, const pinpool_policy *policy,
    const pinpool_device *device, pinpool_threads **pool, pinpool_fault *fault);

/* Checks a plan and keeps it (see pinpool_prepare_alone). */
PINPOOL_API PINPOOL_MUST_USE pinpool_answer pinpool_threads_prepare(
    pinpool_threads *pool, const char *text, size_t length, pinpool_plan *plan, pinpool_fault *fault);

/* Runs a plan with this work, by the calling thread. It waits for its turn, for pages, latches and the device.
** DONE: the plan has ended, and `end` tells how. QUEUE_FULL, STOPPED, OUT_OF_MEMORY, WRONG_ARGUMENT where the pool keeps no such plan: the
** plan wasn't run, and no call of the work was made. BROKEN. */
PINPOOL_API PINPOOL_MUST_USE pinpool_answer pinpool_threads_execute(
    pinpool_threads *pool, const pinpool_plan *plan, const pinpool_work *work, pinpool_end *end);

/* Writes changed pages until none is changed, and syncs the device. While others change pages it may take long.
** DONE; STILL_DIRTY where a page couldn't be written, or is latched X all the time; FLUSHES_SPENT. */
PINPOOL_API PINPOOL_MUST_USE pinpool_answer pinpool_threads_flush(pinpool_threads *pool);

/* Lets no plan start any more. Who waits to start is answered STOPPED, and the flusher's thread ends. Plans that run go on. */
PINPOOL_API void pinpool_threads_stop(pinpool_threads *pool);

/* What stays as it is while the pool stands. */
PINPOOL_API pinpool_sizes pinpool_threads_sizes(pinpool_threads *pool);

/* What was done, and how things stand. */
PINPOOL_API pinpool_stats pinpool_threads_stats(pinpool_threads *pool);

/* Stops the pool, writes what is changed, syncs the device, and frees the pool. No other thread uses it any more.
** DONE, and *pool is null; a null pool is fine. IN_USE where a plan runs, STILL_DIRTY where a page can't be written, or what was written
** can't be synced, FLUSHES_SPENT: the pool stays, stopped; try again, or abandon it. */
PINPOOL_API PINPOOL_MUST_USE pinpool_answer pinpool_threads_close(pinpool_threads **pool);

/* Frees the pool as it is, and tells how many pages were newer than the device's. No other thread uses it any more. *pool is null then. */
PINPOOL_API uint32_t pinpool_threads_abandon(pinpool_threads **pool);

/* ---- a device over a file: the image of page p begins at byte p times page_bytes */

/* A file of pages. */
typedef struct pinpool_file {
    int descriptor;
    size_t page_bytes;
} pinpool_file;

/* Makes a new file of so many pages, each with its number, the mark 0, and zeros. 1, or 0 where that failed (see errno), as where the
** file is there already. */
PINPOOL_API PINPOOL_MUST_USE int pinpool_file_make(const char *path, uint32_t pages, size_t page_bytes);

/* Opens such a file. 1, or 0 where that failed (see errno). */
PINPOOL_API PINPOOL_MUST_USE int pinpool_file_open(pinpool_file *file, const char *path, size_t page_bytes);

/* Closes it. 1, or 0 where that failed. */
PINPOOL_API int pinpool_file_close(pinpool_file *file);

/* The device over this file, by pread, pwrite and fdatasync. The file stays where it is as long as the device is used. */
PINPOOL_API pinpool_device pinpool_file_device(pinpool_file *file);

#ifdef __cplusplus
}
#endif

#endif
