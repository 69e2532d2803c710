/* SPDX-License-Identifier: Apache-2.0 */
/* A page buffer pool for programs in C and C++: it is opened once, and runs plans that come at any time, on threads of the host's.
**
** A *plan* says which pages a piece of work fixes and latches, in which order. A plan that is prepared was checked: so while it
** runs, no fix finds all frames fixed, and no two latches wait for one another. The pool starts no thread, takes no lock, calls no
** device, and calls nothing of the host's. The host asks what the next step is, does what is its own (it names a page, reads or
** writes a file, changes bytes), and tells the pool. A plan goes so:
**
**     pinpool_enter(pool, plan, &ticket)              it comes to the queue
**     pinpool_start(pool, &ticket, &ask, &told)       it has a chair, where there is one and its pages have room; else it sleeps
**     pinpool_go(pool, ticket, argument, &ask, &told) again and again: makes the step that `ask` told, and tells the one behind it
**     ask.step is PINPOOL_OVER or PINPOOL_GONE        the plan has ended, and the ticket is spent
**
** **One lock.** All calls on a pool are made one at a time, under one lock of the host's. With it held a call neither waits nor
** calls anybody. A thread reads and writes files, and looks at pages that it has latched or copied, outside the lock. Different pools can be used
** by different threads at once.
**
** **Who waits, and who wakes.** Where a call answers PINPOOL_NOT_NOW, its thread sleeps until somebody rings its *bell*, and then
** makes the same call again. Bells are numbers: that of a thread is in its ticket (pinpool_bell). Each call that may help others
** has a `told`: after it the host rings for those whom it names, before the thread sleeps itself. Who rings for nobody lets threads
** sleep for ever. A bell that is rung for nothing does no harm.
**
** **Tickets.** A ticket is a number that is tested at each call. One that is old, spent or made up is answered PINPOOL_BAD_TICKET.
** A ticket is for one thread at a time. Where two make calls with one ticket, each call is still answered as here, but the plan is
** then shared by both.
**
** **What a call answers.** Each call is answered for any number, any text, and any bytes. PINPOOL_DONE is 0. Whatever isn't DONE
** has changed nothing, but that the thread of a NOT_NOW is known to sleep, or where the call says so. Where several refusals are due,
** NO_POOL comes first, then BAD_TICKET, and else it is one of those that the call lists. `ask` and `told` are always written; where
** the call isn't DONE, `ask` tells the step that is still to be made, or PINPOOL_NO_STEP.
**
** **What C owes.** A pool begins as PINPOOL_NONE, and isn't copied. Pointers are valid, never null (not with a length of 0 either),
** and as long as said; two pointers of one call don't point to the same place. One call at a time on a pool.
**
** **Pages.** The image of a page has `page_bytes` bytes: the page's number (4 bytes, the greatest first), its mark (8 bytes, the
** greatest first), and then the body. The device keeps images; a new one has each page's number with the mark 0. The mark rises by
** one each time that a latch X is taken off the page. A reading whose head is another page's, or has another mark than is known,
** makes the plan leave.
**
** **Memory** is from malloc and free. pinpool_open takes nearly all that the pool ever has; where another call takes some, it says
** so. */
#ifndef PINPOOL_H
#define PINPOOL_H

#include <stddef.h>
#include <stdint.h>

#define PINPOOL_VERSION "0.1.0"
#define PINPOOL_VERSION_NUMBER 100 /* 10,000 for each major version, 100 for each minor one */

#ifndef PINPOOL_API
#if defined(__GNUC__)
#define PINPOOL_API __attribute__((visibility("default")))
#else
#define PINPOOL_API
#endif
#endif

#ifndef PINPOOL_MUST_USE
#if defined(__GNUC__)
#define PINPOOL_MUST_USE __attribute__((warn_unused_result))
#else
#define PINPOOL_MUST_USE
#endif
#endif

/* No bell, no page, no slot. */
#define PINPOOL_NOBODY 4294967295u

#ifdef __cplusplus
extern "C" {
#endif

/* A pool, or none. It lies where the host likes, at a place that the host's lock guards. */
typedef struct pinpool {
    void *at;
} pinpool;
#define PINPOOL_NONE {NULL}

/* How a call went. */
typedef enum pinpool_answer {
    PINPOOL_DONE = 0,
    PINPOOL_NOT_NOW = 1,        /* possible later: sleep until the bell rings, and make the call again */
    PINPOOL_NONE_TO_FLUSH = 2,  /* no page is changed that could be flushed now */
    PINPOOL_FLUSHES_SPENT = 3,  /* pages are changed, but no flush of the settings is left */
    PINPOOL_REFUSED = 4,        /* a text is refused: `fault` tells why */
    PINPOOL_OUT_OF_MEMORY = 5,  /* try again later, or give up */
    PINPOOL_WRONG_ARGUMENT = 6, /* a number out of its range, a length that isn't the right one, or a text that isn't UTF-8 */
    PINPOOL_NO_POOL = 7,        /* the handle holds no pool */
    PINPOOL_WRONG_STEP = 8,     /* not what the ticket's next step wants */
    PINPOOL_BAD_TICKET = 9,     /* a ticket that was spent, or that the pool never gave */
    PINPOOL_IN_USE = 10,        /* the handle holds a pool already; the flusher is out already; a ticket is out */
    PINPOOL_QUEUE_FULL = 11,    /* as many wait to start as may */
    PINPOOL_STOPPED = 12,       /* nobody starts any more */
    PINPOOL_STILL_DIRTY = 13,   /* pages are newer than the device's */
    PINPOOL_OTHER_SETTINGS = 14, /* a bounded life, no flush, more than 32 workers: not settings of a pool that stands */
    PINPOOL_TOO_MANY_PLANS = 15, /* 4,096 plans are kept already */
    PINPOOL_BROKEN = 16,        /* a slip of the pool's own. No test has met it. The chair stays out: abandon the pool */
    PINPOOL_NOT_AT_ONCE = 17    /* not by this one call: make the steps one by one, by pinpool_go */
} pinpool_answer;

/* What the next step of a ticket is, and which argument pinpool_go wants for it. Where none is named, it is 0. */
typedef enum pinpool_step {
    PINPOOL_NO_STEP = 0,  /* the ticket has no next step: it waits to start, or isn't one */
    PINPOOL_TAKE = 1,     /* the plan is taken */
    PINPOOL_FIX = 2,      /* a page is fixed into `slot`. Argument: the page, from `first` on, one of `count` */
    PINPOOL_GATHER = 3,   /* a page is gathered into the bundle of `slot`. Argument: the page, as for FIX */
    PINPOOL_UNFIX = 4,    /* `page` in `slot` is given back */
    PINPOOL_SCATTER = 5,  /* the bundle of `slot` is given back */
    PINPOOL_LATCH_S = 6,  /* `page` in `slot` is latched S: from then on it can be read, until it is unlatched */
    PINPOOL_LATCH_X = 7,  /* `page` in `slot` is latched X: from then on it can be read and written, until it is unlatched */
    PINPOOL_UNLATCH = 8,  /* the latch is taken off `page` in `slot` */
    PINPOOL_CHOOSE = 9,   /* a branch is chosen. Argument: the branch, from 0 on, below `count` */
    PINPOOL_FINISH = 10,  /* the plan is at its end, and is finished */
    PINPOOL_READ = 11,    /* the device reads the image of `page`. Argument: 1 where it did, and its bytes were handed to pinpool_came; 0
                          ** where it failed */
    PINPOOL_WRITE = 12,   /* the device writes the image of `page`, which pinpool_image has copied. Argument: 1 where it did, else 0 */
    PINPOOL_LEAVE = 13,   /* a call of the device failed, and the plan is left: it gives back what it holds, a step at a time */
    PINPOOL_OVER = 14,    /* the plan has ended at its end, and the ticket is spent */
    PINPOOL_GONE = 15,    /* the plan was left, and the ticket is spent. `page` is that of the device's call: where a changed page had to
                          ** make room, that page, which the plan may never have asked for. `why` tells what failed */
    PINPOOL_FLUSH = 16,   /* a flush begins. The flusher's ticket alone has it */
    PINPOOL_TELL = 17     /* what came of a device is told once more. It comes behind a BROKEN alone */
} pinpool_step;

/* Why a plan was left: numbers as the program `pinpool` prints them. */
typedef enum pinpool_failure {
    PINPOOL_NO_FAILURE = 0,
    PINPOOL_READ_FAILED = 71,
    PINPOOL_WRITE_FAILED = 72, /* of a changed page that had to make room. It stays in the pool, changed */
    PINPOOL_READ_OTHER = 73    /* what was read is another page's image, or an older or newer one of this page */
} pinpool_failure;

/* What a ticket's next step is. */
typedef struct pinpool_ask {
    uint32_t step;   /* a pinpool_step */
    uint32_t slot;   /* the slot that it is about; slots are numbered by their names in byte order */
    uint32_t region; /* the region of a FIX or GATHER: its place in the settings, from 0 */
    uint32_t first;  /* the first page that may be named */
    uint32_t count;  /* how many pages there are from it on; of a CHOOSE, how many branches */
    uint32_t page;   /* the page in the slot, or that of the device's call; else PINPOOL_NOBODY */
    uint32_t why;    /* a pinpool_failure */
    uint32_t unused;
} pinpool_ask;

/* Whom a call has told that they can go on. The host rings for them. */
typedef struct pinpool_told {
    uint32_t running; /* ring bell k for each bit k that is set */
    uint32_t next;    /* ring this bell; PINPOOL_NOBODY: none */
    uint32_t all;     /* 1: ring each bell of those that wait to start: from `workers` on, below `bells` - 1 */
    uint32_t flusher; /* 1: ring the flusher's bell, the last one: `bells` - 1 */
} pinpool_told;

/* What the host decides of a pool. */
typedef struct pinpool_policy {
    uint32_t queue;      /* how many plans may wait to start at once: 1 to 65,000 */
    uint32_t bypass;     /* how many that came later may start before one that waits */
    uint32_t flush_from; /* so many pages have to be newer than the device's for a flush to be wanted */
    uint32_t flush_to;   /* and then flushes are wanted until no more than so many are */
} pinpool_policy;

/* Why a text was refused. */
typedef struct pinpool_fault {
    uint32_t number; /* as the program `pinpool` prints it, and docs/formats.md lists it: 1 to 8 settings, 11 to 20 plans,
                     ** 21 to 25 certificates, 31 to 46 a certificate that doesn't fit its plan */
    uint32_t place;  /* the number of the statement or of the note at fault; PINPOOL_NOBODY where it is about none */
} pinpool_fault;

/* A plan that the pool keeps. */
typedef struct pinpool_plan {
    uint32_t plan; /* its number */
    uint32_t unused;
    uint64_t peak; /* the most pages that it holds at once */
    uint64_t cost; /* the most steps that it makes, those of the device counted */
} pinpool_plan;

/* What stays as it is while the pool stands. */
typedef struct pinpool_sizes {
    uint32_t workers;    /* how many chairs there are: so many plans run at once */
    uint32_t bells;      /* bells are numbers below this one: first the chairs', then those of the queue, last the flusher's */
    uint32_t frames;     /* how many pages the pool holds */
    uint32_t page_bytes; /* how many bytes an image has */
    uint32_t pages;      /* page numbers are below this one */
    uint32_t unused;
} pinpool_sizes;

/* What was done since the pool was opened, and how it stands: all of one moment. */
typedef struct pinpool_stats {
    uint64_t hits;           /* fixes of a page that was in the pool */
    uint64_t misses;         /* fixes of a page that a device had to read */
    uint64_t write_backs;    /* those of them for which a changed page had to be written first */
    uint64_t flushes;        /* flushes that ended well */
    uint64_t failed_flushes; /* flushes that failed at the device */
    uint64_t done;           /* plans that ended at their end */
    uint64_t gone;           /* plans that were left, since a call of the device failed */
    uint64_t running_peaks;  /* the peaks of the plans that run, together */
    uint32_t dirty;          /* how many pages are newer than the device's */
    uint32_t waiting;        /* how many wait to start */
    uint32_t chairs;         /* how many chairs are home */
    uint32_t is_stopped;     /* 1: nobody starts any more */
} pinpool_stats;

/* A page that is newer than the device's. */
typedef struct pinpool_dirty {
    uint64_t mark;
    uint32_t page;
    uint32_t unused;
} pinpool_dirty;

/* Where the body of a page that is latched lies. */
typedef struct pinpool_lent {
    uint8_t *bytes; /* the first byte of the body */
    size_t length;  /* how many bytes it has: page_bytes - 12 */
} pinpool_lent;

/* The bell of a ticket's thread. */
static inline uint32_t pinpool_bell(uint64_t ticket) { return (uint32_t)(ticket & 65535u); }

/* ---- a pool */

/* The version of the library, and whether it was built from proved code: "0.1.0 proved", or "0.1.0 unproved". */
PINPOOL_API const char *pinpool_version(void);

/* The name of an answer, as "not now"; "unknown" for another number. */
PINPOOL_API const char *pinpool_answer_name(uint32_t answer);

/* Opens a pool into a handle that holds none. `settings` is the text of a settings file of version 2 (docs/formats.md) whose life
** is endless, with 32 workers at most and a flush at least. It takes the memory of all frames, of an image for each worker and one
** more, and of 40 bytes or so for each page number and each place in the queue. A step for each of these.
** DONE; IN_USE where the handle holds a pool; WRONG_ARGUMENT where the text isn't UTF-8 or the queue isn't 1 to 65,000; REFUSED;
** OTHER_SETTINGS; OUT_OF_MEMORY. But for DONE the handle is as before. `fault` is written where the answer is REFUSED. */
PINPOOL_API PINPOOL_MUST_USE pinpool_answer pinpool_open(
    pinpool *pool, const uint8_t *settings, size_t length, const pinpool_policy *policy, pinpool_fault *fault);

/* What stays as it is while the pool stands. A fixed number of steps. DONE; NO_POOL. */
PINPOOL_API PINPOOL_MUST_USE pinpool_answer pinpool_sizes_of(pinpool *pool, pinpool_sizes *sizes);

/* Checks a plan against its certificate, and keeps it, so that it can be run as often as wanted. It is kept until the pool ends,
** and 4,096 are kept at most: prepare kinds of work, and not each query. It takes memory for the plan. Steps: those of reading the
** two texts, and of checking them.
** DONE; NO_POOL; WRONG_ARGUMENT where a text isn't UTF-8; REFUSED; TOO_MANY_PLANS; OUT_OF_MEMORY. `prepared` is written where it is
** DONE, `fault` where it is REFUSED. */
PINPOOL_API PINPOOL_MUST_USE pinpool_answer pinpool_prepare(pinpool *pool, const uint8_t *plan, size_t plan_length,
    const uint8_t *certificate, size_t certificate_length, pinpool_plan *prepared, pinpool_fault *fault, pinpool_told *told);

/* The same, with the least certificate that the plan has, which the pool makes. */
PINPOOL_API PINPOOL_MUST_USE pinpool_answer pinpool_prepare_alone(
    pinpool *pool, const uint8_t *plan, size_t length, pinpool_plan *prepared, pinpool_fault *fault, pinpool_told *told);

/* ---- to run a plan */

/* Comes to the queue, behind all others, to run this plan, and gives a ticket. It takes no memory. A step for each place in the
** queue at most.
** DONE; NO_POOL; WRONG_ARGUMENT where no plan has this number; QUEUE_FULL; STOPPED. But for DONE the ticket is written as 0, which
** never is one. */
PINPOOL_API PINPOOL_MUST_USE pinpool_answer pinpool_enter(pinpool *pool, uint32_t plan, uint64_t *ticket);

/* Starts, where the ticket is the one that may: a chair is home, and the plan's peak fits beside those that run. Then the ticket is
** spent and replaced by that of the chair, with another bell, and the first step is TAKE. A step for each one that waits and each
** chair.
** DONE; NO_POOL; NOT_NOW: sleep until the bell rings; STOPPED: nobody starts any more, the ticket is spent, and is written as 0;
** BAD_TICKET; WRONG_STEP where the ticket has started already, or is the flusher's; BROKEN: the ticket is spent, and stays as it is. */
PINPOOL_API PINPOOL_MUST_USE pinpool_answer pinpool_start(pinpool *pool, uint64_t *ticket, pinpool_ask *ask, pinpool_told *told);

/* Tells the next step of a ticket, and changes nothing. A fixed number of steps. DONE; NO_POOL; BAD_TICKET; WRONG_STEP where the
** ticket waits to start. */
PINPOOL_API PINPOOL_MUST_USE pinpool_answer pinpool_next(pinpool *pool, uint64_t ticket, pinpool_ask *ask);

/* Makes the ticket's next step with this argument (see pinpool_step), and tells the one behind it. Of a step that isn't TAKE a
** fixed number of steps, but for the search for a page that leaves (once over each page that is fixed), one for each slot that
** is latched, one for each chair and each one that waits to start, and where threads of plans sleep one for each two chairs. TAKE gets memory for an image and for as many events as the dearest plan makes, where the chair lacks it; no other
** step takes memory.
** DONE: the step was made. With it the plan may have ended: then `ask` says OVER or GONE, and the ticket is spent. NO_POOL;
** BAD_TICKET. NOT_NOW: sleep until the bell rings. WRONG_ARGUMENT where the argument isn't one of those that may be named.
** WRONG_STEP where the ticket waits to start, or where a READ is said to have come, and no bytes were handed in. OUT_OF_MEMORY at a
** TAKE: make it again, or leave. At a FLUSH also NONE_TO_FLUSH and FLUSHES_SPENT. BROKEN. */
PINPOOL_API PINPOOL_MUST_USE pinpool_answer pinpool_go(
    pinpool *pool, uint64_t ticket, uint32_t argument, pinpool_ask *ask, pinpool_told *told);

/* Two steps by one call, for pages that are only read. At a FIX: fixes this page and latches it S, where the plan asks that latch next, the
** page is in the pool and isn't just being read into it, and nobody has it latched X; then copies so many bytes of its body, from byte `from` on, as pinpool_read does. Steps
** as those of pinpool_go, and one for each byte.
** DONE: both steps were made. NO_POOL; BAD_TICKET; WRONG_STEP where the ticket waits to start, or is the flusher's; WRONG_ARGUMENT where the
** bytes don't lie in the body; else NOT_AT_ONCE, also where the next step isn't a FIX: make the next step by pinpool_go, a FIX with the
** same page. */
PINPOOL_API PINPOOL_MUST_USE pinpool_answer pinpool_get(pinpool *pool, uint64_t ticket, uint32_t page, uint32_t from, uint8_t *bytes,
    size_t length, pinpool_ask *ask, pinpool_told *told);

/* At an UNLATCH of a page that is latched S: takes the latch off and unfixes the page, where the plan asks that next. Steps as those of
** pinpool_go.
** DONE: both steps were made. NO_POOL; BAD_TICKET; WRONG_STEP as for pinpool_get; else NOT_AT_ONCE: make the next step by pinpool_go. */
PINPOOL_API PINPOOL_MUST_USE pinpool_answer pinpool_put(pinpool *pool, uint64_t ticket, pinpool_ask *ask, pinpool_told *told);

/* Copies the image that the device is to write, at a WRITE. Length: page_bytes. It changes nothing, and takes a step a byte.
** DONE; NO_POOL; BAD_TICKET; WRONG_STEP; WRONG_ARGUMENT where the length is another. */
PINPOOL_API PINPOOL_MUST_USE pinpool_answer pinpool_image(pinpool *pool, uint64_t ticket, uint8_t *bytes, size_t length);

/* Hands in the image that the device has read, at a READ. Length: page_bytes. The step itself is made by pinpool_go with 1 behind
** it. A step a byte. DONE; NO_POOL; BAD_TICKET; WRONG_STEP; WRONG_ARGUMENT where the length is another. */
PINPOOL_API PINPOOL_MUST_USE pinpool_answer pinpool_came(pinpool *pool, uint64_t ticket, const uint8_t *bytes, size_t length);

/* Copies bytes of the body of the page in this slot, which is latched S or X: so many, from byte `from` of the body on. It changes
** nothing. A step a byte.
** DONE; NO_POOL; BAD_TICKET; WRONG_STEP where the slot has no page that is latched; WRONG_ARGUMENT where they don't lie in the
** body, which has page_bytes - 12. */
PINPOOL_API PINPOOL_MUST_USE pinpool_answer pinpool_read(
    pinpool *pool, uint64_t ticket, uint32_t slot, uint32_t from, uint8_t *bytes, size_t length);

/* Puts bytes into the body of the page in this slot, which is latched X. A step a byte. Nobody else sees them before the latch is
** taken off. DONE; NO_POOL; BAD_TICKET; WRONG_STEP where the slot has no page that is latched X; WRONG_ARGUMENT as for
** pinpool_read. */
PINPOOL_API PINPOOL_MUST_USE pinpool_answer pinpool_write(
    pinpool *pool, uint64_t ticket, uint32_t slot, uint32_t from, const uint8_t *bytes, size_t length);

/* Tells where the body of the page in this slot lies, which is latched S or X, and copies nothing. From then on until the latch is taken
** off, the thread reads there without the lock; and where the page is latched X it writes there, which is as if pinpool_write had put the
** bytes in. Behind the call that takes the latch off nobody may use the place any more: the pool can't see to that, and says nothing of
** what was read or written too late. `lent` is written only where it is DONE. It changes nothing, and takes a fixed number of steps.
** DONE; NO_POOL; BAD_TICKET; WRONG_STEP where the ticket waits to start, or is the flusher's, or the slot has no page that is latched. */
PINPOOL_API PINPOOL_MUST_USE pinpool_answer pinpool_lend(pinpool *pool, uint64_t ticket, uint32_t slot, pinpool_lent *lent);

/* Leaves the queue, or gives back a chair whose plan wasn't taken (the next step is TAKE), or the flusher's ticket with no flush in
** hand (the next step is FLUSH). The ticket is spent. A step for each one that waits, and each place in the queue.
** DONE; NO_POOL; BAD_TICKET; WRONG_STEP elsewhere: a plan that was taken goes on to its end. */
PINPOOL_API PINPOOL_MUST_USE pinpool_answer pinpool_leave(pinpool *pool, uint64_t ticket, pinpool_told *told);

/* ---- the flusher */

/* Gives the flusher's ticket out. Its steps are FLUSH and WRITE, by turns, and pinpool_leave gives it back. One thread has it at a
** time. A fixed number of steps. DONE; NO_POOL; IN_USE where it is out, or was given out 2^48 - 1 times; then the ticket is written as 0. */
PINPOOL_API PINPOOL_MUST_USE pinpool_answer pinpool_flusher(pinpool *pool, uint64_t *ticket, pinpool_ask *ask);

/* Whether the flusher's thread is to flush now, by the policy. `is_on` is 0 where it has slept or has just begun, and 1 behind a
** flush: then it goes on down to flush_to. It looks at the pages from number 0 on, up to the first that can be flushed.
** DONE: flush. NOT_NOW: sleep until the flusher's bell rings, and ask again with 0. STOPPED: nobody starts any more. NO_POOL;
** BAD_TICKET; WRONG_STEP where the ticket isn't the flusher's. */
PINPOOL_API PINPOOL_MUST_USE pinpool_answer pinpool_flush_wanted(pinpool *pool, uint64_t ticket, uint32_t is_on);

/* ---- the whole */

/* Nobody starts any more, from now on. Everybody in the queue is told, and the flusher. Plans that have started run on. A step for
** each one that waits. DONE; NO_POOL. */
PINPOOL_API PINPOOL_MUST_USE pinpool_answer pinpool_stop(pinpool *pool, pinpool_told *told);

/* What was done, and how things stand. A step for each chair. DONE; NO_POOL. */
PINPOOL_API PINPOOL_MUST_USE pinpool_answer pinpool_stats_of(pinpool *pool, pinpool_stats *stats);

/* Writes down pages that are newer than the device's, by rising numbers, each with its mark, as far as there are places: `*count`
** of them. It takes memory of 16 bytes a place for the time of the call. A step for each page number and each place.
** DONE; NO_POOL; OUT_OF_MEMORY, then `*count` is 0. */
PINPOOL_API PINPOOL_MUST_USE pinpool_answer pinpool_dirty_pages(pinpool *pool, pinpool_dirty *pages, size_t places, size_t *count);

/* Ends the pool, and gives back all its memory. The handle holds none then. A step for each page number, chair and place in the
** queue.
** DONE; NO_POOL; IN_USE where a chair, or the flusher, is out; STILL_DIRTY where pages are newer than the device's: flush them
** first. Who waits to start has no ticket any more. But for DONE the pool stays as it is. */
PINPOOL_API PINPOOL_MUST_USE pinpool_answer pinpool_close(pinpool *pool);

/* Ends the pool as it is, whoever has a ticket, and gives back all its memory. `*lost` tells how many pages were newer than the
** device's: what they had is lost. DONE; NO_POOL, then `*lost` is 0. */
PINPOOL_API PINPOOL_MUST_USE pinpool_answer pinpool_abandon(pinpool *pool, uint32_t *lost);

#ifdef __cplusplus
}
#endif

#endif
