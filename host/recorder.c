/* SPDX-License-Identifier: Apache-2.0 */
/* What stands in the calls' places. The host's lock is held in each of them, so they need none. */
#include "recorder.h"
#include <inttypes.h>
#include <stdlib.h>
#include <string.h>

enum { CHAIRS = 32, BELLS = 65536, SLOTS = 32, HEAD = 12 };

/* What a plan that runs holds, as far as it was told. */
typedef struct slot {
    int is_held;   /* a page, or pages of a bundle */
    int is_mine;   /* the page is latched X */
    uint32_t page; /* of a plain slot */
} slot;

typedef struct chair {
    slot slots[SLOTS];
    uint32_t coming;    /* the slot for which a page is read */
    uint8_t head[HEAD]; /* of the image that was handed in last */
    pinpool_ask lost;   /* the device's call that failed, and why */
} chair;

static FILE *to;
static pinpool_sizes sizes;
static uint64_t *marks; /* of each page */
static chair chairs[CHAIRS];
static uint32_t plans[BELLS]; /* of each bell, the plan that its ticket is for */
static uint64_t submitted;    /* so many plans */
static uint64_t flushing;     /* the mark with which the flush began */

#define SEE(it) ((it) ? (void)0 : wrong(#it))
static void wrong(const char *what) {
    fprintf(stderr, "recorder: behind the submit of %" PRIu64 " plans: not %s\n", submitted, what);
    exit(1);
}

/* A number of so many bytes, the greatest first. */
static uint64_t number(const uint8_t *bytes, size_t length) {
    uint64_t it = 0;
    while (length--) it = it << 8 | *bytes++;
    return it;
}

static uint32_t page_of(const uint8_t *head) { return (uint32_t)number(head, 4); }
static uint64_t stamp_of(const uint8_t *head) { return number(head + 4, 8); }

static uint64_t *mark_of(uint32_t page) {
    SEE(page < sizes.pages);
    return &marks[page];
}

static slot *slot_of(chair *c, uint32_t it) {
    SEE(it < SLOTS);
    return &c->slots[it];
}

static void holds(chair *c, uint32_t it, uint32_t page) {
    slot *s = slot_of(c, it);
    s->is_held = 1;
    s->page = page;
}

/* ---- the events of a plan, each with the step that was made and the one behind it */

static void fixed(uint32_t w, const pinpool_ask *step, uint32_t page, const pinpool_ask *next) {
    chair *c = &chairs[w];
    fprintf(to, "fix %" PRIu32 " %" PRIu32 " = ", w, page);
    c->coming = step->slot;
    if (next->step == PINPOOL_READ) {
        fprintf(to, "mustread ?\n");
    } else if (next->step == PINPOOL_WRITE) {
        fprintf(to, "mustwrite ? %" PRIu32 "\n", next->page);
    } else {
        fprintf(to, "hit ? %" PRIu64 "\n", *mark_of(page));
        holds(c, step->slot, page);
    }
}

/* A call of the device failed, or gave another page. */
static void failed(chair *c, const pinpool_ask *step, uint32_t why, const char *word) {
    fprintf(to, "failed %s\n", word);
    c->lost = *step;
    c->lost.why = why;
}

static void came(uint32_t w, const pinpool_ask *step, uint32_t has_come, const pinpool_ask *next) {
    chair *c = &chairs[w];
    uint32_t page = page_of(c->head);
    uint64_t stamp = stamp_of(c->head);
    if (has_come) fprintf(to, "came %" PRIu32 " %" PRIu32 " %" PRIu64 " = ", w, page, stamp);
    else fprintf(to, "came %" PRIu32 " fault = ", w);
    if (next->step == PINPOOL_LEAVE) {
        failed(c, step, has_come ? PINPOOL_READ_OTHER : PINPOOL_READ_FAILED, has_come ? "misread" : "read");
        return;
    }
    fprintf(to, "loaded %" PRIu64 "\n", stamp);
    *mark_of(step->page) = stamp;
    holds(c, c->coming, step->page);
}

static void wrote(uint32_t w, const pinpool_ask *step, uint32_t is_written, const pinpool_ask *next) {
    fprintf(to, "wrote %" PRIu32 " %s = ", w, is_written ? "ok" : "bad");
    if (next->step == PINPOOL_LEAVE) failed(&chairs[w], step, PINPOOL_WRITE_FAILED, "write");
    else fprintf(to, "mustread ?\n");
}

/* The latch is taken off: the mark rises where it was X. */
static uint64_t let_go(slot *s) {
    uint64_t *mark = mark_of(s->page);
    if (s->is_mine) ++*mark;
    s->is_mine = 0;
    return *mark;
}

static void latched(uint32_t w, const pinpool_ask *step) {
    slot *s = slot_of(&chairs[w], step->slot);
    SEE(s->is_held && step->page == s->page);
    s->is_mine = step->step == PINPOOL_LATCH_X;
    fprintf(to, "latch %" PRIu32 " = latched %" PRIu64 "\n", w, *mark_of(s->page));
}

static void unlatched(uint32_t w, const pinpool_ask *step) {
    slot *s = slot_of(&chairs[w], step->slot);
    SEE(s->is_held && step->page == s->page);
    fprintf(to, "unlatch %" PRIu32 " = unlatched %" PRIu64 "\n", w, let_go(s));
}

static void unfixed(uint32_t w, const pinpool_ask *step) {
    slot *s = slot_of(&chairs[w], step->slot);
    SEE(s->is_held && (step->step == PINPOOL_SCATTER || step->page == s->page));
    s->is_held = 0;
    fprintf(to, "unfix %" PRIu32 " = did\n", w);
}

/* A plan that is left gives back the least slot that it holds, or ends where it holds none. */
static void left(uint32_t w, const pinpool_ask *next) {
    chair *c = &chairs[w];
    uint32_t it = 0;
    while (it < SLOTS && !c->slots[it].is_held) it++;
    if (it == SLOTS) {
        SEE(next->step == PINPOOL_GONE && next->page == c->lost.page && next->why == c->lost.why);
        fprintf(to, "finish %" PRIu32 " = gone\n", w);
        return;
    }
    slot *s = &c->slots[it];
    SEE(next->step == PINPOOL_LEAVE);
    fprintf(to, "unwind %" PRIu32 " %" PRIu32 " = ", w, it);
    if (s->is_mine) fprintf(to, "unlatched %" PRIu64 "\n", let_go(s));
    else fprintf(to, "did\n");
    s->is_held = 0;
}

static void went(uint32_t w, const pinpool_ask *step, uint32_t argument, const pinpool_ask *next) {
    switch (step->step) {
    case PINPOOL_TAKE:
        fprintf(to, "submit %" PRIu64 " %" PRIu32 " = queued\n", submitted, plans[w]);
        fprintf(to, "take %" PRIu32 " = taken %" PRIu64 "\n", w, submitted++);
        break;
    case PINPOOL_FIX:
    case PINPOOL_GATHER: fixed(w, step, argument, next); break;
    case PINPOOL_READ: came(w, step, argument, next); break;
    case PINPOOL_WRITE: wrote(w, step, argument, next); break;
    case PINPOOL_LATCH_S:
    case PINPOOL_LATCH_X: latched(w, step); break;
    case PINPOOL_UNLATCH: unlatched(w, step); break;
    case PINPOOL_UNFIX:
    case PINPOOL_SCATTER: unfixed(w, step); break;
    case PINPOOL_CHOOSE: fprintf(to, "choose %" PRIu32 " %" PRIu32 " = did\n", w, argument); break;
    case PINPOOL_LEAVE: left(w, next); break;
    case PINPOOL_FINISH:
        SEE(next->step == PINPOOL_OVER);
        fprintf(to, "finish %" PRIu32 " = done\n", w);
        break;
    default: wrong("a step of a plan");
    }
}

/* ---- the events of the flusher */

static void flusher_went(const pinpool_ask *step, uint32_t is_written, const pinpool_ask *next) {
    if (step->step == PINPOOL_FLUSH) {
        flushing = *mark_of(next->page);
        fprintf(to, "flush %" PRIu32 " = flushing %" PRIu64 "\n", next->page, flushing);
    } else {
        int is_clean = is_written && *mark_of(step->page) == flushing;
        fprintf(to, "flushed %s = %s\n", is_written ? "ok" : "bad", is_clean ? "clean" : "dirty");
    }
}

static int is_flushers(uint64_t ticket) { return pinpool_bell(ticket) == sizes.bells - 1; }

/* ---- the calls */

/* Defines what stands in a call's place. */
#define WRAPS(name, ...) \
    pinpool_answer __real_##name(__VA_ARGS__); \
    pinpool_answer __wrap_##name(__VA_ARGS__); \
    pinpool_answer __wrap_##name(__VA_ARGS__)

WRAPS(pinpool_open, pinpool *pool, const uint8_t *settings, size_t length, const pinpool_policy *policy, pinpool_fault *fault) {
    pinpool_answer answer = __real_pinpool_open(pool, settings, length, policy, fault);
    if (!to || answer != PINPOOL_DONE) return answer;
    SEE(!marks && pinpool_sizes_of(pool, &sizes) == PINPOOL_DONE);
    marks = calloc(sizes.pages, sizeof *marks);
    SEE(marks);
    memset(chairs, 0, sizeof chairs);
    submitted = 0;
    return answer;
}

WRAPS(pinpool_enter, pinpool *pool, uint32_t plan, uint64_t *ticket) {
    pinpool_answer answer = __real_pinpool_enter(pool, plan, ticket);
    if (answer == PINPOOL_DONE) plans[pinpool_bell(*ticket)] = plan;
    return answer;
}

WRAPS(pinpool_start, pinpool *pool, uint64_t *ticket, pinpool_ask *ask, pinpool_told *told) {
    uint32_t plan = plans[pinpool_bell(*ticket)];
    pinpool_answer answer = __real_pinpool_start(pool, ticket, ask, told);
    if (answer == PINPOOL_DONE) plans[pinpool_bell(*ticket)] = plan;
    return answer;
}

WRAPS(pinpool_go, pinpool *pool, uint64_t ticket, uint32_t argument, pinpool_ask *ask, pinpool_told *told) {
    pinpool_ask step;
    int is_known = pinpool_next(pool, ticket, &step) == PINPOOL_DONE;
    pinpool_answer answer = __real_pinpool_go(pool, ticket, argument, ask, told);
    if (!marks || answer != PINPOOL_DONE) return answer;
    SEE(is_known);
    if (is_flushers(ticket)) flusher_went(&step, argument, ask);
    else went(pinpool_bell(ticket), &step, argument, ask);
    return answer;
}

WRAPS(pinpool_get, pinpool *pool, uint64_t ticket, uint32_t page, uint32_t from, uint8_t *bytes, size_t length,
    pinpool_ask *ask, pinpool_told *told) {
    pinpool_ask step, between = {.step = PINPOOL_LATCH_S, .page = page};
    int is_known = pinpool_next(pool, ticket, &step) == PINPOOL_DONE;
    pinpool_answer answer = __real_pinpool_get(pool, ticket, page, from, bytes, length, ask, told);
    if (!marks || answer != PINPOOL_DONE) return answer;
    SEE(is_known && step.step == PINPOOL_FIX);
    between.slot = step.slot;
    went(pinpool_bell(ticket), &step, page, &between);
    went(pinpool_bell(ticket), &between, 0, ask);
    return answer;
}

WRAPS(pinpool_put, pinpool *pool, uint64_t ticket, pinpool_ask *ask, pinpool_told *told) {
    pinpool_ask step, between;
    int is_known = pinpool_next(pool, ticket, &step) == PINPOOL_DONE;
    pinpool_answer answer = __real_pinpool_put(pool, ticket, ask, told);
    if (!marks || answer != PINPOOL_DONE) return answer;
    SEE(is_known && step.step == PINPOOL_UNLATCH);
    between = step;
    between.step = PINPOOL_UNFIX;
    went(pinpool_bell(ticket), &step, 0, &between);
    went(pinpool_bell(ticket), &between, 0, ask);
    return answer;
}

/* The image that is to be written has the page's number, and the mark that was counted. */
WRAPS(pinpool_image, pinpool *pool, uint64_t ticket, uint8_t *bytes, size_t length) {
    pinpool_ask step;
    pinpool_answer answer = __real_pinpool_image(pool, ticket, bytes, length);
    if (!marks || answer != PINPOOL_DONE) return answer;
    SEE(pinpool_next(pool, ticket, &step) == PINPOOL_DONE && page_of(bytes) == step.page);
    SEE(stamp_of(bytes) == (is_flushers(ticket) ? flushing : *mark_of(step.page)));
    return answer;
}

WRAPS(pinpool_came, pinpool *pool, uint64_t ticket, const uint8_t *bytes, size_t length) {
    pinpool_answer answer = __real_pinpool_came(pool, ticket, bytes, length);
    if (marks && answer == PINPOOL_DONE) memcpy(chairs[pinpool_bell(ticket)].head, bytes, HEAD);
    return answer;
}

void recorder_begin(FILE *file) { to = file; }

int recorder_end(void) {
    int is_written = fflush(to) == 0 && !ferror(to);
    free(marks);
    marks = NULL;
    to = NULL;
    return is_written;
}
