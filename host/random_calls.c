/* SPDX-License-Identifier: Apache-2.0 */
/* Random calls of pinpool.h on two pools, with right and wrong tickets, steps, sizes and texts: random_calls CALLS SEED. Each has to be
** answered by a number of the header, what a page has must be what was written last, a ticket that isn't out is a bad one, and no seat
** may sleep for ever. It prints how often each call was answered what, or what is wrong. */
#include "pinpool.h"
#include <stdio.h>
#include <stdlib.h>
#include <string.h>

enum { HEAD = 12, MOST_BYTES = 1000, MOST_PAGES = 50, SEATS = 12, SLOTS = 32, POOLS = 2, ANSWERS = 18, PLANS = 3, REGIONS = 2 };

/* A pool that is tried: what its settings say once more, and plans that it takes. Of each plan and slot, the region of its pages. */
typedef struct kind {
    const char *settings;
    uint32_t frames, page_bytes, workers, queue, pages;
    uint32_t first[REGIONS], count[REGIONS];
    const char *plans[PLANS];
    uint32_t region[PLANS][2];
    uint64_t peak[PLANS];
} kind;

static const kind kinds[POOLS] = {
    {"version = 2\nframes = 4\npage_bytes = 512\nworkers = 3\nwaiting = 1\nflushes = 100000000\n"
     "[[region]]\nname = \"low\"\nfirst = 0\ncount = 7\nclass = 1\n[[region]]\nname = \"top\"\nfirst = 7\ncount = 5\nclass = 2\n",
        4, 512, 3, 6, 12, {0, 7}, {7, 5},
        {"{\"version\":1,\"body\":[{\"fix\":\"a\",\"region\":\"low\"},{\"latch\":\"a\",\"mode\":\"X\"},{\"unlatch\":\"a\"},"
        "{\"unfix\":\"a\"}]}",
            "{\"version\":1,\"body\":[{\"loop\":2,\"body\":[{\"fix\":\"a\",\"region\":\"low\"},{\"latch\":\"a\",\"mode\":\"S\"},"
            "{\"fix\":\"b\",\"region\":\"top\"},{\"choice\":[[{\"latch\":\"b\",\"mode\":\"X\"},{\"unlatch\":\"b\"}],[]]},"
            "{\"unlatch\":\"a\"},{\"unfix\":\"a\"},{\"unfix\":\"b\"}]}]}",
            "{\"version\":2,\"body\":[{\"loop\":2,\"body\":[{\"gather\":\"g\",\"region\":\"low\"}]},{\"fix\":\"b\",\"region\":\"top\"},"
            "{\"latch\":\"b\",\"mode\":\"X\"},{\"unlatch\":\"b\"},{\"unfix\":\"b\"},{\"scatter\":\"g\"}]}"},
        {{0, 9}, {0, 1}, {1, 0}}, {1, 2, 3}},
    {"version = 2\nframes = 7\npage_bytes = 1000\nworkers = 5\nwaiting = 3\nflushes = 100000000\n"
     "[[region]]\nname = \"zeta\"\nfirst = 40\ncount = 6\nclass = 3\n[[region]]\nname = \"alpha\"\nfirst = 3\ncount = 9\nclass = 7\n",
        7, 1000, 5, 2, 46, {40, 3}, {6, 9},
        {"{\"version\":1,\"body\":[{\"choice\":[[{\"fix\":\"y\",\"region\":\"zeta\"},{\"latch\":\"y\",\"mode\":\"X\"},{\"unlatch\":\"y\"},"
         "{\"unfix\":\"y\"}],[],[{\"fix\":\"b\",\"region\":\"alpha\"},{\"latch\":\"b\",\"mode\":\"S\"},{\"unlatch\":\"b\"},"
         "{\"unfix\":\"b\"}]]}]}",
            "{\"version\":1,\"body\":[{\"fix\":\"y\",\"region\":\"zeta\"},{\"latch\":\"y\",\"mode\":\"X\"},"
            "{\"fix\":\"b\",\"region\":\"alpha\"},"
            "{\"latch\":\"b\",\"mode\":\"X\"},{\"unlatch\":\"y\"},{\"unfix\":\"y\"},{\"unlatch\":\"b\"},{\"latch\":\"b\",\"mode\":\"S\"},"
            "{\"unlatch\":\"b\"},{\"unfix\":\"b\"}]}",
            "{\"version\":2,\"body\":[{\"loop\":3,\"body\":[{\"gather\":\"m\",\"region\":\"alpha\"}]},{\"loop\":2,\"body\":["
            "{\"fix\":\"y\",\"region\":\"zeta\"},{\"latch\":\"y\",\"mode\":\"S\"},{\"unlatch\":\"y\"},{\"unfix\":\"y\"}]},"
            "{\"scatter\":\"m\"}]}"},
        {{1, 0}, {1, 0}, {1, 0}}, {1, 2, 4}}};

static const char *const refused_texts[] = {
    "{\"version\":1,\"body\":[{\"fix\":\"a\",\"region\":\"top\"},{\"latch\":\"a\",\"mode\":\"S\"},{\"fix\":\"b\",\"region\":\"low\"},"
    "{\"latch\":\"b\",\"mode\":\"S\"}]}",
    "{\"version\":1,\"body\":[{\"fix\":\"a\",\"region\":\"nowhere\"}]}", "{\"notes\":[{},{\"a\":[\"low\",\"-\"]}],\"peak\":1,\"steps\":4}",
    "garbage", "\xff\xfe", "frames = 4\n", ""};
enum { REFUSED_TEXTS = sizeof refused_texts / sizeof *refused_texts };

/* Settings that aren't a pool's that stands: a bounded life, no flush, and 33 workers. */
#define SETTINGS(waiting, workers, flushes) \
    "version = 2\nframes = 40\npage_bytes = 512\nworkers = " workers "\nwaiting = " waiting "\nflushes = " flushes "\n" \
    "[[region]]\nname = \"low\"\nfirst = 0\ncount = 7\nclass = 1\n"
static const char *const other_settings[] = {SETTINGS("0", "3", "9"), SETTINGS("1", "3", "0"), SETTINGS("1", "33", "9")};
enum { OTHER_SETTINGS = sizeof other_settings / sizeof *other_settings };

/* What the host knows of a ticket that is out. */
typedef struct seat {
    uint64_t ticket;
    pinpool_ask ask;
    int waits, sleeps;
    uint32_t number; /* of its plan */
    int came;    /* the bytes of a reading were handed in */
    int spoiled; /* a call of its device failed, or gave another page */
    char latch[SLOTS];
    uint32_t page[SLOTS];
    uint8_t *lent[SLOTS]; /* where its body lies, once it was asked */
} seat;

typedef struct tried {
    pinpool pool;
    const kind *of;
    uint32_t plans, plan[100]; /* which of the kind's plans each one is that is kept */
    seat seats[SEATS];
    uint8_t body[MOST_PAGES][MOST_BYTES - HEAD];
    uint8_t device[MOST_PAGES][MOST_BYTES];
    int is_stopped;
} tried;

static tried all[POOLS];
static uint64_t seed;
enum { OPEN, PREPARE, ENTER, START, NEXT, GO, GET, PUT, IMAGE, CAME, READ, WRITE, LEND, LEAVE, FLUSHER, WANTED, STATS, CLOSE, ABANDON, STOP, CALLS };
static long answered[CALLS][ANSWERS];

static uint32_t below(uint32_t n) {
    seed ^= seed << 13, seed ^= seed >> 7, seed ^= seed << 17;
    return (uint32_t)(seed >> 20) % n;
}

static void wrong(const char *what) {
    printf("random_calls: %s\n", what);
    exit(1);
}
#define SEE(it) ((it) ? (void)0 : wrong(#it))

/* Keeps how a call was answered. */
static pinpool_answer told_of(int call, pinpool_answer answer) {
    SEE((unsigned)answer < ANSWERS && answer != PINPOOL_BROKEN);
    answered[call][answer]++;
    return answer;
}

static size_t body_of(const tried *t) { return t->of->page_bytes - HEAD; }
static uint32_t flushers(const tried *t) { return t->of->workers + t->of->queue; }

static seat *seat_of(tried *t, uint64_t ticket) {
    for (int i = 0; i < SEATS; i++)
        if (ticket && t->seats[i].ticket == ticket) return &t->seats[i];
    return NULL;
}

/* A call with a ticket: without a pool, or with a ticket that isn't out, it is refused so. */
static int is_refused(const tried *t, const seat *s, pinpool_answer answer) {
    if (!t->pool.at) SEE(answer == PINPOOL_NO_POOL);
    else if (!s) SEE(answer == PINPOOL_BAD_TICKET);
    else SEE(answer != PINPOOL_NO_POOL && answer != PINPOOL_BAD_TICKET);
    return answer != PINPOOL_DONE;
}

/* Those who are told don't sleep any more. Bells are first the chairs', then those of the queue, last the flusher's. */
static void rung(tried *t, const pinpool_told *told) {
    uint32_t workers = t->of->workers, last = flushers(t);
    SEE(!(told->running >> workers) && (told->next == PINPOOL_NOBODY || (told->next >= workers && told->next < last)));
    for (int i = 0; i < SEATS; i++) {
        uint32_t bell = pinpool_bell(t->seats[i].ticket);
        if ((bell < workers && told->running >> bell & 1) || bell == told->next || (told->all && bell >= workers && bell < last) ||
            (told->flusher && bell == last))
            t->seats[i].sleeps = 0;
    }
}

static void spent(seat *s) { memset(s, 0, sizeof *s); }

/* ---- the calls, each with what has to be so behind it */

static int is_other_settings(const char *text) {
    for (int it = 0; it < OTHER_SETTINGS; it++)
        if (text == other_settings[it]) return 1;
    return 0;
}

static void try_open(tried *t, const char *text) {
    pinpool_policy policy = {below(9) ? t->of->queue : below(2) * 70000, below(3), 1 + below(4), below(3)};
    pinpool_fault fault = {0, 0};
    void *before = t->pool.at;
    pinpool_answer answer = told_of(OPEN, pinpool_open(&t->pool, (const uint8_t *)text, strlen(text), &policy, &fault));
    if (before) SEE(answer == PINPOOL_IN_USE && t->pool.at == before);
    else SEE((t->pool.at != NULL) == (answer == PINPOOL_DONE));
    if (answer == PINPOOL_REFUSED) SEE(fault.number);
    if (!before && policy.queue && policy.queue < 70000)
        SEE(is_other_settings(text) == (answer == PINPOOL_OTHER_SETTINGS));
    if (answer != PINPOOL_DONE) return;
    memset(t->seats, 0, sizeof t->seats);
    t->plans = 0, t->is_stopped = 0;
    for (uint32_t page = 0; page < t->of->pages; page++) memcpy(t->body[page], t->device[page] + HEAD, body_of(t));
}

/* Which of the pool's plans the text is, or PLANS for none. */
static uint32_t plan_of(const tried *t, const char *text) {
    uint32_t it = 0;
    while (it < PLANS && t->of->plans[it] != text) it++;
    return it;
}

static void try_prepare(tried *t, const char *plan, const char *certificate) {
    pinpool_plan kept;
    pinpool_fault fault = {0, 0};
    pinpool_told told;
    const uint8_t *text = (const uint8_t *)plan, *proof = (const uint8_t *)certificate;
    pinpool_answer answer = told_of(PREPARE, certificate
        ? pinpool_prepare(&t->pool, text, strlen(plan), proof, strlen(certificate), &kept, &fault, &told)
        : pinpool_prepare_alone(&t->pool, text, strlen(plan), &kept, &fault, &told));
    if (!t->pool.at) SEE(answer == PINPOOL_NO_POOL);
    if (answer == PINPOOL_REFUSED) SEE(fault.number);
    rung(t, &told);
    uint32_t it = plan_of(t, plan);
    if (t->pool.at && !certificate) SEE((it < PLANS) == (answer == PINPOOL_DONE));
    if (answer != PINPOOL_DONE) return;
    SEE(kept.plan == t->plans && kept.peak == t->of->peak[it]);
    t->plan[t->plans++] = it;
}

static void try_enter(tried *t, uint32_t plan) {
    uint64_t ticket = 5;
    seat *s = NULL;
    for (int i = 0; i < SEATS && !s; i++)
        if (!t->seats[i].ticket) s = &t->seats[i];
    if (!s) return;
    pinpool_answer answer = told_of(ENTER, pinpool_enter(&t->pool, plan, &ticket));
    SEE((ticket != 0) == (answer == PINPOOL_DONE));
    if (answer == PINPOOL_STOPPED) SEE(t->is_stopped);
    if (answer != PINPOOL_DONE) return;
    SEE(plan < t->plans && !seat_of(t, ticket) && !t->is_stopped);
    s->ticket = ticket;
    s->number = t->plan[plan];
    s->waits = 1;
}

static void try_start(tried *t, uint64_t ticket) {
    seat *s = seat_of(t, ticket);
    pinpool_ask ask;
    pinpool_told told;
    pinpool_answer answer = told_of(START, pinpool_start(&t->pool, &ticket, &ask, &told));
    rung(t, &told);
    if (s && answer == PINPOOL_STOPPED) {
        SEE(!ticket && t->is_stopped);
        spent(s);
        return;
    }
    if (s && answer == PINPOOL_NOT_NOW) s->sleeps = 1;
    if (is_refused(t, s, answer)) return;
    SEE(s->waits && !t->is_stopped && ask.step == PINPOOL_TAKE && pinpool_bell(ticket) < t->of->workers);
    uint32_t number = s->number;
    spent(s);
    s->number = number;
    s->ticket = ticket;
    s->ask = ask;
}

static void try_next(tried *t, uint64_t ticket) {
    seat *s = seat_of(t, ticket);
    pinpool_ask ask;
    pinpool_answer answer = told_of(NEXT, pinpool_next(&t->pool, ticket, &ask));
    if (is_refused(t, s, answer)) return;
    SEE(ask.step == s->ask.step && ask.slot == s->ask.slot && ask.first == s->ask.first && ask.page == s->ask.page);
}

/* A step was made: the host keeps what it means. */
static void stepped(tried *t, seat *s, const pinpool_ask *step, uint32_t argument) {
    if (step->slot < SLOTS) {
        if (step->step == PINPOOL_FIX) s->page[step->slot] = argument;
        if (step->step == PINPOOL_LATCH_S) s->latch[step->slot] = 'S';
        if (step->step == PINPOOL_LATCH_X) s->latch[step->slot] = 'X';
        if (step->step == PINPOOL_UNLATCH) s->latch[step->slot] = 0, s->lent[step->slot] = NULL;
        if (step->step == PINPOOL_LATCH_S || step->step == PINPOOL_LATCH_X) SEE(step->page == s->page[step->slot]);
    }
    if (s->ask.step == PINPOOL_FIX || s->ask.step == PINPOOL_GATHER) {
        SEE(s->ask.slot < 2 && s->ask.region == t->of->region[s->number][s->ask.slot]);
        SEE(s->ask.first == t->of->first[s->ask.region] && s->ask.count == t->of->count[s->ask.region]);
    }
    if ((step->step == PINPOOL_READ || step->step == PINPOOL_WRITE) && !argument) s->spoiled = 1;
    s->came = 0;
    if (s->ask.step == PINPOOL_LEAVE || s->ask.step == PINPOOL_GONE) SEE(s->spoiled);
    if (s->ask.step == PINPOOL_OVER || s->ask.step == PINPOOL_GONE) spent(s);
}

static void try_go(tried *t, uint64_t ticket, uint32_t argument) {
    seat *s = seat_of(t, ticket);
    pinpool_ask step, ask;
    pinpool_told told;
    pinpool_answer answer = told_of(GO, pinpool_go(&t->pool, ticket, argument, &ask, &told));
    rung(t, &told);
    SEE(ask.step <= PINPOOL_FLUSH);
    if (s && answer == PINPOOL_NOT_NOW) s->sleeps = 1;
    if (s && answer != PINPOOL_DONE) SEE(s->waits || ask.step == s->ask.step);
    if (is_refused(t, s, answer)) return;
    step = s->ask;
    if (step.step == PINPOOL_FIX || step.step == PINPOOL_GATHER) SEE(argument - step.first < step.count);
    if (step.step == PINPOOL_CHOOSE) SEE(argument < step.count);
    if (step.step == PINPOOL_READ && argument) SEE(s->came);
    s->ask = ask;
    s->sleeps = 0;
    stepped(t, s, &step, argument);
}

/* Two steps by one call, as they go one by one. Tells whether they were made. */
static int try_get(tried *t, uint64_t ticket, uint32_t page, uint32_t from, size_t length) {
    static uint8_t bytes[2 * MOST_BYTES], before[2 * MOST_BYTES];
    seat *s = seat_of(t, ticket);
    pinpool_ask step, ask;
    pinpool_told told;
    memcpy(before, bytes, sizeof bytes);
    pinpool_answer answer = told_of(GET, pinpool_get(&t->pool, ticket, page, from, bytes, length, &ask, &told));
    rung(t, &told);
    SEE(answer != PINPOOL_NOT_NOW && ask.step <= PINPOOL_FLUSH);
    if (answer != PINPOOL_DONE) SEE(!memcmp(bytes, before, sizeof bytes));
    if (s && answer != PINPOOL_DONE) SEE(s->waits || !memcmp(&ask, &s->ask, sizeof ask));
    if (is_refused(t, s, answer)) return 0;
    step = s->ask;
    SEE(step.step == PINPOOL_FIX && page - step.first < step.count && from + length <= body_of(t));
    SEE(!memcmp(bytes, t->body[page] + from, length));
    s->sleeps = 0;
    s->ask.step = PINPOOL_LATCH_S, s->ask.page = page;
    stepped(t, s, &step, page);
    step = s->ask;
    s->ask = ask;
    stepped(t, s, &step, 0);
    return 1;
}

static int try_put(tried *t, uint64_t ticket) {
    seat *s = seat_of(t, ticket);
    pinpool_ask step, ask;
    pinpool_told told;
    pinpool_answer answer = told_of(PUT, pinpool_put(&t->pool, ticket, &ask, &told));
    rung(t, &told);
    SEE(answer != PINPOOL_NOT_NOW && ask.step <= PINPOOL_FLUSH);
    if (s && answer != PINPOOL_DONE) SEE(s->waits || !memcmp(&ask, &s->ask, sizeof ask));
    if (is_refused(t, s, answer)) return 0;
    step = s->ask;
    SEE(step.step == PINPOOL_UNLATCH && s->latch[step.slot] == 'S');
    s->ask = ask;
    stepped(t, s, &step, 0);
    return 1;
}

static void try_image(tried *t, uint64_t ticket, size_t length) {
    static uint8_t image[2 * MOST_BYTES];
    seat *s = seat_of(t, ticket);
    if (is_refused(t, s, told_of(IMAGE, pinpool_image(&t->pool, ticket, image, length)))) return;
    SEE(length == t->of->page_bytes && s->ask.step == PINPOOL_WRITE);
    /* (a page that is flushed may be changed meanwhile) */
    SEE(pinpool_bell(ticket) == flushers(t) || !memcmp(image + HEAD, t->body[s->ask.page], body_of(t)));
}

static void try_came(tried *t, uint64_t ticket, const uint8_t *image, size_t length) {
    seat *s = seat_of(t, ticket);
    if (is_refused(t, s, told_of(CAME, pinpool_came(&t->pool, ticket, image, length)))) return;
    SEE(length == t->of->page_bytes && s->ask.step == PINPOOL_READ);
    s->came = 1;
    if (image != t->device[s->ask.page]) s->spoiled = 1;
}

static void try_read(tried *t, uint64_t ticket, uint32_t slot, uint32_t from, size_t length) {
    static uint8_t bytes[2 * MOST_BYTES];
    seat *s = seat_of(t, ticket);
    if (is_refused(t, s, told_of(READ, pinpool_read(&t->pool, ticket, slot, from, bytes, length)))) return;
    SEE(slot < SLOTS && s->latch[slot] && from + length <= body_of(t));
    SEE(!memcmp(bytes, t->body[s->page[slot]] + from, length));
}

static void try_write(tried *t, uint64_t ticket, uint32_t slot, uint32_t from, size_t length) {
    static uint8_t bytes[2 * MOST_BYTES];
    seat *s = seat_of(t, ticket);
    for (int i = 0; i < 4; i++) bytes[below(2 * MOST_BYTES)] = (uint8_t)below(256);
    if (is_refused(t, s, told_of(WRITE, pinpool_write(&t->pool, ticket, slot, from, bytes, length)))) return;
    SEE(slot < SLOTS && s->latch[slot] == 'X' && from + length <= body_of(t));
    memcpy(t->body[s->page[slot]] + from, bytes, length);
}

static void try_lend(tried *t, uint64_t ticket, uint32_t slot) {
    seat *s = seat_of(t, ticket);
    pinpool_lent lent = {NULL, 5};
    pinpool_answer answer = told_of(LEND, pinpool_lend(&t->pool, ticket, slot, &lent));
    if (answer != PINPOOL_DONE) SEE(!lent.bytes && lent.length == 5);
    if (is_refused(t, s, answer)) return;
    SEE(slot < SLOTS && s->latch[slot] && lent.length == body_of(t));
    SEE(!s->lent[slot] || s->lent[slot] == lent.bytes);
    SEE(!memcmp(lent.bytes, t->body[s->page[slot]], lent.length));
    s->lent[slot] = lent.bytes;
    uint32_t at = below((uint32_t)lent.length);
    if (s->latch[slot] == 'X') lent.bytes[at] = t->body[s->page[slot]][at] = (uint8_t)below(256);
}

static void try_leave(tried *t, uint64_t ticket) {
    seat *s = seat_of(t, ticket);
    pinpool_told told;
    pinpool_answer answer = told_of(LEAVE, pinpool_leave(&t->pool, ticket, &told));
    rung(t, &told);
    if (is_refused(t, s, answer)) return;
    SEE(s->waits || s->ask.step == PINPOOL_TAKE || s->ask.step == PINPOOL_FLUSH);
    spent(s);
}

static void try_flusher(tried *t) {
    uint64_t ticket = 5;
    pinpool_ask ask;
    seat *s = NULL;
    for (int i = 0; i < SEATS && !s; i++)
        if (!t->seats[i].ticket) s = &t->seats[i];
    if (!s) return;
    pinpool_answer answer = told_of(FLUSHER, pinpool_flusher(&t->pool, &ticket, &ask));
    SEE((ticket != 0) == (answer == PINPOOL_DONE));
    if (answer != PINPOOL_DONE) return;
    SEE(ask.step == PINPOOL_FLUSH && pinpool_bell(ticket) == flushers(t));
    s->ticket = ticket;
    s->ask = ask;
}

static void try_wanted(tried *t, uint64_t ticket, uint32_t is_on) {
    seat *s = seat_of(t, ticket);
    pinpool_answer answer = told_of(WANTED, pinpool_flush_wanted(&t->pool, ticket, is_on));
    (void)is_refused(t, s, answer);
    if (answer == PINPOOL_STOPPED) SEE(t->is_stopped);
}

static void try_stop(tried *t) {
    pinpool_told told;
    pinpool_answer answer = told_of(STOP, pinpool_stop(&t->pool, &told));
    rung(t, &told);
    SEE((answer == PINPOOL_DONE) == (t->pool.at != NULL));
    if (t->pool.at) t->is_stopped = 1;
}

static void try_stats(tried *t) {
    pinpool_stats stats;
    pinpool_sizes sizes;
    pinpool_dirty dirty[MOST_PAGES];
    size_t count = 0, places = below(MOST_PAGES);
    pinpool_answer answer = told_of(STATS, pinpool_stats_of(&t->pool, &stats));
    if (answer != PINPOOL_DONE) return;
    SEE(stats.running_peaks <= t->of->frames && stats.chairs <= t->of->workers && stats.waiting <= t->of->queue);
    SEE(stats.dirty <= t->of->frames && (int)stats.is_stopped == t->is_stopped);
    SEE(pinpool_dirty_pages(&t->pool, dirty, places + 1, &count) == PINPOOL_DONE);
    SEE(count <= places + 1 && (count == stats.dirty || count == places + 1));
    for (size_t it = 0; it < count; it++) {
        SEE(dirty[it].mark && dirty[it].page < t->of->pages);
        SEE(!it || dirty[it - 1].page < dirty[it].page);
    }
    SEE(pinpool_sizes_of(&t->pool, &sizes) == PINPOOL_DONE && sizes.workers == t->of->workers && sizes.bells == flushers(t) + 1);
    SEE(sizes.page_bytes == t->of->page_bytes && sizes.frames == t->of->frames && sizes.pages == t->of->pages);
}

/* Ends the pool. Where its pages are lost, the device's are what counts. */
static void try_end(tried *t, int is_close) {
    uint32_t lost = 7;
    int is_out = 0;
    pinpool_answer answer;
    pinpool_stats stats = {0};
    if (pinpool_stats_of(&t->pool, &stats) != PINPOOL_DONE) SEE(!t->pool.at);
    for (int i = 0; i < SEATS; i++) is_out |= t->seats[i].ticket && !t->seats[i].waits;
    answer = is_close ? told_of(CLOSE, pinpool_close(&t->pool)) : told_of(ABANDON, pinpool_abandon(&t->pool, &lost));
    SEE((answer == PINPOOL_DONE) == (t->pool.at == NULL) || answer == PINPOOL_NO_POOL);
    if (answer != PINPOOL_DONE) return;
    if (is_close) {
        SEE(!is_out && !stats.dirty);
        for (uint32_t page = 0; page < t->of->pages; page++) SEE(!memcmp(t->body[page], t->device[page] + HEAD, body_of(t)));
    }
    if (!is_close) SEE(lost == stats.dirty);
    memset(t->seats, 0, sizeof t->seats);
}

/* ---- which call is made */

/* Goes on with a seat, as a host does. */
static void go_on(tried *t, seat *s, int is_good) {
    uint64_t ticket = s->ticket;
    uint32_t page = s->ask.page, argument = 0, half = t->of->page_bytes / 2;
    if (s->waits) {
        try_start(t, ticket);
        return;
    }
    switch (s->ask.step) {
    case PINPOOL_FIX:
    case PINPOOL_GATHER: argument = s->ask.first + below(s->ask.count); break;
    case PINPOOL_CHOOSE: argument = below(s->ask.count); break;
    case PINPOOL_READ:
        SEE(!memcmp(t->body[page], t->device[page] + HEAD, body_of(t)));
        argument = is_good || below(20);
        if (argument) try_came(t, ticket, t->device[!is_good && !below(20) ? below(t->of->pages) : page], t->of->page_bytes);
        break;
    case PINPOOL_WRITE:
        try_image(t, ticket, t->of->page_bytes);
        argument = is_good || below(20);
        if (argument) SEE(pinpool_image(&t->pool, ticket, t->device[page], t->of->page_bytes) == PINPOOL_DONE);
        break;
    case PINPOOL_UNLATCH:
        if (below(2)) try_lend(t, ticket, s->ask.slot);
        try_read(t, ticket, s->ask.slot, below(half), below(half - HEAD));
        if (s->latch[s->ask.slot] == 'X') try_write(t, ticket, s->ask.slot, below(half), below(half - HEAD));
        /* (what was lent is still there, with what was written meanwhile) */
        if (s->lent[s->ask.slot]) SEE(!memcmp(s->lent[s->ask.slot], t->body[s->page[s->ask.slot]], body_of(t)));
        break;
    default: break;
    }
    if (s->ask.step == PINPOOL_FIX && below(2) && try_get(t, ticket, argument, below(half), below(half - HEAD))) return;
    if (s->ask.step == PINPOOL_UNLATCH && below(2) && try_put(t, ticket)) return;
    try_go(t, ticket, argument);
}

/* A ticket: mostly one that is out, else one of another pool, one that is made up, or one that is nearly right. */
static uint64_t some_ticket(tried *t) {
    const seat *s = &t->seats[below(SEATS)], *other = &all[below(POOLS)].seats[below(SEATS)];
    switch (below(8)) {
    case 0: return seed;
    case 1: return other->ticket;
    case 2: return s->ticket + ((uint64_t)1 << 32);
    case 3: return s->ticket - 1;
    case 4: return below(12);
    default: return s->ticket;
    }
}

static uint32_t some_number(void) { return below(3) ? below(12) : below(2) ? below(4294967295u) : PINPOOL_NOBODY; }

static void any_call(tried *t) {
    uint64_t ticket = some_ticket(t);
    uint32_t page_bytes = t->of->page_bytes;
    size_t length = below(4) ? below(2 * MOST_BYTES) : page_bytes;
    const char *text = refused_texts[below(REFUSED_TEXTS)], *other = below(2) ? text : refused_texts[below(REFUSED_TEXTS)];
    if (below(3) == 0) text = t->of->plans[below(PLANS)];
    switch (below(CALLS)) {
    case OPEN: try_open(t, below(2) ? t->of->settings : below(2) ? other_settings[below(OTHER_SETTINGS)] : text); break;
    case PREPARE: if (t->plans < 60) try_prepare(t, text, below(2) ? other : NULL); break;
    case ENTER: try_enter(t, some_number()); break;
    case START: try_start(t, ticket); break;
    case NEXT: try_next(t, ticket); break;
    case GO: if (!seat_of(t, ticket) || seat_of(t, ticket)->ask.step != PINPOOL_WRITE) try_go(t, ticket, some_number()); break;
    case GET: (void)try_get(t, ticket, some_number(), below(2) ? below(page_bytes) : some_number(), length); break;
    case PUT: (void)try_put(t, ticket); break;
    case IMAGE: if (length != page_bytes) try_image(t, ticket, length); break;
    case CAME: if (length != page_bytes || !seat_of(t, ticket)) try_came(t, ticket, t->device[0], length % MOST_BYTES); break;
    case READ: try_read(t, ticket, below(3), below(page_bytes), length); break;
    case WRITE: try_write(t, ticket, below(2) ? below(3) : some_number(), below(2) ? below(page_bytes) : some_number(), length); break;
    case LEND: try_lend(t, ticket, below(2) ? below(3) : some_number()); break;
    case LEAVE: try_leave(t, ticket); break;
    case FLUSHER: try_flusher(t); break;
    case WANTED: try_wanted(t, ticket, below(2)); break;
    case STATS: try_stats(t); break;
    case CLOSE: if (!below(20)) try_end(t, 1); break;
    case ABANDON: if (!below(100)) try_end(t, 0); break;
    default: if (!below(100)) try_stop(t); break;
    }
}

/* Brings all that runs to its end: whoever doesn't sleep goes on. If all sleep, a wake-up was lost. */
static void drain(tried *t) {
    for (long turn = 0;; turn++) {
        int is_out = 0, moved = 0;
        for (int i = 0; i < SEATS; i++) {
            seat *s = &t->seats[i];
            if (s->ticket && s->ask.step == PINPOOL_FLUSH) try_leave(t, s->ticket);
            if (!s->ticket) continue;
            is_out = 1;
            if (!s->sleeps) moved = 1, go_on(t, s, 1);
        }
        if (!is_out) return;
        if (!moved) wrong("all that are left sleep");
        if (turn > 100000) wrong("no end");
    }
}

/* Writes all that is changed, and ends the pool. */
static void end(tried *t) {
    if (!t->pool.at) return;
    drain(t);
    try_flusher(t);
    for (seat *s = &t->seats[0]; s->ticket;) {
        if (s->ask.step == PINPOOL_WRITE) {
            go_on(t, s, 1);
            continue;
        }
        long before = answered[GO][PINPOOL_NONE_TO_FLUSH];
        try_go(t, s->ticket, 0);
        if (answered[GO][PINPOOL_NONE_TO_FLUSH] > before) try_leave(t, s->ticket);
    }
    try_end(t, 1);
    SEE(!t->pool.at);
}

static void show(void) {
    static const char *const names[] = {"open", "prepare", "enter", "start", "next", "go", "get", "put", "image", "came", "read", "write", "lend", "leave",
        "flusher", "wanted", "stats", "close", "abandon", "stop"};
    for (int call = 0; call < CALLS; call++) {
        printf("%-8s", names[call]);
        for (uint32_t it = 0; it < ANSWERS; it++)
            if (answered[call][it]) printf(" %s %ld,", pinpool_answer_name(it), answered[call][it]);
        printf("\n");
    }
}

int main(int count, char **words) {
    long calls = count > 1 ? atol(words[1]) : 500000;
    seed = count > 2 ? strtoull(words[2], NULL, 10) : 7;
    seed = seed * 0x9e3779b97f4a7c15u | 1;
    for (int i = 0; i < POOLS; i++) {
        all[i].of = &kinds[i];
        for (uint32_t page = 0; page < MOST_PAGES; page++) all[i].device[page][3] = (uint8_t)page;
    }
    for (long call = 0; call < calls; call++) {
        tried *t = &all[below(2)];
        seat *s = &t->seats[below(SEATS)];
        if (!t->pool.at && below(20))
            try_open(t, below(3) ? t->of->settings : below(2) ? other_settings[below(OTHER_SETTINGS)] : refused_texts[below(REFUSED_TEXTS)]);
        if (t->plans < PLANS && t->pool.at) try_prepare(t, t->of->plans[below(PLANS)], NULL);
        if (!below(t->is_stopped ? 100 : 5000)) end(t);
        if (below(3) == 0) any_call(t);
        else if (s->ticket && (!s->sleeps || !below(20))) go_on(t, s, 0);
        else if (below(3) == 0 && t->plans) try_enter(t, below(t->plans));
    }
    for (int i = 0; i < POOLS; i++) end(&all[i]);
    show();
    return 0;
}
