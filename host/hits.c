/* SPDX-License-Identifier: Apache-2.0 */
/* Pages that hit, by single calls of pinpool.h: hits PLANS runs so many plans of a thousand hits each, by one thread that needs no lock. A hit
** is a fix, a latch S, a look at 8 bytes, and both taken back: two calls. With `lent` behind PLANS the bytes are read where they lie: a call more,
** which tells where. With `steps` each step has a call of its own: four, and one to read. For what a hit costs, count the instructions of two
** runs, and divide by the hits that one has more. */
#include "pinpool.h"
#include <stdio.h>
#include <stdlib.h>
#include <string.h>

static const char settings[] = "version = 2\nframes = 64\npage_bytes = 4096\nworkers = 1\nwaiting = 1\nflushes = 1000\n"
    "[[region]]\nname = \"pages\"\nfirst = 0\ncount = 64\nclass = 1\n";
static const char text[] = "{\"version\":1,\"body\":[{\"loop\":1000,\"body\":["
    "{\"fix\":\"a\",\"region\":\"pages\"},{\"latch\":\"a\",\"mode\":\"S\"},{\"unlatch\":\"a\"},{\"unfix\":\"a\"}]}]}";
static pinpool pool = PINPOOL_NONE;
static uint8_t image[4096];
static int is_lent, by_steps;

static void see(pinpool_answer answer) {
    if (answer == PINPOOL_DONE) return;
    fprintf(stderr, "hits: %s\n", pinpool_answer_name(answer));
    exit(1);
}

/* Fixes and latches a page by one call, and reads its number where it lies. Tells whether that went. */
static int get_lent(uint64_t ticket, uint32_t page, uint64_t *number, pinpool_ask *ask, pinpool_told *told) {
    const uint32_t slot = ask->slot;
    pinpool_lent lent;
    if (pinpool_get(&pool, ticket, page, 0, image, 0, ask, told) != PINPOOL_DONE) return 0;
    see(pinpool_lend(&pool, ticket, slot, &lent));
    memcpy(number, lent.bytes, sizeof *number);
    return 1;
}

/* Fixes and latches a page by one call, and reads its number, where that goes. Tells whether it did. */
static int get(uint64_t ticket, uint32_t page, uint64_t *number, pinpool_ask *ask, pinpool_told *told) {
    if (is_lent) return get_lent(ticket, page, number, ask, told);
    return pinpool_get(&pool, ticket, page, 0, (uint8_t *)number, sizeof *number, ask, told) == PINPOOL_DONE;
}

/* Takes the latch off and the page back by one call. Where that doesn't go, the steps go on from here. */
static void put(uint64_t ticket, pinpool_ask *ask, pinpool_told *told) {
    const pinpool_answer answer = pinpool_put(&pool, ticket, ask, told);
    if (answer != PINPOOL_NOT_AT_ONCE) see(answer);
}

/* Runs a plan, and gives the sum of what it has read. */
static uint64_t run(uint32_t plan) {
    uint64_t ticket, number, sum = 0;
    uint32_t page = 0, step, slot;
    pinpool_ask ask;
    pinpool_told told;
    see(pinpool_enter(&pool, plan, &ticket));
    see(pinpool_start(&pool, &ticket, &ask, &told));
    while (ask.step != PINPOOL_OVER && ask.step != PINPOOL_GONE) {
        uint32_t argument = 0;
        if (ask.step == PINPOOL_FIX) argument = page++ % 64;
        if (!by_steps && ask.step == PINPOOL_FIX && get(ticket, argument, &number, &ask, &told)) {
            sum += number;
            put(ticket, &ask, &told);
            continue;
        }
        if (ask.step == PINPOOL_READ) {
            image[3] = (uint8_t)ask.page;
            see(pinpool_came(&pool, ticket, image, sizeof image));
            argument = 1;
        }
        step = ask.step, slot = ask.slot;
        see(pinpool_go(&pool, ticket, argument, &ask, &told));
        if (step == PINPOOL_LATCH_S) {
            see(pinpool_read(&pool, ticket, slot, 0, (uint8_t *)&number, sizeof number));
            sum += number;
        }
    }
    return sum;
}

int main(int count, char **words) {
    const pinpool_policy policy = {4, 0, 8, 4};
    pinpool_fault fault;
    pinpool_plan plan;
    pinpool_told told;
    pinpool_stats stats;
    uint64_t sum = 0;
    int plans = count > 1 ? atoi(words[1]) : 1000;
    is_lent = count > 2 && !strcmp(words[2], "lent");
    by_steps = count > 2 && !is_lent;
    see(pinpool_open(&pool, (const uint8_t *)settings, sizeof settings - 1, &policy, &fault));
    see(pinpool_prepare_alone(&pool, (const uint8_t *)text, sizeof text - 1, &plan, &fault, &told));
    for (int i = 0; i < plans; i++) sum += run(plan.plan);
    see(pinpool_stats_of(&pool, &stats));
    see(pinpool_close(&pool));
    printf("%llu hits, %llu misses, sum %llu\n", (unsigned long long)stats.hits, (unsigned long long)stats.misses, (unsigned long long)sum);
    return 0;
}
