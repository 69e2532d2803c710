/* SPDX-License-Identifier: Apache-2.0 */
/* Writes down what the calls of pinpool.h tell a host: a line for each event of the pool, in their order, as the journal in segments of
** docs/formats.md has them, but for the numbers of frames, which no call tells. There stands a `?`, and journal_of puts the number in its
** place.
**
** The linker puts it between a host and the pool (-Wl,--wrap=pinpool_go and so on, see the Makefile), so neither is built in another way.
** What isn't told at once it knows from what was told before: the mark of a page from the image that came, and the latches X that were
** taken off since; whether a page was changed while it was flushed; and what a plan holds that is left, which gives the least slot back
** first. Where a call tells something else, it says so and ends the program. */
#ifndef RECORDER_H
#define RECORDER_H
#include "pinpool.h"
#include <stdio.h>

/* From now on the events of the pool that is opened next are written into this file. One pool at a time. */
void recorder_begin(FILE *to);

/* Nothing is written any more. 1, or 0 where a line couldn't be written. The file stays open. */
int recorder_end(void);

#endif
