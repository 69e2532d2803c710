/* SPDX-License-Identifier: Apache-2.0 */
/* What the proved side can't give to C, or takes from it: texts, and memory. */
#include "pinpool.h"
#include <stdbool.h>
#include <stdlib.h>

/* Who builds this over a library that was seen to be proved says so (the Makefile does). */
#ifndef PINPOOL_IS
#define PINPOOL_IS "unproved"
#endif

const char *pinpool_version(void) { return PINPOOL_VERSION " " PINPOOL_IS; }

const char *pinpool_answer_name(uint32_t answer) {
    static const char *const names[] = {"done", "not now", "none to flush", "flushes spent", "refused", "out of memory",
        "wrong argument", "no pool", "wrong step", "bad ticket", "in use", "queue full", "stopped", "still dirty",
        "other settings", "too many plans", "broken", "not at once"};
    return answer < sizeof names / sizeof *names ? names[answer] : "unknown";
}

/* What the proved side's allocator is asked and answers. Where there is no memory, `at` is some byte and says nothing. */
typedef struct tried {
    bool is_there;
    void *at;
} tried;
_Static_assert(sizeof(tried) == 2 * sizeof(void *), "as the kit has it");

tried rattle_alloc(size_t bytes, size_t align);
tried rattle_realloc(void *at, size_t kept, size_t bytes, size_t align);
void rattle_dealloc(void *at);

static tried answered(void *at) {
    static char some;
    tried answer = {at != NULL, at ? at : &some};
    return answer;
}

/* malloc gives memory at 16 bytes, which is as much as any type of the proved side wants. */
_Static_assert(_Alignof(max_align_t) >= 16, "as malloc has it");

tried rattle_alloc(size_t bytes, size_t align) { return answered(align <= 16 ? malloc(bytes) : NULL); }

tried rattle_realloc(void *at, size_t kept, size_t bytes, size_t align) {
    (void)kept;
    return answered(align <= 16 ? realloc(at, bytes) : NULL);
}

void rattle_dealloc(void *at) { free(at); }
