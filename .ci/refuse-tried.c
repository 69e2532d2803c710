/* Tries .ci/refuse.c: it makes each call that takes memory once, in the order below, and ends with status 0 where call number
   REFUSE is refused as its manual says, and each other is answered. .ci/memory loads it before a program that does nothing. */

typedef __SIZE_TYPE__ size;

extern void *malloc(size);
extern void *calloc(size, size);
extern void *realloc(void *, size);
extern void *reallocarray(void *, size, size);
extern void *memalign(size, size);
extern void *aligned_alloc(size, size);
extern int posix_memalign(void **, size, size);
extern char *getenv(const char *);
extern int *__errno_location(void);
extern void _exit(int);

enum { ENOMEM = 12, CALLS = 7, BY_POINTER = 7, BYTES = 100 };

/* What stands where a call is to put its answer, and the block that is made larger. */
static char nothing;
static char *block;

/* Makes a call, and gives its error. What is got stands at `to`. */
static int error_of(int call, void **to) {
    *__errno_location() = 0;
    switch (call) {
    case 1: *to = malloc(BYTES); break;
    case 2: *to = calloc(BYTES, 1); break;
    case 3: *to = realloc(block, 2 * BYTES); break;
    case 4: *to = reallocarray(block, 3, BYTES); break;
    case 5: *to = memalign(64, BYTES); break;
    case 6: *to = aligned_alloc(64, 2 * 64); break;
    default: return posix_memalign(to, 64, BYTES);
    }
    return *to ? 0 : *__errno_location();
}

/* Whether a call is refused, or is answered, as its manual says. */
static int is_right(int call, int is_refused) {
    void *to = &nothing;
    int error = error_of(call, &to);
    if (call == BY_POINTER && *__errno_location()) return 0;
    if (is_refused) return error == ENOMEM && to == (call == BY_POINTER ? &nothing : 0);
    if (error || !to || to == &nothing) return 0;
    if (call == 1 || call == 3 || call == 4) block = to;
    return 1;
}

__attribute__((constructor)) static void begin(void) {
    const char *word = getenv("REFUSE");
    int refuse = word ? *word - '0' : 0;
    for (int call = 1; call <= CALLS; call++) {
        if (!is_right(call, call == refuse)) _exit(call);
        /* A block whose growth was refused is there as before. */
        for (int at = 0; block && at < BYTES; at++) {
            if (call > 1 && refuse != 1 && block[at] != 'b') _exit(call);
            block[at] = 'b';
        }
    }
    _exit(0);
}
