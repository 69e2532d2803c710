/* Stands before the C library, for .ci/memory: it refuses allocation number REFUSE, has read or write number FAULT fail and
   number SHORT move one byte, and tells on file number TELL what it met: `r`, `f` or `s`. With SPAN, only what lies between the
   lines `call` and `answer` of standard output is counted. It includes no header, so that any compiler takes it. */

typedef __SIZE_TYPE__ size;

extern void *__libc_malloc(size);
extern void *__libc_calloc(size, size);
extern void *__libc_realloc(void *, size);
extern void *__libc_memalign(size, size);
extern void *dlsym(void *, const char *);
extern char *getenv(const char *);
extern long syscall(long, ...);
extern int *__errno_location(void);

enum { STANDARD_OUTPUT = 1, SYSTEM_WRITE = 1, EIO = 5, ENOMEM = 12, EINVAL = 22, IN_ORDER = __ATOMIC_SEQ_CST };

static long refuse, fault, cut, tell = -1, span, begun, ended;
static long allocations, calls, moves;

/* The number that a variable of the environment has; 0 where there is none. */
static long number(const char *name) {
    long n = 0;
    const char *it = getenv(name);
    if (!it) return 0;
    for (; *it >= '0' && *it <= '9'; it++) n = 10 * n + (*it - '0');
    return n;
}

__attribute__((constructor)) static void begin(void) {
    refuse = number("REFUSE"), fault = number("FAULT"), cut = number("SHORT"), span = number("SPAN");
    tell = getenv("TELL") ? number("TELL") : -1;
    begun = !span;
}

static void met(const char *what) {
    if (tell >= 0) syscall(SYSTEM_WRITE, tell, what, (size)1);
}

static int counts(void) {
    return __atomic_load_n(&begun, IN_ORDER) && !__atomic_load_n(&ended, IN_ORDER);
}

/* ---- memory */

/* Whether this allocation is the one that is refused. */
static int is_refused(void) {
    if (!counts() || __atomic_add_fetch(&allocations, 1, IN_ORDER) != refuse) return 0;
    met("r");
    return 1;
}

/* The same, for a call that tells by errno. */
static int is_refused_by_errno(void) {
    if (!is_refused()) return 0;
    *__errno_location() = ENOMEM;
    return 1;
}

void *malloc(size n) {
    return is_refused_by_errno() ? 0 : __libc_malloc(n);
}

void *calloc(size count, size n) {
    return is_refused_by_errno() ? 0 : __libc_calloc(count, n);
}

/* The block stays as it is where it can't be made larger. */
void *realloc(void *at, size n) {
    return is_refused_by_errno() ? 0 : __libc_realloc(at, n);
}

void *reallocarray(void *at, size count, size n) {
    size whole;
    if (__builtin_mul_overflow(count, n, &whole)) {
        *__errno_location() = ENOMEM;
        return 0;
    }
    return realloc(at, whole);
}

void *memalign(size alignment, size n) {
    return is_refused_by_errno() ? 0 : __libc_memalign(alignment, n);
}

void *aligned_alloc(size alignment, size n) {
    return is_refused_by_errno() ? 0 : __libc_memalign(alignment, n);
}

/* Its answer is the error, and errno stays as it is; so does what the pointer names where it fails. */
int posix_memalign(void **to, size alignment, size n) {
    if (alignment < sizeof(void *) || (alignment & (alignment - 1))) return EINVAL;
    if (is_refused()) return ENOMEM;
    int error_before = *__errno_location();
    void *made = __libc_memalign(alignment, n);
    *__errno_location() = error_before;
    if (!made) return ENOMEM;
    *to = made;
    return 0;
}

/* ---- reads and writes */

/* Whether this call fails; else how many bytes it is to move. */
static int fails(size *n) {
    if (!counts()) return 0;
    if (__atomic_add_fetch(&calls, 1, IN_ORDER) == fault) {
        met("f");
        *__errno_location() = EIO;
        return 1;
    }
    if (*n > 1 && __atomic_add_fetch(&moves, 1, IN_ORDER) == cut) {
        met("s");
        *n = 1;
    }
    return 0;
}

/* Whether a text is this line. */
static int is_line(const char *text, size n, const char *line) {
    for (size at = 0; at < n; at++)
        if (!line[at] || text[at] != line[at]) return 0;
    return !line[n];
}

/* Looks for the lines between which is counted. */
static void see(int file, const char *text, size n) {
    if (!span || file != STANDARD_OUTPUT) return;
    if (is_line(text, n, "call\n")) __atomic_store_n(&begun, 1, IN_ORDER);
    if (is_line(text, n, "answer\n") && begun) __atomic_store_n(&ended, 1, IN_ORDER);
}

typedef long read_type(int, void *, size);
typedef long write_type(int, const void *, size);
typedef long pread_type(int, void *, size, long);
typedef long pwrite_type(int, const void *, size, long);

/* The C library's own function of a name. */
static void *own(void **kept, const char *name) {
    if (!*kept) *kept = dlsym((void *)-1, name);
    return *kept;
}

long read(int file, void *to, size n) {
    static void *kept;
    return fails(&n) ? -1 : ((read_type *)own(&kept, "read"))(file, to, n);
}

long write(int file, const void *from, size n) {
    static void *kept;
    long moved = fails(&n) ? -1 : ((write_type *)own(&kept, "write"))(file, from, n);
    see(file, from, n);
    return moved;
}

long __write(int file, const void *from, size n) {
    static void *kept;
    long moved = fails(&n) ? -1 : ((write_type *)own(&kept, "__write"))(file, from, n);
    see(file, from, n);
    return moved;
}

long pread(int file, void *to, size n, long at) {
    static void *kept;
    return fails(&n) ? -1 : ((pread_type *)own(&kept, "pread"))(file, to, n, at);
}

long pwrite(int file, const void *from, size n, long at) {
    static void *kept;
    return fails(&n) ? -1 : ((pwrite_type *)own(&kept, "pwrite"))(file, from, n, at);
}
