/* An allocator of which one allocation fails, put before that of the C library by LD_PRELOAD: the one whose number,
 * counted from 1, stands in AFDXMON_FAILING_ALLOCATION. A line on standard error says that it failed. Used by
 * tests/allocations. What it calls is declared here, since the compiler of the Rattle toolchain has no headers. */
typedef __SIZE_TYPE__ size_t;

extern void *__libc_malloc(size_t size);
extern void *__libc_calloc(size_t count, size_t size);
extern void *__libc_realloc(void *old, size_t size);
extern void *__libc_memalign(size_t alignment, size_t size);
extern int *__errno_location(void);
extern char *getenv(const char *name);
extern long strtol(const char *text, char **end, int base);
extern long write(int file, const void *bytes, size_t count);

enum { OUT_OF_MEMORY = 12, STANDARD_ERROR = 2 };

/* How many allocations are left up to the one that fails, itself included; none fails at 0 and below. */
static long left;

__attribute__((constructor)) static void read_number(void) {
    const char *number = getenv("AFDXMON_FAILING_ALLOCATION");
    left = number ? strtol(number, 0, 10) : 0;
}

static int fails(void) {
    static const char line[] = "an allocation failed\n";
    if (__atomic_fetch_sub(&left, 1, __ATOMIC_SEQ_CST) != 1) {
        return 0;
    }
    /* Where the line can't be written, the script finds no allocation that failed. */
    long written = write(STANDARD_ERROR, line, sizeof line - 1);
    (void)written;
    *__errno_location() = OUT_OF_MEMORY;
    return 1;
}

void *malloc(size_t size) {
    return fails() ? 0 : __libc_malloc(size);
}

void *calloc(size_t count, size_t size) {
    return fails() ? 0 : __libc_calloc(count, size);
}

void *realloc(void *old, size_t size) {
    return fails() ? 0 : __libc_realloc(old, size);
}

void *aligned_alloc(size_t alignment, size_t size) {
    return fails() ? 0 : __libc_memalign(alignment, size);
}

int posix_memalign(void **result, size_t alignment, size_t size) {
    void *made = fails() ? 0 : __libc_memalign(alignment, size);
    if (!made) {
        return OUT_OF_MEMORY;
    }
    *result = made;
    return 0;
}
