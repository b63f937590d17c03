/* Makes the Nth malloc or realloc of a process fail, by LD_PRELOAD. N is the environment's FAIL_NTH; a byte on file
   descriptor FAIL_MARK says that a call was refused. No headers: the toolchain's own compiler builds it anywhere. */
typedef unsigned long size;
extern void *__libc_malloc(size);
extern void *__libc_realloc(void *, size);
extern char *getenv(const char *);
extern long write(int, const void *, size);

static long calls; /* of all threads */
static long nth = -1;

static long number(const char *text) {
    long value = 0;
    if (!text) return 0;
    while (*text >= '0' && *text <= '9') value = value * 10 + (*text++ - '0');
    return value;
}

static int refused(void) {
    if (nth < 0) nth = number(getenv("FAIL_NTH"));
    if (!nth || __atomic_add_fetch(&calls, 1, __ATOMIC_SEQ_CST) != nth) return 0;
    write((int)number(getenv("FAIL_MARK")), "x", 1);
    return 1;
}

void *malloc(size n) { return refused() ? 0 : __libc_malloc(n); }
void *realloc(void *p, size n) { return refused() ? 0 : __libc_realloc(p, n); }
