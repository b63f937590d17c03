/* Makes the Nth read or write of a process fail, by LD_PRELOAD, and lets each other one move at most 7 bytes. The environment's
   FAIL_IO says which: `read` or `write`, which then report an error, or `full`, a write that takes no byte. N is FAIL_NTH; a
   byte on file descriptor FAIL_MARK says that the failure was met. No headers: the toolchain's own compiler builds it anywhere. */
typedef unsigned long size;
typedef struct { char *start; size length; } part;
extern char *getenv(const char *);
extern long syscall(long, ...);
extern int *__errno_location(void);

enum { READ = 0, WRITE = 1, IO_ERROR = 5, ERROR_OUTPUT = 2, FEW = 7 };

static long calls;

static long number(const char *text) {
    long value = 0;
    if (!text) return 0;
    while (*text >= '0' && *text <= '9') value = value * 10 + (*text++ - '0');
    return value;
}

static long moved(long call, int file, void *start, size length) {
    const char *how = getenv("FAIL_IO");
    int mark = (int)number(getenv("FAIL_MARK"));
    if (!how || file == mark || file == ERROR_OUTPUT) return syscall(call, file, start, length);
    int is_watched = (how[0] == 'r') == (call == READ);
    if (is_watched && ++calls == number(getenv("FAIL_NTH"))) {
        syscall(WRITE, mark, "x", 1L);
        if (how[0] == 'f') return 0;
        *__errno_location() = IO_ERROR;
        return -1;
    }
    return syscall(call, file, start, length < FEW ? length : (size)FEW);
}

static long first_moved(long call, int file, const part *parts, int count) {
    for (int i = 0; i < count; i++)
        if (parts[i].length) return moved(call, file, parts[i].start, parts[i].length);
    return 0;
}

long read(int file, void *start, size length) { return moved(READ, file, start, length); }
long write(int file, const void *start, size length) { return moved(WRITE, file, (void *)start, length); }
long readv(int file, const part *parts, int count) { return first_moved(READ, file, parts, count); }
long writev(int file, const part *parts, int count) { return first_moved(WRITE, file, parts, count); }
