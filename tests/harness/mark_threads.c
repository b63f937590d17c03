/* Writes what becomes of a process's threads to the file of descriptor THREAD_MARKS, by LD_PRELOAD: -1 before a thread is started, and 1 at its
   end. A mark is a long. No headers: the toolchain's own compiler builds it anywhere. */
typedef unsigned long size;
typedef void *(*body)(void *);
typedef int (*create)(unsigned long *, const void *, body, void *);
typedef struct { body run; void *given; } thread_start;
extern void *malloc(size);
extern void free(void *);
extern char *getenv(const char *);
extern long write(int, const void *, size);
extern void *dlsym(void *, const char *);

enum { TRY_AGAIN = 11 };
static const long begun = -1, ended = 1;

static long number(const char *text) {
    long value = 0;
    if (!text) return 0;
    while (*text >= '0' && *text <= '9') value = value * 10 + (*text++ - '0');
    return value;
}

static void mark(long value) { write((int)number(getenv("THREAD_MARKS")), &value, sizeof value); }

static void *marked(void *given) {
    thread_start start = *(thread_start *)given;
    free(given);
    void *result = start.run(start.given);
    mark(ended);
    return result;
}

int pthread_create(unsigned long *thread, const void *how, body run, void *given) {
    void *const next = (void *)-1;
    create own = (create)dlsym(next, "pthread_create");
    thread_start *start = malloc(sizeof *start);
    if (!start) return TRY_AGAIN;
    start->run = run;
    start->given = given;
    mark(begun);
    int fault = own(thread, how, marked, start);
    if (fault) {
        free(start);
        mark(ended);
    }
    return fault;
}
