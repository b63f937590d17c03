// Measures in loops what fences, locked instructions and plain accesses take: the words of the program are two processors and the GHz
// of the time stamps.
#define _GNU_SOURCE
#include <pthread.h>
#include <sched.h>
#include <stdatomic.h>
#include <stdint.h>
#include <stdio.h>
#include <stdlib.h>
#include <string.h>
#include <x86intrin.h>
static int less(const void *a, const void *b) { double x = *(double *)a, y = *(double *)b; return (x > y) - (x < y); }
static inline uint64_t tick(void) { uint32_t a; uint64_t t = __rdtscp(&a); _mm_lfence(); return t; }
enum { ITERATIONS = 500, SAMPLES = 4000 };
static char *shared;
static _Alignas(128) atomic_int ready;
static struct { _Alignas(128) atomic_int n; } samples[2];  // how many each thread has taken
struct job { int id, threads, cpu, kind, alone, kept; double median, low; char pad[256]; };
#define LOOP(code) for (int i = 0; i < ITERATIONS; i++) __asm__ volatile(code : : "r"(x), "r"(y), "r"(z) : "eax", "memory", "cc")
static void *run(void *arg) {
    struct job *j = arg;
    cpu_set_t set;
    CPU_ZERO(&set);
    CPU_SET(j->cpu, &set);
    sched_setaffinity(0, sizeof set, &set);
    static char own[64][1024] __attribute__((aligned(4096)));
    // alone 1: three lines of this thread. alone 0: two threads store to each other's loaded line.
    char *x = j->alone ? own[j->cpu % 64] : shared + 128 * j->id;
    char *y = j->alone ? x + 128 : shared + 128 * (1 - j->id), *z = own[j->cpu % 64] + 512;
    double *d = calloc(SAMPLES + 1, sizeof *d);
    atomic_fetch_add(&ready, 1);
    while (atomic_load(&ready) < j->threads) sched_yield();
    // Of two threads a sample counts only if the other took one meanwhile (others may use its processor).
    int s = 0;
    for (int all = 0; s < SAMPLES && all < 20 * SAMPLES && atomic_load(&ready) == j->threads; all++) {
        int before = atomic_load(&samples[1 - j->id].n);
        uint64_t t = tick();
        switch (j->kind) {
        case 0: LOOP("addl $1, %%eax"); break;  // one core cycle each
        case 1: LOOP("movl $1, (%0)\n\tmovl (%1), %%eax"); break;
        case 2: LOOP("movl $1, (%0)\n\tmfence\n\tmovl (%1), %%eax"); break;
        case 3: LOOP("movl $1, %%eax\n\txchgl %%eax, (%0)\n\tmovl (%1), %%eax"); break;
        case 4: LOOP("movl $1, (%0)\n\tlock addl $0, (%2)\n\tmovl (%1), %%eax"); break;
        case 5: LOOP("mfence"); break;
        case 6: LOOP("movl (%1), %%eax\n\tmfence\n\tmovl (%1), %%eax"); break;
        }
        d[s] = (double)(tick() - t) / ITERATIONS;
        atomic_fetch_add(&samples[j->id].n, 1);
        s += j->threads == 1 || atomic_load(&samples[1 - j->id].n) != before;
    }
    atomic_fetch_add(&ready, 100);  // the first to end ends the other too
    qsort(d, s, sizeof *d, less);
    j->median = d[s / 2];
    j->low = d[s / 20];
    j->kept = s;
    free(d);
    return NULL;
}
int main(int argc, char **argv) {
    static const char *names[] = { "addl (1 cycle)", "store, load", "store, MFENCE, load", "XCHG, load", "store, LOCK ADD, load",
        "MFENCE alone", "load, MFENCE, load" };
    shared = aligned_alloc(4096, 4096);
    memset(shared, 0, 4096);
    double ghz = atof(argv[3]), core = 1;
    for (int mode = 0; mode < 3; mode++) {
        printf("%s\n", mode == 0 ? "one thread" : mode == 1 ? "two threads, lines of their own" : "two threads, each stores to the line that the other loads");
        for (int k = 0; k < 7; k++) {
            static struct job j[2];
            pthread_t p[2];
            for (int t = 0; t < 2; t++) j[t] = (struct job){ .id = t, .threads = mode ? 2 : 1, .cpu = atoi(argv[1 + t]), .kind = k, .alone = mode < 2 };
            int n = mode == 0 ? 1 : 2;
            atomic_store(&ready, 0);
            for (int t = 0; t < n; t++) pthread_create(&p[t], NULL, run, &j[t]);
            for (int t = 0; t < n; t++) pthread_join(p[t], NULL);
            if (k == 0) core = j[0].low;
            printf("  %-24s", names[k]);
            for (int t = 0; t < n; t++)
                printf("  %7.2f ns %7.1f cycles (lowest twentieth %7.2f ns %7.1f; %d samples)", j[t].median / ghz, j[t].median / core, j[t].low / ghz, j[t].low / core, j[t].kept);
            printf("\n");
        }
    }
}
