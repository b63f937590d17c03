// Runs a litmus test in many instances, and prints each final outcome after the number of instances that ended so: the words of the
// program are SECONDS, the number of threads that disturb, and the processors that may be used. bench/processor.py fills in what stands
// between @ signs.
//
// An instance has a cache line of its own for each location. There is an odd number of lines, so that two locations lie in the same pair
// of lines, which the processor may fetch together, in every second instance only.
//
// What is random, and how often:
//   a round, 16 batches      which processor runs which thread
//   a batch, 2048 instances  how threads are synchronized, the longest delay, what is touched before, how many stores come before,
//                            whether there are pauses
//   an instance              each thread's delay, which lines it touches before, where it pauses
#define _GNU_SOURCE
#include <pthread.h>
#include <sched.h>
#include <stdatomic.h>
#include <stdint.h>
#include <stdio.h>
#include <stdlib.h>
#include <string.h>
#include <time.h>
#include <x86intrin.h>

enum { T = @T@, L = @L@, K = @K@, V = @V@, BATCH = 2048, ROUND = 16, LINES = L | 1, JUNK = 16, TABLE = 1 << 16 };
static const uint32_t init_mem[L + 1] = { @INIT@ };

// ---- The test: each thread's code is one asm block; `m` is the instance, `r` takes its registers.
// Variant 0 is the code as it is, variant k has a PAUSE, which only takes time, before instruction k.
@BODIES@
static void (*const bodies[T][V])(char *, uint32_t *) = { @NAMES@ };
static const uint32_t variants[T] = { @VARIANTS@ };
static const int regs_of[T] = { @COUNTS@ };

// ---- Memory shared by the threads.
static char *mem;                 // BATCH instances of LINES cache lines
static char *junk;                // lines for the earlier stores, which nobody loads
static uint32_t *regs[T];         // each thread's registers, BATCH times
static _Alignas(128) atomic_ulong arrived;
static _Alignas(128) _Atomic uint64_t start_at;
static _Alignas(128) volatile struct {
    int sync, touch, junk, pause, stop, cpu[T];
    uint32_t delay;
} plan;  // written by thread 0 before a barrier; volatile, since gcc 12 moves loads of it over that barrier
static _Alignas(128) atomic_int done;
static int cpus[1024], n_cpus, stress;
static double seconds;

static char *word(int i, int x) { return mem + ((size_t)i * LINES + x) * 64; }

// ---- Histogram: an open table for each thread.
struct entry { uint64_t n; uint32_t v[K + 1]; };
static struct entry *tables[T];

static void count(struct entry *table, const uint32_t *v, uint64_t n) {
    uint64_t h = 1469598103934665603u;
    for (int k = 0; k < K; k++) h = (h ^ v[k]) * 1099511628211u;
    for (uint32_t tries = 0, at = (h ^ h >> 29) % TABLE; tries < TABLE; tries++, at = (at + 1) % TABLE) {
        if (table[at].n && memcmp(table[at].v, v, K * 4)) continue;
        memcpy(table[at].v, v, K * 4);
        table[at].n += n;
        return;
    }
    fprintf(stderr, "too many outcomes\n");
    exit(1);
}

// ---- Threads.
struct self { int id; unsigned long turn; uint64_t last, rng; };

static uint32_t rnd(uint64_t *s) {  // xorshift*
    *s ^= *s >> 12; *s ^= *s << 25; *s ^= *s >> 27;
    return *s * 2685821657736338717u >> 32;
}
// Whoever waits long sleeps: the other thread was put off its processor, and a thread that sleeps and
// wakes gets its processor back at once where one that spins on would have used up its share by then.
static void spin(int *n) {
    if (T > n_cpus) { if (++*n > 50) { *n = 0; sched_yield(); } }
    else if (++*n > 4000) { *n = 0; nanosleep(&(struct timespec){ .tv_nsec = 20000 }, NULL); }
}
static void barrier(struct self *s) {
    int n = 0;
    s->turn += T;
    atomic_fetch_add(&arrived, 1);
    while (atomic_load_explicit(&arrived, memory_order_acquire) < s->turn) spin(&n);
}
// All threads wait for the same time stamp, which thread 0 sets when all have arrived, and then each
// for its own delay.
static void timebase(struct self *s, uint32_t delay) {
    int n = 0;
    uint64_t t;
    s->turn += T;
    atomic_fetch_add(&arrived, 1);
    if (s->id == 0) {
        while (atomic_load_explicit(&arrived, memory_order_acquire) < s->turn) spin(&n);
        atomic_store_explicit(&start_at, t = __rdtsc() + 400, memory_order_release);
    } else {
        while ((t = atomic_load_explicit(&start_at, memory_order_acquire)) == s->last) spin(&n);
    }
    s->last = t;
    while (__rdtsc() < t + delay) {}
}
static void settle(int cpu) {
    cpu_set_t set;
    CPU_ZERO(&set);
    CPU_SET(cpu, &set);
    sched_setaffinity(0, sizeof set, &set);
}
static double now(void) {
    struct timespec t;
    clock_gettime(CLOCK_MONOTONIC, &t);
    return t.tv_sec + t.tv_nsec * 1e-9;
}
static void choose(uint64_t *rng, int batch) {
    static const uint32_t delays[] = { 0, 31, 127, 255, 511, 1023 };
    uint32_t a = rnd(rng) % 10;
    plan.sync = T > n_cpus ? 2 : a < 6 ? 0 : a < 9 ? 1 : 2;  // time stamp, barrier, none
    plan.delay = delays[rnd(rng) % 6];
    plan.touch = rnd(rng) % 4;  // nothing; all lines; lines at random; and flush lines at random
    plan.junk = rnd(rng) % 2 ? 0 : rnd(rng) % JUNK;
    plan.pause = rnd(rng) % 3 == 0;
    if (batch % ROUND == 0) {
        int order[1024];
        for (int i = 0; i < n_cpus; i++) order[i] = cpus[i];
        for (int i = 0; i < n_cpus; i++) {
            int j = i + rnd(rng) % (n_cpus - i), c = order[i];
            order[i] = order[j];
            order[j] = c;
        }
        for (int t = 0; t < T; t++) plan.cpu[t] = order[t % n_cpus];
    }
}
static void *run(void *arg) {
    struct self s = { .id = (int)(intptr_t)arg };
    s.rng = __rdtsc() * 2654435761u + 88172645463325252u * (s.id + 1);
    const int R = regs_of[s.id];
    struct entry *table = tables[s.id];
    double end = now() + seconds;
    for (int batch = 0;; batch++) {
        if (s.id == 0) {
            choose(&s.rng, batch);
            plan.stop = now() >= end;
        }
        for (int i = s.id; i < BATCH; i += T)  // each thread makes its share of the instances
            for (int x = 0; x < L; x++) *(uint32_t *)word(i, x) = init_mem[x];
        barrier(&s);
        if (plan.stop) break;
        if (batch % ROUND == 0) {
            settle(plan.cpu[s.id]);
            barrier(&s);
        }
        const int sync = plan.sync, touch = plan.touch, earlier = plan.junk, pause = plan.pause;
        const uint32_t mask = plan.delay;
        for (int i = 0; i < BATCH; i++) {
            if (touch) {
                uint32_t bits = touch == 1 ? 0 : rnd(&s.rng);
                for (int x = 0; x < L; x++, bits >>= 2) {
                    if (touch == 3 && (bits & 3) == 3) _mm_clflush(word(i, x));
                    else if (!(bits & 1)) (void)*(volatile uint32_t *)word(i, x);
                }
            }
            uint32_t delay = rnd(&s.rng) & mask, v = pause ? rnd(&s.rng) % variants[s.id] : 0;
            if (sync == 0) timebase(&s, delay);
            else {
                if (sync == 1) barrier(&s);
                for (; delay; delay--) __asm__ volatile("");
            }
            for (int k = 0; k < earlier; k++) *(volatile uint32_t *)(junk + (i + k) % JUNK * 64) = i;
            bodies[s.id][v](word(i, 0), regs[s.id] + (size_t)i * R);
        }
        barrier(&s);
        for (int i = s.id; i < BATCH; i += T) {
            uint32_t v[K + 1];
            int k = 0;
            for (int t = 0; t < T; t++)
                for (int r = 0; r < regs_of[t]; r++) v[k++] = regs[t][(size_t)i * regs_of[t] + r];
            for (int x = 0; x < L; x++) v[k++] = *(volatile uint32_t *)word(i, x);
            count(table, v, 1);
        }
        barrier(&s);
    }
    return NULL;
}
// Stress: loads and stores beside the locations, in the same cache lines.
static void *disturb(void *arg) {
    uint64_t rng = 777767777u + 1000003u * (uintptr_t)arg;
    cpu_set_t set;
    CPU_ZERO(&set);
    for (int i = 0; i < n_cpus; i++) CPU_SET(cpus[i], &set);
    sched_setaffinity(0, sizeof set, &set);
    while (!atomic_load_explicit(&done, memory_order_relaxed)) {
        volatile uint32_t *beside = (volatile uint32_t *)(mem + rnd(&rng) % ((uint32_t)BATCH * LINES) * 64 + 32);
        if (rnd(&rng) & 1) ++*beside; else (void)*beside;
    }
    return NULL;
}
static void *lines(size_t n) {
    void *p = aligned_alloc(4096, (n * 64 + 4095) / 4096 * 4096);
    if (!p) { fprintf(stderr, "out of memory\n"); exit(1); }
    memset(p, 0, n * 64);
    return p;
}
int main(int argc, char **argv) {  // SECONDS STRESS CPU..
    seconds = atof(argv[1]);
    stress = atoi(argv[2]);
    for (int i = 3; i < argc && n_cpus < 1024; i++) cpus[n_cpus++] = atoi(argv[i]);
    mem = lines((size_t)BATCH * LINES);
    junk = lines(JUNK);
    for (int t = 0; t < T; t++) {
        regs[t] = lines((size_t)BATCH * (regs_of[t] + 1) * 4 / 64 + 1);
        tables[t] = calloc(TABLE, sizeof(struct entry));
        if (!tables[t]) { fprintf(stderr, "out of memory\n"); return 1; }
    }
    pthread_t threads[T], others[64];
    for (int i = 0; i < stress; i++) pthread_create(&others[i], NULL, disturb, (void *)(intptr_t)i);
    for (int t = 0; t < T; t++) pthread_create(&threads[t], NULL, run, (void *)(intptr_t)t);
    for (int t = 0; t < T; t++) pthread_join(threads[t], NULL);
    atomic_store(&done, 1);
    for (int i = 0; i < stress; i++) pthread_join(others[i], NULL);
    for (int t = 1; t < T; t++)
        for (int i = 0; i < TABLE; i++)
            if (tables[t][i].n) count(tables[0], tables[t][i].v, tables[t][i].n);
    for (int i = 0; i < TABLE; i++) {
        if (!tables[0][i].n) continue;
        printf("%llu", (unsigned long long)tables[0][i].n);
        for (int k = 0; k < K; k++) printf(" %u", tables[0][i].v[k]);
        printf("\n");
    }
    return 0;
}
