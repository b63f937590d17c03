// Measures variants of a thread that runs alone: prints for each the time stamps that an instance takes, the lower quartile of many
// samples. bench/measure-costs fills in what stands between @ signs.
#define _GNU_SOURCE
#include <stdint.h>
#include <stdio.h>
#include <stdlib.h>
#include <x86intrin.h>
static int less(const void *a, const void *b) { double x = *(double *)a, y = *(double *)b; return (x > y) - (x < y); }
static inline uint64_t tick(void) { uint32_t a; uint64_t t = __rdtscp(&a); _mm_lfence(); return t; }
enum { L = @L@, LINES = L | 1, N = 32, SAMPLES = 1500, V = @V@ };
static const uint32_t init_mem[L + 1] = { @INIT@ };
@BODIES@
static void (*const bodies[V])(char *, uint32_t *) = { @NAMES@ };
int main(void) {
    char *mem = aligned_alloc(4096, (N * LINES * 64 + 4095) / 4096 * 4096);
    static uint32_t regs[8];
    static double d[V][SAMPLES];
    for (int s = 0; s < SAMPLES; s++)
        for (int v = 0; v < V; v++)
            for (int warm = 0; warm < 2; warm++) {
                for (int i = 0; i < N; i++)
                    for (int x = 0; x < L; x++) *(volatile uint32_t *)(mem + (i * LINES + x) * 64) = init_mem[x];
                _mm_mfence();
                uint64_t t = tick();
                for (int i = 0; i < N; i++) bodies[v](mem + i * LINES * 64, regs);
                d[v][s] = (double)(tick() - t) / N;
            }
    for (int v = 0; v < V; v++) {
        qsort(d[v], SAMPLES, sizeof(double), less);
        printf("%.3f\n", d[v][SAMPLES / 4]);
    }
}
