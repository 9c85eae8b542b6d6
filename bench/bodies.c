// The work of the jobs of bodies.py as a C program does it: prints the seconds of each.
#include <stdint.h>
#include <stdio.h>
#include <time.h>

static double now(void) {
    struct timespec t;
    clock_gettime(CLOCK_MONOTONIC, &t);
    return t.tv_sec + t.tv_nsec * 1e-9;
}

// Volatile, so that each step is done.
static volatile uint64_t sum;

static double count(uint64_t turns) {
    double start = now();
    for (uint64_t i = 0; i < turns; i++) sum = sum + i;
    return now() - start;
}

static volatile uint64_t a[4096], b[4096], c[4096];

static double product(uint64_t n) {
    double start = now();
    for (uint64_t i = 0; i < n; i++)
        for (uint64_t j = 0; j < n; j++) {
            sum = 0;
            for (uint64_t k = 0; k < n; k++) sum = sum + a[i * n + k] * b[k * n + j];
            c[i * n + j] += sum;
        }
    return now() - start;
}

static void nothing(void) { __asm__ volatile(""); }

static double tasks(uint64_t count) {
    double start = now();
    for (uint64_t i = 0; i < count; i++) nothing();
    return now() - start;
}

int main(void) {
    printf("%.6f %.6f %.6f\n", count(2000000), product(64), tasks(16383));
    return 0;
}
