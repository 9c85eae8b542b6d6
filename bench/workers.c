// The tasks of the jobs of workers.py with OpenMP: prints the seconds of the work and the sum of what it computed.
//     workers flat | tree | product | indexes | steps    (threads by OMP_NUM_THREADS)
#include <stdint.h>
#include <stdio.h>
#include <stdlib.h>
#include <string.h>
#include <time.h>

enum { TASKS = 16382, LEVELS = 13, TILES = 8, SIDE = 24, CELLS = SIDE * SIDE, INDEXES = 4096, TURNS = 500 };

static uint64_t a[TILES * TILES][CELLS], b[TILES * TILES][CELLS], c[TILES * TILES][CELLS];

static uint64_t folded;

static double now(void) {
    struct timespec t;
    clock_gettime(CLOCK_MONOTONIC, &t);
    return t.tv_sec + t.tv_nsec * 1e-9;
}

static void nothing(void) { __asm__ volatile(""); }

static void flat(void) {
    for (int i = 0; i < TASKS; i++) {
#pragma omp task
        nothing();
    }
}

static void tree(int levels) {
    if (levels == 0) return;
    for (int i = 0; i < 2; i++) {
#pragma omp task
        tree(levels - 1);
    }
}

static void multiply(const uint64_t *p, const uint64_t *q, uint64_t *t) {
    for (int i = 0; i < SIDE; i++)
        for (int j = 0; j < SIDE; j++) {
            uint64_t sum = 0;
            for (int k = 0; k < SIDE; k++) sum += p[i * SIDE + k] * q[k * SIDE + j];
            t[i * SIDE + j] += sum;
        }
}

static void product(void) {
    for (int i = 0; i < TILES; i++)
        for (int j = 0; j < TILES; j++)
            for (int k = 0; k < TILES; k++) {
                const uint64_t *p = a[i * TILES + k], *q = b[k * TILES + j];
                uint64_t *t = c[i * TILES + j];
#pragma omp task depend(in : p[0], q[0]) depend(inout : t[0])
                multiply(p, q, t);
            }
}

// Each index by itself, in the order in which threads come for them.
static void indexes(int turns) {
#pragma omp parallel for schedule(dynamic, 16)
    for (int i = 0; i < INDEXES; i++) {
        uint64_t x = i;
        for (int k = 0; k < turns; k++) {
            x = x * 3 + k;
            __asm__ volatile("" : "+r"(x));
        }
        if (turns == 0) nothing();
        if (turns != 0) __atomic_fetch_add(&folded, x, __ATOMIC_SEQ_CST);
    }
}

int main(int count, char **words) {
    if (count != 2) return 2;
    for (int tile = 0; tile < TILES * TILES; tile++)
        for (int cell = 0; cell < CELLS; cell++) {
            a[tile][cell] = (tile * 31 + cell * 7 + 3) % 101;
            b[tile][cell] = (tile * 17 + cell * 5 + 1) % 103;
        }
    // The threads are started before the clock is.
#pragma omp parallel
    nothing();
    double start = now();
    if (!strcmp(words[1], "indexes")) indexes(0);
    if (!strcmp(words[1], "steps")) indexes(TURNS);
#pragma omp parallel
#pragma omp single
    {
        if (!strcmp(words[1], "flat")) flat();
        if (!strcmp(words[1], "tree")) tree(LEVELS);
        if (!strcmp(words[1], "product")) product();
    }
    double took = now() - start;
    uint64_t sum = folded;
    for (int tile = 0; tile < TILES * TILES; tile++)
        for (int cell = 0; cell < CELLS; cell++) sum += c[tile][cell];
    printf("%.6f %llu\n", took, (unsigned long long)sum);
    return 0;
}
