// The generated jobs with OpenMP: the same tiles of the same numbers, a task for each kernel and each loop, ordered by `depend`. Prints the seconds from
// the first task to the end of the last one, and the line of totals.
//     peers mul | walks | stencil | scan SIZE NUMBER      (threads by OMP_NUM_THREADS)
#include <inttypes.h>
#include <stdint.h>
#include <stdio.h>
#include <stdlib.h>
#include <string.h>
#include <time.h>

typedef uint64_t u64;

enum { SIDE = 16, CELLS = SIDE * SIDE };

typedef u64 tile[CELLS];
typedef u64 row[SIDE];

static u64 number;
static u64 tasks = 1, indexes = 0;

static double now(void) {
    struct timespec t;
    clock_gettime(CLOCK_MONOTONIC, &t);
    return t.tv_sec + t.tv_nsec * 1e-9;
}

static u64 drawn(u64 k) { return (k * k + number * k + number) % 1009; }

static void *room(size_t count, size_t bytes) {
    void *found = calloc(count, bytes);
    if (!found) exit(1);
    return found;
}

static u64 sum_of(const u64 *cells, size_t count) {
    u64 sum = 0;
    for (size_t i = 0; i < count; i++) sum += cells[i];
    return sum;
}

// The products go by rows of `b`, which was the faster order of these loops.
static void multiply(const u64 *restrict a, const u64 *restrict b, u64 *restrict c) {
    for (int i = 0; i < SIDE; i++)
        for (int k = 0; k < SIDE; k++)
            for (int j = 0; j < SIDE; j++) c[i * SIDE + j] += a[i * SIDE + k] * b[k * SIDE + j];
}

static void shorten(const u64 *restrict a, const u64 *restrict b, u64 *restrict c) {
    for (int i = 0; i < SIDE; i++)
        for (int k = 0; k < SIDE; k++)
            for (int j = 0; j < SIDE; j++) {
                u64 walk = a[i * SIDE + k] + b[k * SIDE + j];
                if (walk < b[k * SIDE + j]) walk = UINT64_MAX;
                if (walk < c[i * SIDE + j]) c[i * SIDE + j] = walk;
            }
}

static void copy(const u64 *restrict a, u64 *restrict b) { memcpy(b, a, sizeof(tile)); }

static void smooth(const u64 *restrict l, const u64 *restrict a, const u64 *restrict r, u64 *restrict b) {
    b[0] = l[SIDE - 1] + 2 * a[0] + a[1];
    for (int i = 1; i + 1 < SIDE; i++) b[i] = a[i - 1] + 2 * a[i] + a[i + 1];
    b[SIDE - 1] = a[SIDE - 2] + 2 * a[SIDE - 1] + r[0];
}

// What one row adds to the sums of those behind it.
static void add_on(u64 t, u64 size, const u64 *a, u64 *sums) {
    for (int i = 0; i < SIDE; i++)
        for (u64 u = t + 1; u < size; u++) __atomic_fetch_add(&sums[u], a[i], __ATOMIC_SEQ_CST);
}

static void scan(u64 sum, u64 *a) {
    for (int i = 0; i < SIDE; i++) a[i] = sum += a[i];
}

static tile *a, *b, *c;
static u64 *sums;
static row *from, *to;

static void draw_mul(u64 size) {
    u64 q = size * size;
    a = room(q, sizeof(tile)), b = room(q, sizeof(tile)), c = room(q, sizeof(tile));
    for (u64 t = 0; t < q; t++)
        for (u64 e = 0; e < CELLS; e++) a[t][e] = drawn(CELLS * t + e), b[t][e] = drawn(CELLS * q + CELLS * t + e);
}

static void draw_walks(u64 size) {
    u64 q = size * size;
    a = room(q, sizeof(tile)), b = room(q, sizeof(tile));
    for (u64 t = 0; t < q; t++)
        for (u64 e = 0; e < CELLS; e++) {
            u64 u = SIDE * (t / size) + e / SIDE, v = SIDE * (t % size) + e % SIDE;
            u64 length = drawn(SIDE * size * u + v);
            a[t][e] = u == v ? 0 : length % 4 == 0 ? UINT64_MAX : length;
        }
}

static void draw_stencil(u64 size) {
    from = room(size + 2, sizeof(row)), to = room(size + 2, sizeof(row));
    for (u64 j = 1; j <= size; j++)
        for (u64 e = 0; e < SIDE; e++) from[j][e] = drawn(SIDE * (j - 1) + e);
}

static void draw_scan(u64 size) {
    from = room(size, sizeof(row)), sums = room(size, sizeof(u64));
    for (u64 t = 0; t < size; t++)
        for (u64 e = 0; e < SIDE; e++) from[t][e] = drawn(SIDE * t + e);
}

static void run_mul(u64 size) {
    for (u64 i = 0; i < size; i++)
        for (u64 j = 0; j < size; j++)
            for (u64 k = 0; k < size; k++) {
                u64 *x = a[i * size + k], *y = b[k * size + j], *z = c[i * size + j];
                tasks++;
#pragma omp task depend(in : x[0], y[0]) depend(inout : z[0])
                multiply(x, y, z);
            }
}

static void half_round(u64 size, tile *old, tile *new) {
    for (u64 t = 0; t < size * size; t++) {
        u64 *x = old[t], *y = new[t];
        tasks++;
#pragma omp task depend(in : x[0]) depend(out : y[0])
        copy(x, y);
    }
    for (u64 i = 0; i < size; i++)
        for (u64 j = 0; j < size; j++)
            for (u64 k = 0; k < size; k++) {
                u64 *x = old[i * size + k], *y = old[k * size + j], *z = new[i * size + j];
                tasks++;
#pragma omp task depend(in : x[0], y[0]) depend(inout : z[0])
                shorten(x, y, z);
            }
}

static void run_walks(u64 size) {
    u64 rounds = 1;
    while ((1u << 2 * rounds) < 16 * size) rounds++;
    for (u64 h = 0; h < rounds; h++) {
        half_round(size, a, b);
        half_round(size, b, a);
    }
}

static void half_turn(u64 size, row *old, row *new) {
    for (u64 j = 1; j <= size; j++) {
        u64 *l = old[j - 1], *x = old[j], *r = old[j + 1], *y = new[j];
        tasks++;
#pragma omp task depend(in : l[0], x[0], r[0]) depend(out : y[0])
        smooth(l, x, r, y);
    }
}

static void run_stencil(u64 size) {
    for (int h = 0; h < 2; h++) {
        half_turn(size, from, to);
        half_turn(size, to, from);
    }
}

// Those that add to the sums do so side by side, and all others wait for them.
static void run_scan(u64 size) {
    for (u64 t = 0; t < size; t++) {
        u64 *x = from[t];
        tasks++, indexes += SIDE;
#pragma omp task
        add_on(t, size, x, sums);
    }
#pragma omp taskwait
    for (u64 t = 0; t < size; t++) {
        u64 *x = from[t];
        tasks++;
#pragma omp task
        scan(sums[t], x);
    }
}

typedef struct {
    const char *kind;
    void (*draw)(u64), (*run)(u64);
} job;

static const job jobs[] = {{"mul", draw_mul, run_mul}, {"walks", draw_walks, run_walks}, {"stencil", draw_stencil, run_stencil}, {"scan", draw_scan, run_scan}};

static const job *job_of(const char *kind) {
    for (int i = 0; i < 4; i++)
        if (!strcmp(jobs[i].kind, kind)) return &jobs[i];
    exit(2);
}

int main(int count, char **words) {
    if (count != 4) return 2;
    const job *job = job_of(words[1]);
    u64 size = strtoull(words[2], NULL, 10);
    number = strtoull(words[3], NULL, 10) % 1009;
    job->draw(size);
    double start = now();
#pragma omp parallel
#pragma omp single
    job->run(size);
    double took = now() - start;
    u64 cells = size * size * CELLS;
    u64 sum = c ? sum_of(c[0], cells) : a ? sum_of(a[0], cells) : sum_of(from[0], (sums ? size : size + 2) * SIDE);
    printf("%.6f\ntasks %" PRIu64 " indexes %" PRIu64 " sum %" PRIu64 "\n", took, tasks, indexes, sum);
    return 0;
}
