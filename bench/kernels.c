// The kernels as plain loops, for comparison: the same input, the same lines and the same answers as the program
// kt_kernels_bench. Two orders of the loops are known for the products: `mul` and `minplus` read b by columns,
// `mul_rows` and `minplus_rows` by rows.
#include <inttypes.h>
#include <stdio.h>
#include <string.h>
#include <time.h>

typedef uint64_t u64;

enum { SIDE = 64, ROOM = SIDE * SIDE };

static u64 a[ROOM], b[ROOM], out[ROOM];

__attribute__((noinline)) static void mul(size_t n, size_t p, size_t q, const u64 *restrict x, const u64 *restrict y, u64 *restrict z) {
    for (size_t i = 0; i < n; i++)
        for (size_t j = 0; j < q; j++) {
            u64 sum = 0;
            for (size_t k = 0; k < p; k++) sum += x[i * p + k] * y[k * q + j];
            z[i * q + j] = sum;
        }
}

__attribute__((noinline)) static void mul_rows(size_t n, size_t p, size_t q, const u64 *restrict x, const u64 *restrict y, u64 *restrict z) {
    for (size_t i = 0; i < n; i++) {
        for (size_t j = 0; j < q; j++) z[i * q + j] = 0;
        for (size_t k = 0; k < p; k++)
            for (size_t j = 0; j < q; j++) z[i * q + j] += x[i * p + k] * y[k * q + j];
    }
}

static u64 saturating_add(u64 x, u64 y) {
    u64 sum = x + y;
    return sum < x ? UINT64_MAX : sum;
}

__attribute__((noinline)) static void minplus(size_t n, size_t p, size_t q, const u64 *restrict x, const u64 *restrict y, u64 *restrict z) {
    for (size_t i = 0; i < n; i++)
        for (size_t j = 0; j < q; j++) {
            u64 least = UINT64_MAX;
            for (size_t k = 0; k < p; k++) {
                u64 sum = saturating_add(x[i * p + k], y[k * q + j]);
                if (sum < least) least = sum;
            }
            z[i * q + j] = least;
        }
}

__attribute__((noinline)) static void minplus_rows(size_t n, size_t p, size_t q, const u64 *restrict x, const u64 *restrict y, u64 *restrict z) {
    for (size_t i = 0; i < n; i++) {
        for (size_t j = 0; j < q; j++) z[i * q + j] = UINT64_MAX;
        for (size_t k = 0; k < p; k++)
            for (size_t j = 0; j < q; j++) {
                u64 sum = saturating_add(x[i * p + k], y[k * q + j]);
                if (sum < z[i * q + j]) z[i * q + j] = sum;
            }
    }
}

__attribute__((noinline)) static void stencil(u64 left, const u64 *restrict row, size_t n, u64 right, u64 *restrict z) {
    if (n == 0) return;
    if (n == 1) {
        z[0] = left + 2 * row[0] + right;
        return;
    }
    z[0] = left + 2 * row[0] + row[1];
    for (size_t i = 1; i + 1 < n; i++) z[i] = row[i - 1] + 2 * row[i] + row[i + 1];
    z[n - 1] = row[n - 2] + 2 * row[n - 1] + right;
}

__attribute__((noinline)) static void scan(u64 start, u64 *row, size_t n) {
    for (size_t i = 0; i < n; i++) {
        start += row[i];
        row[i] = start;
    }
}

static u64 now(void) {
    struct timespec t;
    clock_gettime(CLOCK_MONOTONIC, &t);
    return (u64)t.tv_sec * 1000000000u + (u64)t.tv_nsec;
}

static void fill(void) {
    for (u64 i = 0; i < ROOM; i++) {
        a[i] = i * UINT64_C(0x9E3779B97F4A7C15);
        b[i] = (i + 77) * UINT64_C(0xC2B2AE3D27D4EB4F) >> (i % 5 * 8);
        out[i] = 0;
    }
}

static int call(const char *kernel, size_t size) {
    if (strcmp(kernel, "mul") == 0) mul(size, size, size, a, b, out);
    else if (strcmp(kernel, "mul_rows") == 0) mul_rows(size, size, size, a, b, out);
    else if (strcmp(kernel, "minplus") == 0) minplus(size, size, size, a, b, out);
    else if (strcmp(kernel, "minplus_rows") == 0) minplus_rows(size, size, size, a, b, out);
    else if (strcmp(kernel, "stencil") == 0) stencil(b[0], a, size, b[1], out);
    else if (strcmp(kernel, "scan") == 0) return scan(1, a, size), 1;
    else return 0;
    a[0] ^= out[1];
    return 1;
}

int main(void) {
    char kernel[32], word[32];
    char line[256];
    size_t size;
    unsigned calls, runs;
    while (fgets(line, sizeof line, stdin)) {
        int words = sscanf(line, "%31s %zu %u %u %31s", kernel, &size, &calls, &runs, word);
        if (words < 4 || size > ROOM) return 1;
        fill();
        u64 fastest = UINT64_MAX;
        for (unsigned run = 0; run < runs; run++) {
            u64 start = now();
            for (unsigned c = 0; c < calls; c++)
                if (!call(kernel, size)) return 1;
            u64 time = now() - start;
            if (time < fastest) fastest = time;
        }
        u64 sum = 0;
        for (size_t i = 0; i < ROOM; i++) sum += strcmp(kernel, "scan") == 0 ? a[i] : out[i];
        printf("%s %zu %" PRIu64, kernel, size, sum);
        if (words == 5) printf(" %" PRIu64, fastest);
        printf("\n");
    }
    return 0;
}
