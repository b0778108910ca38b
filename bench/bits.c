/* A count of the 0 bits of 64 MiB beside a plain C loop over words, in one run. */
#define _POSIX_C_SOURCE 199309L
#include <stdint.h>
#include <stdio.h>
#include <stdlib.h>
#include <string.h>
#include <time.h>

uint64_t timing_count_zeros(const uint8_t *bytes, size_t count, uint32_t first, uint32_t n);

enum { BYTES = 64 << 20, RUNS = 9 };

static double now(void) {
    struct timespec t;
    clock_gettime(CLOCK_MONOTONIC, &t);
    return t.tv_sec + t.tv_nsec * 1e-9;
}

static uint64_t zeros_by_bit(const uint8_t *bytes, uint64_t first, uint64_t n) {
    uint64_t zeros = 0;
    for (uint64_t k = first; k < first + n; k++)
        zeros += !(bytes[k / 8] >> (k % 8) & 1);
    return zeros;
}

/* bits up to a byte's edge, words of 64 bits, and the bits after them */
static uint64_t plain(const uint8_t *bytes, uint64_t first, uint64_t n) {
    uint64_t front = (8 - first % 8) % 8;
    if (front > n) front = n;
    uint64_t zeros = zeros_by_bit(bytes, first, front), words = (n - front) / 64;
    const uint8_t *at = bytes + (first + front) / 8;
    for (uint64_t k = 0; k < words; k++) {
        uint64_t x;
        memcpy(&x, at + 8 * k, sizeof x);
        zeros += 64 - __builtin_popcountll(x);
    }
    return zeros + zeros_by_bit(bytes, first + front + 64 * words, n - front - 64 * words);
}

static int measure(const char *name, const uint8_t *bytes, uint32_t first) {
    uint32_t n = 8u * BYTES - first;
    double ours = 1e9, theirs = 1e9;
    for (int run = 0; run < RUNS; run++) {
        double t = now();
        uint64_t counted = timing_count_zeros(bytes, BYTES, first, n);
        double d = now() - t;
        if (d < ours) ours = d;
        t = now();
        uint64_t expected = plain(bytes, first, n);
        d = now() - t;
        if (d < theirs) theirs = d;
        if (counted != expected) {
            fprintf(stderr, "%s: %llu counted, the loop says %llu\n", name, (unsigned long long)counted, (unsigned long long)expected);
            return 1;
        }
    }
    printf("%-28s %7.2f %7.2f %7.2f\n", name, BYTES / ours * 1e-9, BYTES / theirs * 1e-9, theirs / ours);
    return 0;
}

int main(void) {
    uint8_t *bytes = malloc(BYTES);
    if (!bytes) return 1;
    uint64_t x = 88172645463325252u;
    for (size_t k = 0; k < BYTES; k += 8) {
        x ^= x << 13, x ^= x >> 7, x ^= x << 17;
        memcpy(bytes + k, &x, sizeof x);
    }
    printf("%-28s %7s %7s %7s\n", "0 bits of 64 MiB, GB/s", "count", "plain C", "ratio");
    int failed = measure("from a byte's edge", bytes, 0);
    failed |= measure("from bit 3", bytes, 3);
    free(bytes);
    return failed;
}
