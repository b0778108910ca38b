/* Opening a recording of 64 MiB beside a plain C scan of the same bytes, in one run. */
#define _POSIX_C_SOURCE 199309L
#include <stdbool.h>
#include <stdint.h>
#include <stdio.h>
#include <stdlib.h>
#include <string.h>
#include <time.h>

uint32_t timing_open(const uint8_t *nodes, size_t node_bytes, const uint8_t *bytes, size_t count);

enum { SLOTS = 64 << 20, RUNS = 9 };

static double now(void) {
    struct timespec t;
    clock_gettime(CLOCK_MONOTONIC, &t);
    return t.tv_sec + t.tv_nsec * 1e-9;
}

/* no offset is negative, falls or passes `most` */
#define RISES(NAME, UNSIGNED, SIGNED)                                                                   \
    static bool rises_##NAME(const uint8_t *at, size_t rows, uint64_t most) {                           \
        bool ok = true;                                                                                 \
        for (size_t k = 0; k < rows; k++) {                                                             \
            UNSIGNED x, y;                                                                              \
            memcpy(&x, at + k * sizeof x, sizeof x);                                                    \
            memcpy(&y, at + (k + 1) * sizeof x, sizeof y);                                              \
            ok &= x <= y;                                                                               \
        }                                                                                               \
        SIGNED last;                                                                                    \
        memcpy(&last, at + rows * sizeof last, sizeof last);                                            \
        return ok && last >= 0 && (uint64_t)last <= most;                                               \
    }

RISES(32, uint32_t, int32_t)
RISES(64, uint64_t, int64_t)

#define KEYS(NAME, SIGNED)                                                                              \
    /* no key is negative or past the rows */                                                           \
    static bool keys_##NAME(const uint8_t *at, size_t rows, uint64_t below) {                           \
        bool ok = true;                                                                                 \
        for (size_t k = 0; k < rows; k++) {                                                             \
            SIGNED x;                                                                                   \
            memcpy(&x, at + k * sizeof x, sizeof x);                                                    \
            ok &= x >= 0 && (uint64_t)x < below;                                                        \
        }                                                                                               \
        return ok;                                                                                      \
    }                                                                                                   \
    /* the same of those whose bit is 1 */                                                              \
    static bool marked_##NAME(const uint8_t *at, const uint8_t *bits, size_t rows, uint64_t below) {    \
        bool ok = true;                                                                                 \
        for (size_t k = 0; k < rows; k++) {                                                             \
            SIGNED x;                                                                                   \
            memcpy(&x, at + k * sizeof x, sizeof x);                                                    \
            bool valid = bits[k / 8] >> (k % 8) & 1;                                                    \
            ok &= !valid || (x >= 0 && (uint64_t)x < below);                                            \
        }                                                                                               \
        return ok;                                                                                      \
    }

KEYS(8, int8_t)
KEYS(16, int16_t)
KEYS(32, int32_t)
KEYS(64, int64_t)

static bool scan_offsets(int width, const uint8_t *at, size_t rows, uint64_t most) {
    return width == 4 ? rises_32(at, rows, most) : rises_64(at, rows, most);
}

static bool scan_keys(int width, const uint8_t *at, const uint8_t *bits, size_t rows, uint64_t below) {
    switch (width) {
    case 1: return bits ? marked_8(at, bits, rows, below) : keys_8(at, rows, below);
    case 2: return bits ? marked_16(at, bits, rows, below) : keys_16(at, rows, below);
    case 4: return bits ? marked_32(at, bits, rows, below) : keys_32(at, rows, below);
    default: return bits ? marked_64(at, bits, rows, below) : keys_64(at, rows, below);
    }
}

struct shape {
    const char *name;
    int kind, width;
    bool bitmap;
};

static void node(uint8_t *at, const uint64_t n[10]) { memcpy(at, n, 80); }

static int measure(const struct shape *s, uint8_t *bytes) {
    bool offsets = s->kind == 3 || s->kind == 4;
    uint64_t rows = SLOTS / s->width - offsets, values = offsets ? 0 : 100;
    for (uint64_t k = 0; k < SLOTS / (uint64_t)s->width; k++) {
        uint64_t x = offsets ? k / 64 : k % 100;
        memcpy(bytes + k * s->width, &x, s->width);
    }
    uint64_t extent = offsets ? rows / 64 : 0, bits = SLOTS;
    for (uint64_t k = 0; k < rows / 8 + 1; k++)
        bytes[bits + k] = (uint8_t)(k * 37 + 1);
    size_t used = SLOTS + (s->bitmap ? (rows + 7) / 8 : 0);
    uint8_t nodes[160];
    node(nodes, (uint64_t[10]){s->kind, 0, offsets ? 0 : s->width, rows, 0, s->bitmap ? bits + 1 : 0, 0, 0, extent, offsets ? 1 : 2});
    node(nodes + 80, (uint64_t[10]){0, 0, 0, values, 0, 0, 0, 0, 0, 1});
    size_t node_bytes = offsets ? 80 : 160;

    double ours = 1e9, plain = 1e9;
    for (int run = 0; run < RUNS; run++) {
        double t = now();
        uint32_t refused = timing_open(nodes, node_bytes, bytes, used);
        double d = now() - t;
        if (d < ours) ours = d;
        t = now();
        bool ok = offsets ? scan_offsets(s->width, bytes, rows, extent)
                          : scan_keys(s->width, bytes, s->bitmap ? bytes + bits : NULL, rows, values);
        d = now() - t;
        if (d < plain) plain = d;
        if (refused || !ok) {
            fprintf(stderr, "%s: refused with %u, scan says %d\n", s->name, refused, ok);
            return 1;
        }
    }
    printf("%-28s %7.2f %7.2f %7.2f\n", s->name, used / ours * 1e-9, used / plain * 1e-9, plain / ours);
    return 0;
}

int main(void) {
    static const struct shape shapes[] = {
        {"offsets of 32 bits", 3, 4, false},    {"offsets of 64 bits", 4, 8, false},
        {"keys of 1 byte", 8, 1, false},        {"keys of 1 byte, bitmap", 8, 1, true},
        {"keys of 2 bytes", 8, 2, false},       {"keys of 2 bytes, bitmap", 8, 2, true},
        {"keys of 4 bytes", 8, 4, false},       {"keys of 4 bytes, bitmap", 8, 4, true},
        {"keys of 8 bytes", 8, 8, false},       {"keys of 8 bytes, bitmap", 8, 8, true},
    };
    uint8_t *bytes = malloc(2 * (size_t)SLOTS);
    if (!bytes) return 1;
    printf("%-28s %7s %7s %7s\n", "64 MiB of slots, GB/s", "opening", "plain C", "ratio");
    int failed = 0;
    for (size_t k = 0; k < sizeof shapes / sizeof *shapes; k++)
        failed |= measure(&shapes[k], bytes);
    free(bytes);
    return failed;
}
