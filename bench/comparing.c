/* A comparison of two dictionaries of a million equal values beside a plain C loop over the same rows, in one run. */
#define _POSIX_C_SOURCE 199309L
#include <stdbool.h>
#include <stdint.h>
#include <stdio.h>
#include <stdlib.h>
#include <string.h>
#include <time.h>

/* empty where both lengths are 0; what else it holds the library fills */
struct recording {
    const uint8_t *nodes;
    size_t node_bytes;
    const uint8_t *bytes;
    size_t count;
};

uint32_t timing_open_into(struct recording *recording, const uint8_t *nodes, size_t node_bytes, const uint8_t *bytes, size_t count);
uint32_t timing_update(const struct recording *recording, size_t kept, size_t new);

enum { ROWS = 1000000, STRING = 12, VALUE = 8, RUNS = 25, NONE = 0, REPLACED = 2 };

static double now(void) {
    struct timespec t;
    clock_gettime(CLOCK_MONOTONIC, &t);
    return t.tv_sec + t.tv_nsec * 1e-9;
}

/* the values of a dictionary: their bitmap or none, and their slots, which are values, or offsets of the strings in data */
struct list {
    const uint8_t *bits, *slots;
    uint8_t *data;
};

static bool is_valid(const struct list *a, size_t r) { return a->bits[r / 8] >> (r % 8) & 1; }

static bool same_string(const struct list *a, const struct list *b, size_t r) {
    uint32_t i[2], j[2];
    memcpy(i, a->slots + 4 * r, sizeof i);
    memcpy(j, b->slots + 4 * r, sizeof j);
    return i[1] - i[0] == j[1] - j[0] && !memcmp(a->data + i[0], b->data + j[0], i[1] - i[0]);
}

static bool same_value(const struct list *a, const struct list *b, size_t r) {
    return !memcmp(a->slots + VALUE * r, b->slots + VALUE * r, VALUE);
}

static bool same_strings(const struct list *a, const struct list *b) {
    for (size_t r = 0; r < ROWS; r++)
        if (!same_string(a, b, r)) return false;
    return true;
}

static bool same_values(const struct list *a, const struct list *b) {
    return !memcmp(a->slots, b->slots, (size_t)VALUE * ROWS);
}

#define VALID(NAME, SAME)                                                                   \
    /* the same of valid rows, and the same rows are valid */                               \
    static bool valid_##NAME(const struct list *a, const struct list *b) {                  \
        for (size_t r = 0; r < ROWS; r++) {                                                 \
            bool valid = is_valid(a, r);                                                    \
            if (valid != is_valid(b, r) || (valid && !SAME(a, b, r))) return false;         \
        }                                                                                   \
        return true;                                                                        \
    }

VALID(strings, same_string)
VALID(values, same_value)

struct shape {
    const char *name;
    bool strings, bitmap;
    bool (*same)(const struct list *, const struct list *);
};

static void node(uint8_t *at, const uint64_t n[10]) { memcpy(at, n, 80); }

/* a dictionary of one row and its values, in bytes from `at` on; its end is the next one's place */
static struct list dictionary(const struct shape *s, uint8_t *nodes, uint8_t *bytes, uint64_t *at) {
    uint64_t keys = *at, slots = keys + 8, data = slots + (s->strings ? 4 * (ROWS + 1) : 0);
    uint64_t extent = (uint64_t)ROWS * (s->strings ? STRING : VALUE), bits = data + extent;
    node(nodes, (uint64_t[10]){8, 0, 4, 1, 0, 0, keys, 0, 0, 2});
    node(nodes + 80, (uint64_t[10]){s->strings ? 3 : 2, 0, s->strings ? 0 : VALUE, ROWS, 0, s->bitmap ? bits + 1 : 0,
                                    slots, s->strings ? data : 0, s->strings ? extent : 0, 1});
    memset(bytes + keys, 0, 8);
    for (uint32_t k = 0; s->strings && k <= ROWS; k++) {
        uint32_t offset = STRING * k;
        memcpy(bytes + slots + 4 * (uint64_t)k, &offset, sizeof offset);
    }
    uint64_t x = 88172645463325252u;
    for (uint64_t k = 0; k < extent; k += 8) {
        x ^= x << 13, x ^= x >> 7, x ^= x << 17;
        memcpy(bytes + data + k, &x, sizeof x);
    }
    memset(bytes + bits, 0x7f, ROWS / 8);
    *at = bits + ROWS / 8;
    return (struct list){s->bitmap ? bytes + bits : NULL, bytes + slots, bytes + data};
}

static int measure(const struct shape *s, uint8_t *bytes) {
    uint8_t nodes[320];
    uint64_t end = 0, size = s->strings ? STRING : VALUE;
    struct list a = dictionary(s, nodes, bytes, &end), b = dictionary(s, nodes + 160, bytes, &end);
    for (size_t r = 7; s->bitmap && r < ROWS; r += 8)
        b.data[size * r] ^= 1; /* what lies under a null does not count */
    struct recording recording = {nodes, 0, bytes, 0};
    uint32_t refused = timing_open_into(&recording, nodes, sizeof nodes, bytes, end);
    if (refused) {
        fprintf(stderr, "%s: refused with %u\n", s->name, refused);
        return 1;
    }
    double ours = 1e9, theirs = 1e9;
    bool right = true;
    for (int run = 0; run < RUNS; run++) {
        double t = now();
        uint32_t update = timing_update(&recording, 0, 2);
        double d = now() - t;
        if (d < ours) ours = d;
        t = now();
        bool same = s->same(&a, &b);
        d = now() - t;
        if (d < theirs) theirs = d;
        right &= update == NONE && same;
    }
    b.data[size * (ROWS - s->bitmap) - 1] ^= 1; /* the last byte of the last row that is valid */
    right &= timing_update(&recording, 0, 2) == REPLACED && !s->same(&a, &b);
    if (!right) {
        fprintf(stderr, "%s: wrong answers\n", s->name);
        return 1;
    }
    printf("%-32s %7.1f %7.1f %7.2f\n", s->name, ROWS / ours * 1e-6, ROWS / theirs * 1e-6, theirs / ours);
    return 0;
}

int main(void) {
    static const struct shape shapes[] = {
        {"strings of 12 bytes", true, false, same_strings},
        {"strings of 12 bytes, bitmap", true, true, valid_strings},
        {"values of 8 bytes", false, false, same_values},
        {"values of 8 bytes, bitmap", false, true, valid_values},
    };
    uint8_t *bytes = malloc(64 << 20);
    if (!bytes) return 1;
    printf("%-32s %7s %7s %7s\n", "1,000,000 rows, 10^6 rows/s", "compare", "plain C", "ratio");
    int failed = 0;
    for (size_t k = 0; k < sizeof shapes / sizeof *shapes; k++)
        failed |= measure(&shapes[k], bytes);
    free(bytes);
    return failed;
}
