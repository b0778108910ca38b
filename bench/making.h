/* Recordings for bench/planning.c and bench/framing.c: columns that are made, with the records and the body that a message of
   them is to have. */
#define _POSIX_C_SOURCE 199309L
#include <stdbool.h>
#include <stdint.h>
#include <stdio.h>
#include <stdlib.h>
#include <string.h>
#include <time.h>

/* empty where both lengths are 0; what else it holds the library fills */
struct recording {
    const uint8_t *nodes;
    size_t node_bytes;
    const uint8_t *bytes;
    size_t count;
};

uint32_t timing_open_into(struct recording *recording, const uint8_t *nodes, size_t node_bytes, const uint8_t *bytes, size_t count);
uint64_t timing_plan(const struct recording *recording, const uint8_t *bytes, size_t count, size_t node, uint64_t rows,
                     uint8_t *work, size_t work_bytes, uint8_t *metadata, size_t metadata_bytes, uint8_t *out, size_t out_bytes);

enum { MILLION = 1000000, VALUE = 8, STRING = 8, FIRST_BYTE = 5, FIRST_BIT = 3, LIST = 4, ALIGNMENT = 64, RUNS = 25 };
enum { NODES = 8, BYTES = 64 << 20, METADATA = 65536, AFTER = 100 };

static double now(void) {
    struct timespec t;
    clock_gettime(CLOCK_MONOTONIC, &t);
    return t.tv_sec + t.tv_nsec * 1e-9;
}

static uint64_t random_word(void) {
    static uint64_t x = 88172645463325252u;
    x ^= x << 13, x ^= x >> 7, x ^= x << 17;
    return x;
}

/* a recording that is made, and the records and the body that a message of it is to have */
struct making {
    uint64_t nodes[NODES][10];
    size_t node_count;
    uint8_t *bytes, *body;
    size_t count, length;
    uint64_t fields[NODES][2]; /* rows, nulls */
    size_t field_count;
    uint64_t buffers[3 * NODES][2]; /* offset, length */
    size_t buffer_count;
};

static void clear(struct making *m) { m->node_count = m->count = m->length = m->field_count = m->buffer_count = 0; }

static uint8_t *reserve(struct making *m, size_t count) {
    uint8_t *at = m->bytes + m->count;
    m->count += (count + 7) / 8 * 8;
    return at;
}

static uint8_t *fill(struct making *m, size_t count) {
    uint8_t *at = reserve(m, count);
    for (size_t k = 0; k < count; k += 8) {
        uint64_t x = random_word();
        memcpy(at + k, &x, sizeof x);
    }
    return at;
}

static size_t padded(size_t count) { return (count + ALIGNMENT - 1) / ALIGNMENT * ALIGNMENT; }

/* a buffer of zeros in the body, with its padding */
static uint8_t *buffer(struct making *m, size_t count) {
    uint8_t *at = m->body + m->length;
    uint64_t *record = m->buffers[m->buffer_count++];
    record[0] = m->length, record[1] = count;
    memset(at, 0, padded(count));
    m->length += padded(count);
    return at;
}

static void field(struct making *m, size_t rows, size_t nulls) {
    uint64_t *record = m->fields[m->field_count++];
    record[0] = rows, record[1] = nulls;
}

/* a field without nulls, whose bitmap is an empty buffer */
static void full(struct making *m, size_t rows) { field(m, rows, 0), buffer(m, 0); }

/* kind, mark, size, rows, from, bitmap, slots, data, extent, span */
static void node(struct making *m, const uint64_t n[10]) { memcpy(m->nodes[m->node_count++], n, 80); }

/* ---- columns, of which the body has the rows from `skip` on */

static void values(struct making *m, size_t skip, size_t rows) {
    const uint8_t *slots = fill(m, VALUE * (skip + rows));
    node(m, (uint64_t[10]){2, 0, VALUE, skip + rows, 0, 0, slots - m->bytes, 0, 0, 1});
    full(m, rows);
    memcpy(buffer(m, VALUE * rows), slots + VALUE * skip, VALUE * rows);
}

/* offsets of so many bytes or elements a row, from `first` on */
static const uint8_t *offsets(struct making *m, size_t skip, size_t rows, uint32_t first, uint32_t each) {
    full(m, rows);
    uint8_t *slots = reserve(m, 4 * (skip + rows + 1)), *sent = buffer(m, 4 * (rows + 1));
    for (size_t r = 0; r <= skip + rows; r++) {
        uint32_t offset = first + each * r;
        memcpy(slots + 4 * r, &offset, sizeof offset);
    }
    for (size_t r = 0; r <= rows; r++) {
        uint32_t offset = each * r;
        memcpy(sent + 4 * r, &offset, sizeof offset);
    }
    return slots;
}

static void strings(struct making *m, size_t skip, size_t rows) {
    const uint8_t *slots = offsets(m, skip, rows, FIRST_BYTE, STRING);
    size_t extent = FIRST_BYTE + STRING * (skip + rows);
    const uint8_t *data = fill(m, extent);
    node(m, (uint64_t[10]){3, 0, 0, skip + rows, 0, 0, slots - m->bytes, data - m->bytes, extent, 1});
    memcpy(buffer(m, STRING * rows), data + FIRST_BYTE + STRING * skip, STRING * rows);
}

static bool bit(const uint8_t *bits, size_t k) { return bits[k / 8] >> (k % 8) & 1; }

static const uint8_t *bits(struct making *m, size_t first, size_t rows) {
    const uint8_t *from = fill(m, (first + rows + 7) / 8);
    uint8_t *sent = buffer(m, (rows + 7) / 8);
    for (size_t r = 0; r < rows; r++)
        sent[r / 8] |= bit(from, first + r) << r % 8;
    return from;
}

/* a field whose bitmap is bits from bit `first` on */
static const uint8_t *bitmap(struct making *m, size_t first, size_t rows) {
    const uint8_t *from = bits(m, first, rows);
    size_t nulls = 0;
    for (size_t r = 0; r < rows; r++) nulls += !bit(from, first + r);
    field(m, rows, nulls);
    return from;
}

static void booleans(struct making *m, size_t skip, size_t rows) {
    const uint8_t *valid = bitmap(m, FIRST_BIT + skip, rows), *slots = bits(m, FIRST_BIT + skip, rows);
    node(m, (uint64_t[10]){1, 0, 0, skip + rows, FIRST_BIT, valid - m->bytes + 1, slots - m->bytes, 0, 0, 1});
}

/* lists of structs of a value and a string, from an element on that is not the first */
static void lists(struct making *m, size_t skip, size_t rows) {
    const uint8_t *slots = offsets(m, skip, rows, FIRST_BYTE, LIST);
    size_t passed = FIRST_BYTE + LIST * skip, elements = LIST * rows;
    node(m, (uint64_t[10]){5, 0, 0, skip + rows, 0, 0, slots - m->bytes, 0, 0, 4});
    node(m, (uint64_t[10]){7, 0, 0, passed + elements, 0, 0, 0, 0, 0, 3});
    full(m, elements);
    values(m, passed, elements);
    strings(m, passed, elements);
}

struct shape {
    const char *name;
    size_t rows;
    void (*make)(struct making *, size_t skip, size_t rows);
};

static const struct shape shapes[] = {
    {"values of 8 bytes", MILLION, values},
    {"strings of 8 bytes", MILLION, strings},
    {"booleans and bitmap, from bit 3", MILLION, booleans},
    {"booleans and bitmap, from bit 3", 10 * MILLION, booleans},
    {"lists of 4 structs of both of 8 bytes", MILLION / LIST, lists},
};
