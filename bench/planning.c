/* A plan of a column with a copy of its body beside memcpy of as many bytes, in one run; and beside the original, where its
   archive is built in. */
#include "making.h"

/* What the original's archive has to export. `original_batch` prepares a batch of one column, at a node, with so many rows; the
   nodes are 80 bytes each, as above, and they and the bytes stay as they are until `original_drop`. It answers null where it
   cannot. `original_frame` writes the whole message of the batch to the start of `out`: alignment 64, any metadata, and last the
   body. It answers how long the message is, or 0 where it is not written; it is called many times. `original_drop` ends a batch. */
#ifdef ORIGINAL
void *original_batch(const uint8_t *nodes, size_t node_bytes, const uint8_t *bytes, size_t count, size_t node, uint64_t rows);
size_t original_frame(void *batch, uint8_t *out, size_t out_bytes);
void original_drop(void *batch);
#endif

/* what a run writes into: the memories that a plan is lent, and where the body goes */
struct room {
    uint8_t *work, *metadata, *out;
};

/* what is timed: in each round a plan, memcpy, and the original where it is there */
enum { PLAN, COPY, WRITE, TIMED };

/* a column to plan, to copy and to write */
struct trial {
    const struct making *making;
    struct recording recording;
    size_t rows;
    const struct room *room;
    void *batch; /* the original's, or null where it is not there */
};

static bool prepare(struct trial *t) {
#ifdef ORIGINAL
    const struct making *m = t->making;
    t->batch = original_batch((const uint8_t *)m->nodes, 80 * m->node_count, m->bytes, m->count, 0, t->rows);
    return t->batch;
#else
    t->batch = NULL;
    return true;
#endif
}

static void finish(struct trial *t) {
#ifdef ORIGINAL
    original_drop(t->batch);
#endif
    t->batch = NULL;
}

/* Makes the body in one of the ways; answers how long all is that is written, of which the body is the last. */
static size_t make(int way, const struct trial *t) {
    const struct making *m = t->making;
    const struct room *room = t->room;
    switch (way) {
    case PLAN:
        return timing_plan(&t->recording, m->bytes, m->count, 0, t->rows, room->work, BYTES, room->metadata, METADATA, room->out,
                           m->length + AFTER);
    case COPY:
        memcpy(room->out, m->body, m->length);
        return m->length;
    default:
#ifdef ORIGINAL
        return original_frame(t->batch, room->out, m->length + METADATA);
#else
        return 0;
#endif
    }
}

/* the body stands last in what is written, and what is after it is as before */
static bool is_right(int way, const struct trial *t) {
    const struct making *m = t->making;
    uint8_t *out = t->room->out;
    memset(out, 0x5a, m->length + METADATA + AFTER);
    size_t length = make(way, t);
    if (length < m->length || length > m->length + METADATA) return false;
    if (way != WRITE && length != m->length) return false;
    if (memcmp(out + length - m->length, m->body, m->length)) return false;
    for (size_t k = 0; k < AFTER; k++)
        if (out[length + k] != 0x5a) return false;
    return true;
}

/* the best time of each way */
static bool run_rounds(const struct trial *t, int ways, double best[TIMED]) {
    const struct making *m = t->making;
    bool right = true;
    for (int way = 0; way < ways; way++) best[way] = 1e9;
    for (int run = 0; run < RUNS; run++)
        for (int way = 0; way < ways; way++) {
            double start = now();
            size_t length = make(way, t);
            double d = now() - start;
            if (d < best[way]) best[way] = d;
            right &= length >= m->length && t->room->out[length - m->length + run] == m->body[run]; /* the body is used */
        }
    return right;
}

static void show(const struct shape *s, const struct trial *t, const double best[TIMED]) {
    double bytes = t->making->length * 1e-9;
    printf("%-40s %9zu %9.2f %9.2f %9.2f", s->name, s->rows, bytes / best[PLAN], bytes / best[COPY], best[COPY] / best[PLAN]);
    if (t->batch) printf(" %9.2f %9.2f %9.2f", bytes / best[WRITE], best[COPY] / best[WRITE], best[WRITE] / best[PLAN]);
    putchar('\n');
}

static int measure(const struct shape *s, struct making *m, const struct room *room) {
    clear(m);
    s->make(m, 0, s->rows);
    const uint8_t *nodes = (const uint8_t *)m->nodes;
    struct trial t = {m, {nodes, 0, m->bytes, 0}, s->rows, room, NULL};
    uint32_t refused = timing_open_into(&t.recording, nodes, 80 * m->node_count, m->bytes, m->count);
    if (refused) {
        fprintf(stderr, "%s: refused with %u\n", s->name, refused);
        return 1;
    }
    if (!prepare(&t)) {
        fprintf(stderr, "%s: the original refuses it\n", s->name);
        return 1;
    }
    int ways = t.batch ? TIMED : WRITE;
    double best[TIMED];
    bool right = true;
    for (int way = 0; way < ways; way++) right &= is_right(way, &t);
    right &= run_rounds(&t, ways, best);
    for (int way = 0; way < ways; way++) right &= is_right(way, &t);
    if (right)
        show(s, &t, best);
    else
        fprintf(stderr, "%s: a wrong body\n", s->name);
    finish(&t);
    return !right;
}

int main(void) {
    struct making making = {.bytes = malloc(BYTES), .body = malloc(BYTES)};
    struct room room = {malloc(BYTES), malloc(METADATA), malloc(BYTES)};
    if (!making.bytes || !making.body || !room.work || !room.metadata || !room.out) return 1;
    printf("%-40s %9s %9s %9s %9s", "GB/s of body bytes", "rows", "plan", "memcpy", "ratio");
#ifdef ORIGINAL
    printf(" %9s %9s %9s", "original", "ratio", "plan to it");
#endif
    putchar('\n');
    int failed = 0;
    for (size_t k = 0; k < sizeof shapes / sizeof *shapes; k++)
        failed |= measure(&shapes[k], &making, &room);
    free(making.bytes), free(making.body), free(room.work), free(room.metadata), free(room.out);
    return failed;
}
