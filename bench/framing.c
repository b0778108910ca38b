/* The frame of a column beside memcpy of as many bytes and a plan with a copy of its body, and then frames of small batches, in
   one run; and beside the original, where its archive is built in. */
#include "making.h"

uint64_t timing_frame(const struct recording *recording, size_t node, uint64_t columns, uint64_t rows, uint8_t *work, size_t work_bytes,
                      uint8_t *metadata, size_t metadata_bytes, uint8_t *out, size_t out_bytes);

/* What the original's archive has to export. `original_columns` prepares a batch of so many columns, from a node on, with so many
   rows; the nodes are 80 bytes each, and they and the bytes stay as they are until `original_drop`. It answers null where it
   cannot. `original_frame` writes the whole message of the batch to the start of `out`: alignment 64, any metadata, and last the
   body. It answers how long the message is, or 0 where it is not written; it is called many times. `original_drop` ends a batch. */
#ifdef ORIGINAL
void *original_columns(const uint8_t *nodes, size_t node_bytes, const uint8_t *bytes, size_t count, size_t node, uint64_t columns,
                       uint64_t rows);
size_t original_frame(void *batch, uint8_t *out, size_t out_bytes);
void original_drop(void *batch);
#endif

enum { HEADER = 4096, SMALL_ROWS = 64, SMALL_COLUMNS = 8, BATCHES = 100000 };

/* values under a bitmap */
static void masked_values(struct making *m, size_t skip, size_t rows) {
    const uint8_t *valid = bitmap(m, skip, rows), *slots = fill(m, VALUE * (skip + rows));
    node(m, (uint64_t[10]){2, 0, VALUE, skip + rows, 0, valid - m->bytes + 1, slots - m->bytes, 0, 0, 1});
    memcpy(buffer(m, VALUE * rows), slots + VALUE * skip, VALUE * rows);
}

/* ---- the frame that a batch is to have */

static uint8_t *put(uint8_t *at, uint64_t number) { return (uint8_t *)memcpy(at, &number, sizeof number) + sizeof number; }

static uint8_t *put_records(uint8_t *at, const uint64_t (*records)[2], size_t count) {
    at = put(at, count);
    for (size_t k = 0; k < count; k++) at = put(put(at, records[k][0]), records[k][1]);
    return at;
}

/* Puts it to `frame`, which has HEADER bytes before the body; answers how long the header is. */
static size_t put_frame(const struct making *m, size_t rows, uint8_t *frame) {
    size_t length = padded(8 + 8 * (6 + 2 * m->field_count + 2 * m->buffer_count));
    uint32_t told = length - 8;
    memset(frame, 0, length);
    memset(frame, 0xff, 4), memcpy(frame + 4, &told, sizeof told);
    uint8_t *at = put(put(put(put(frame + 8, 0), 0), rows), m->length); /* a batch, with no id */
    put_records(put_records(at, m->fields, m->field_count), m->buffers, m->buffer_count);
    memmove(frame + length, m->body, m->length);
    return length;
}

/* what a run writes into, the memories that a plan is lent and where the frame goes, and what the frame is to be */
struct room {
    uint8_t *work, *metadata, *out, *frame;
};

/* what is timed: in each round a frame, memcpy of as many bytes, a plan with a copy of the body, and the original */
enum { FRAME, COPY, PLAN, WRITE, TIMED };

/* columns to frame, to copy, to plan and to write */
struct trial {
    const char *name;
    const struct making *making;
    struct recording recording;
    size_t columns, rows, header;
    const struct room *room;
    void *batch;   /* the original's, or null where it is not there */
    size_t repeat; /* how often in a round */
};

/* a plan is timed of one column alone, and the original where it is there */
static bool is_timed(int way, const struct trial *t) {
    if (way == PLAN) return t->columns == 1;
    return way != WRITE || t->batch;
}

static bool prepare(struct trial *t) {
#ifdef ORIGINAL
    const struct making *m = t->making;
    t->batch = original_columns((const uint8_t *)m->nodes, 80 * m->node_count, m->bytes, m->count, 0, t->columns, t->rows);
    return t->batch;
#else
    t->batch = NULL;
    return true;
#endif
}

static void finish(struct trial *t) {
#ifdef ORIGINAL
    original_drop(t->batch);
#endif
    t->batch = NULL;
}

/* Makes the frame in one of the ways, or the body alone, which stands where the frame has it; answers how long all is, of which
   the body is the last. */
static size_t make(int way, const struct trial *t) {
    const struct making *m = t->making;
    const struct room *room = t->room;
    size_t length = t->header + m->length;
    switch (way) {
    case FRAME:
        return timing_frame(&t->recording, 0, t->columns, t->rows, room->work, BYTES, room->metadata, METADATA, room->out,
                            length + AFTER);
    case COPY:
        memcpy(room->out, room->frame, length);
        return length;
    case PLAN:
        return t->header + timing_plan(&t->recording, m->bytes, m->count, 0, t->rows, room->work, BYTES, room->metadata, METADATA,
                                       room->out + t->header, m->length + AFTER);
    default:
#ifdef ORIGINAL
        return original_frame(t->batch, room->out, m->length + METADATA);
#else
        return 0;
#endif
    }
}

/* the frame, or the body last in what is written, is right, and what is after it is as before */
static bool is_right(int way, const struct trial *t) {
    const struct making *m = t->making;
    uint8_t *out = t->room->out;
    memset(out, 0x5a, m->length + METADATA + AFTER);
    size_t length = make(way, t), whole = t->header + m->length, compared = way == FRAME || way == COPY ? whole : m->length;
    if (length < compared || length > m->length + METADATA) return false;
    if (way != WRITE && length != whole) return false;
    if (memcmp(out + length - compared, t->room->frame + whole - compared, compared)) return false;
    for (size_t k = 0; k < AFTER; k++)
        if (out[length + k] != 0x5a) return false;
    return true;
}

static bool are_right(const struct trial *t) {
    bool right = true;
    for (int way = 0; way < TIMED; way++)
        if (is_timed(way, t)) right &= is_right(way, t);
    return right;
}

/* How long one of the ways takes, once; it comes right after another run of its own, so that what is in the cache is its own. */
static double run(int way, const struct trial *t, bool *right) {
    const uint8_t *out = t->room->out, *body = t->room->frame + t->header;
    make(way, t);
    double start = now();
    for (size_t k = 0; k < t->repeat; k++) {
        size_t length = make(way, t), before = length - t->making->length;
        *right &= before <= METADATA && out[before + k % 8] == body[k % 8]; /* the body is used */
    }
    return (now() - start) / t->repeat;
}

/* the best time of each way */
static bool run_rounds(const struct trial *t, double best[TIMED]) {
    bool right = true;
    for (int way = 0; way < TIMED; way++) best[way] = 1e9;
    for (int round = 0; round < RUNS; round++)
        for (int way = 0; way < TIMED; way++) {
            if (!is_timed(way, t)) continue;
            double d = run(way, t, &right);
            if (d < best[way]) best[way] = d;
        }
    return right;
}

static void show_speed(const struct trial *t, const double best[TIMED]) {
    double bytes = t->making->length * 1e-9;
    printf("%-40s %9zu %9.2f %9.2f %9.2f %9.2f %9.2f", t->name, t->rows, bytes / best[FRAME], bytes / best[COPY],
           best[COPY] / best[FRAME], bytes / best[PLAN], best[FRAME] / best[PLAN]);
    if (t->batch) printf(" %9.2f %9.2f", bytes / best[WRITE], best[WRITE] / best[FRAME]);
    putchar('\n');
}

static void show_time(const struct trial *t, const double best[TIMED]) {
    printf("%-40s %9zu %9.3f %9.3f", t->name, t->rows, best[FRAME] * 1e6, best[COPY] * 1e6);
    if (t->batch) printf(" %9.3f %9.2f", best[WRITE] * 1e6, best[WRITE] / best[FRAME]);
    putchar('\n');
}

/* times a batch that is made */
static int measure(struct trial *t, void (*show)(const struct trial *, const double[TIMED])) {
    const struct making *m = t->making;
    const uint8_t *nodes = (const uint8_t *)m->nodes;
    t->recording = (struct recording){nodes, 0, m->bytes, 0};
    t->header = put_frame(m, t->rows, t->room->frame);
    uint32_t refused = timing_open_into(&t->recording, nodes, 80 * m->node_count, m->bytes, m->count);
    if (refused) {
        fprintf(stderr, "%s: refused with %u\n", t->name, refused);
        return 1;
    }
    if (!prepare(t)) {
        fprintf(stderr, "%s: the original refuses it\n", t->name);
        return 1;
    }
    double best[TIMED];
    bool right = are_right(t);
    right &= run_rounds(t, best);
    right &= are_right(t);
    if (right)
        show(t, best);
    else
        fprintf(stderr, "%s: a wrong frame or body\n", t->name);
    finish(t);
    return !right;
}

static int measure_shapes(struct making *m, const struct room *room) {
    printf("%-40s %9s %9s %9s %9s %9s %9s", "GB/s of body bytes", "rows", "frame", "memcpy", "ratio", "plan", "time to it");
#ifdef ORIGINAL
    printf(" %9s %9s", "original", "as fast");
#endif
    putchar('\n');
    int failed = 0;
    for (size_t k = 0; k < sizeof shapes / sizeof *shapes; k++) {
        const struct shape *s = &shapes[k];
        clear(m);
        s->make(m, 0, s->rows);
        struct trial t = {.name = s->name, .making = m, .columns = 1, .rows = s->rows, .room = room, .repeat = 1};
        failed |= measure(&t, show_speed);
    }
    return failed;
}

static int measure_small(struct making *m, const struct room *room) {
    printf("\n%-40s %9s %9s %9s", "microseconds a batch", "rows", "frame", "memcpy");
#ifdef ORIGINAL
    printf(" %9s %9s", "original", "as fast");
#endif
    putchar('\n');
    clear(m);
    for (int k = 0; k < 4; k++) values(m, 0, SMALL_ROWS);
    for (int k = 0; k < 2; k++) strings(m, 0, SMALL_ROWS);
    booleans(m, 0, SMALL_ROWS);
    masked_values(m, 0, SMALL_ROWS);
    struct trial t = {.name = "8 columns", .making = m, .columns = SMALL_COLUMNS, .rows = SMALL_ROWS, .room = room, .repeat = BATCHES};
    return measure(&t, show_time);
}

int main(void) {
    struct room room = {malloc(BYTES), malloc(METADATA), malloc(BYTES), malloc(HEADER + BYTES)};
    struct making making = {.bytes = malloc(BYTES), .body = room.frame + HEADER};
    if (!making.bytes || !room.work || !room.metadata || !room.out || !room.frame) return 1;
    int failed = measure_shapes(&making, &room);
    failed |= measure_small(&making, &room);
    free(making.bytes), free(room.work), free(room.metadata), free(room.out), free(room.frame);
    return failed;
}
