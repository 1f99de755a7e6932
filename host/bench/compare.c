/* Each call of two libraries, timed by turns in one run: the one of before, whose functions host/compare renames to old_tj_.., and the one of now.
 * Prints a row of a table for each call and number of slots: nanoseconds before and now, medians, and their ratio, where one blob fills the pool.
 *     compare ROUNDS SLOTS ..
 * HEADS_BEFORE says that both libraries have heads, which are then compared too; HEADS_NOW puts scans by a head of now beside reads of the whole blob
 * by the library of now. */
#define _POSIX_C_SOURCE 199309L
#include <stdio.h>
#include <stdlib.h>
#include <string.h>
#include <time.h>

#include "tjornsaki.h"

#define SAMPLES 20    /* of each library, in a round */
#define BATCH 32      /* the most calls in a sample */
#define BATCHED 512   /* about how many slots the stores of a sample have together */
#define FEWEST 5      /* slots that every case below has room in */
#define LONG 1024     /* slots above which a call takes long */

void old_tj_wipe(uint8_t *, size_t, uint8_t *, size_t, uint64_t *);
void old_tj_create(uint8_t *, size_t, uint8_t *, size_t, uint64_t *);
void old_tj_length(const uint8_t *, size_t, const uint8_t *, size_t, uint64_t, uint64_t *);
void old_tj_read(const uint8_t *, size_t, const uint8_t *, size_t, uint64_t, uint64_t, uint8_t *, size_t, uint64_t *);
void old_tj_write(uint8_t *, size_t, uint8_t *, size_t, uint64_t, uint64_t, const uint8_t *, size_t, uint64_t *);
void old_tj_resize(uint8_t *, size_t, uint8_t *, size_t, uint64_t, uint64_t, uint64_t *);
void old_tj_delete(uint8_t *, size_t, uint8_t *, size_t, uint64_t, uint64_t *);
void old_tj_show(const uint8_t *, size_t, const uint8_t *, size_t, uint64_t, uint64_t, uint64_t *);
void old_tj_audit(const uint8_t *, size_t, const uint8_t *, size_t, uint64_t *);

/* A store with its one blob, of root 0. */
typedef struct {
    uint8_t *pool, *records;
    size_t pool_length, records_length;
    uint64_t length, answer[TJ_ANSWER];
} store;

/* What the blob holds at first, what is written into it, and where it is read to. */
static uint8_t first[TJ_BLOCK * TJ_SLOTS], data[TJ_BLOCK * TJ_SLOTS], out[TJ_BLOCK * TJ_SLOTS], kept[TJ_BLOCK * TJ_SLOTS];

/* A call of the library of now, or of before. */
#define BOTH(name, ...) \
    if (now) \
        tj_##name(s->pool, s->pool_length, s->records, s->records_length, __VA_ARGS__); \
    else \
        old_tj_##name(s->pool, s->pool_length, s->records, s->records_length, __VA_ARGS__)

#define MIDDLE (s->length / (2 * TJ_LEAF) * TJ_LEAF)

static void wipe(store *s, int now) { BOTH(wipe, s->answer); }
static void create(store *s, int now) { BOTH(create, s->answer); }
static void tell(store *s, int now) { BOTH(length, 0, s->answer); }
static void read_all(store *s, int now) { BOTH(read, 0, 0, out, s->length, s->answer); }
static void read_leaf(store *s, int now) { BOTH(read, 0, MIDDLE, out, TJ_LEAF, s->answer); }
static void show(store *s, int now) { BOTH(show, 0, s->length / TJ_LEAF - 1, s->answer); }
static void audit(store *s, int now) { BOTH(audit, s->answer); }
static void fill(store *s, int now) { BOTH(write, 0, 0, first, s->length, s->answer); }
static void write_all(store *s, int now) { BOTH(write, 0, 0, data, s->length, s->answer); }
static void write_leaf(store *s, int now) { BOTH(write, 0, MIDDLE, data, TJ_LEAF, s->answer); }
static void grow(store *s, int now) { BOTH(resize, 0, s->length, s->answer); }
static void empty(store *s, int now) { BOTH(resize, 0, 0, s->answer); }
static void more(store *s, int now) { BOTH(resize, 0, s->length + TJ_LEAF, s->answer); }
static void less(store *s, int now) { BOTH(resize, 0, s->length - TJ_LEAF, s->answer); }
static void remove_blob(store *s, int now) { BOTH(delete, 0, s->answer); }

#ifdef HEADS_NOW
/* The whole blob by a head of now, so many bytes at a time, which then answers as the read beside it does. */
static void scan(store *s, int now, size_t size)
{
    uint64_t head[TJ_HEAD], place;
    if (!now) {
        read_all(s, 1);
        return;
    }
    tj_open_head(s->pool, s->pool_length, s->records, s->records_length, 0, head, s->answer);
    for (place = 0; place < s->length; place += size) {
        tj_next(s->pool, s->pool_length, head, out + place, size, s->answer);
    }
    s->answer[TJ_VALUE] = 0;
}

static void scan_all(store *s, int now) { scan(s, now, s->length); }
static void scan_leaves(store *s, int now) { scan(s, now, TJ_LEAF); }
#endif

#ifdef HEADS_BEFORE
void old_tj_open_head(const uint8_t *, size_t, const uint8_t *, size_t, uint64_t, uint64_t *, uint64_t *);
void old_tj_next(const uint8_t *, size_t, uint64_t *, uint8_t *, size_t, uint64_t *);

static void open_head(store *s, int now)
{
    uint64_t head[TJ_HEAD];
    BOTH(open_head, 0, head, s->answer);
    memcpy(out, head, sizeof head);
}

/* One asking by a head that stands at a place, as the header says that its numbers are. */
static void ask(store *s, int now, uint64_t place, size_t size)
{
    uint64_t head[TJ_HEAD] = {0, 0, 0, 1};
    head[TJ_HEAD_PLACE] = place;
    head[TJ_HEAD_LENGTH] = s->length;
    if (now)
        tj_next(s->pool, s->pool_length, head, out, size, s->answer);
    else
        old_tj_next(s->pool, s->pool_length, head, out, size, s->answer);
}

static void ask_all(store *s, int now) { ask(s, now, 0, s->length); }

static void ask_leaves(store *s, int now)
{
    int k;
    for (k = 0; k < 64; k++) {
        ask(s, now, s->length / TJ_LEAF * (uint64_t)k / 64 * TJ_LEAF, TJ_LEAF);
    }
}
#endif

/* What is timed, on a pool that the blob fills but for so many slots; grow starts from an empty blob. */
static const struct {
    const char *name;
    void (*call)(store *, int);
    int spare;
} cases[] = {
    {"length", tell, 0}, {"read, whole blob", read_all, 0}, {"read, 48 bytes", read_leaf, 0}, {"show, last leaf", show, 0}, {"audit", audit, 0},
    {"wipe", wipe, 0}, {"create", create, 1}, {"write, whole blob", write_all, 0}, {"write, 48 bytes", write_leaf, 0}, {"resize, from 0 to all", grow, 0},
    {"resize, all to 0", empty, 0}, {"resize, one leaf more", more, 4}, {"resize, one leaf less", less, 0}, {"delete", remove_blob, 0},
#ifdef HEADS_BEFORE
    {"open a head", open_head, 0}, {"next, whole blob", ask_all, 0}, {"next, 48 bytes, 64 times", ask_leaves, 0},
#endif
#ifdef HEADS_NOW
    {"scan, one asking, beside read", scan_all, 0}, {"scan, 48 bytes at a time, beside read", scan_leaves, 0},
#endif
};

static void fail(const char *why)
{
    fprintf(stderr, "compare: %s\n", why);
    exit(1);
}

static void must(const store *s)
{
    if (s->answer[TJ_REFUSAL] != TJ_DONE) {
        fail("a call was refused");
    }
}

/* The leaves of the largest blob in so many slots. */
static uint64_t leaves_in(uint64_t slots)
{
    uint64_t n;
    for (n = 1;; n++) {
        uint64_t total = 1, row;
        for (row = n + 1; row > 1; row = (row + 11) / 12) {
            total += row;
        }
        if (total > slots) {
            return n;
        }
    }
}

static store make(size_t slots)
{
    store s;
    memset(&s, 0, sizeof s);
    s.pool_length = TJ_BLOCK * slots;
    s.records_length = TJ_RECORD * slots;
    s.pool = malloc(s.pool_length);
    s.records = malloc(s.records_length);
    if (s.pool == NULL || s.records == NULL) {
        fail("no memory");
    }
    return s;
}

static store filled(size_t slots, int spare, int starts_empty)
{
    store s = make(slots);
    wipe(&s, 1);
    create(&s, 1);
    s.length = TJ_LEAF * leaves_in(slots - (size_t)spare);
    grow(&s, 1);
    must(&s);
    fill(&s, 1);
    must(&s);
    if (starts_empty) {
        empty(&s, 1);
    }
    return s;
}

static void drop(store *s)
{
    free(s->pool);
    free(s->records);
}

static void refresh(store *s, const store *from)
{
    memcpy(s->pool, from->pool, s->pool_length);
    memcpy(s->records, from->records, s->records_length);
    s->length = from->length;
}

/* Both libraries leave the same numbers and bytes, also where they are read to. */
static void agree(void (*call)(store *, int), const store *before, store *a, store *b)
{
    refresh(a, before);
    refresh(b, before);
    memset(out, 0, a->pool_length);
    call(a, 0);
    memcpy(kept, out, a->pool_length);
    memset(out, 0, a->pool_length);
    call(b, 1);
    must(a);
    if (memcmp(a->answer, b->answer, sizeof a->answer) != 0 || memcmp(a->pool, b->pool, a->pool_length) != 0
        || memcmp(a->records, b->records, a->records_length) != 0 || memcmp(kept, out, a->pool_length) != 0) {
        fail("the two libraries differ");
    }
}

/* By the processor's clock, which stands still while another program runs, where calls take so long that they are often interrupted. */
static double nanoseconds(const store *s)
{
    struct timespec t;
    clock_gettime(s->pool_length > TJ_BLOCK * LONG ? CLOCK_THREAD_CPUTIME_ID : CLOCK_MONOTONIC, &t);
    return (double)t.tv_sec * 1e9 + (double)t.tv_nsec;
}

static int by_size(const void *a, const void *b)
{
    double x = *(const double *)a, y = *(const double *)b;
    return (x > y) - (x < y);
}

static double median(double *times, size_t count)
{
    qsort(times, count, sizeof *times, by_size);
    return times[count / 2];
}

/* One sample: a batch of calls, each on a fresh copy of the store. */
static double sample(void (*call)(store *, int), int now, const store *before, store *copies, int batch)
{
    double start;
    int i;
    for (i = 0; i < batch; i++) {
        refresh(&copies[i], before);
    }
    start = nanoseconds(before);
    for (i = 0; i < batch; i++) {
        call(&copies[i], now);
    }
    return (nanoseconds(before) - start) / batch;
}

static int batch_of(size_t slots)
{
    size_t batch = BATCHED / slots;
    return batch < 1 ? 1 : batch > BATCH ? BATCH : (int)batch;
}

/* Samples of the two by turns, which change places from one to the next. */
static void take(void (*call)(store *, int), const store *before, store *copies, int batch, double *times[2], size_t count)
{
    size_t i;
    int k;
    for (i = 0; i < count; i++) {
        for (k = 0; k < 2; k++) {
            int now = (int)((i + (size_t)k) % 2);
            times[now][i] = sample(call, now, before, copies, batch);
        }
    }
}

static void compare(size_t which, size_t slots, size_t rounds)
{
    void (*call)(store *, int) = cases[which].call;
    store before = filled(slots, cases[which].spare, call == grow), copies[BATCH];
    size_t count = rounds * SAMPLES;
    double *times[2] = {malloc(count * sizeof(double)), malloc(count * sizeof(double))};
    int batch = batch_of(slots), made = batch < 2 ? 2 : batch, k;
    if (times[0] == NULL || times[1] == NULL) {
        fail("no memory");
    }
    for (k = 0; k < made; k++) {
        copies[k] = make(slots);
    }
    agree(call, &before, &copies[0], &copies[1]);
    take(call, &before, copies, batch, times, count);
    printf("| %s | %zu | %.0f | %.0f | %.3f |\n", cases[which].name, slots, median(times[0], count), median(times[1], count),
           median(times[1], count) / median(times[0], count));
    for (k = 0; k < made; k++) {
        drop(&copies[k]);
    }
    drop(&before);
    free(times[0]);
    free(times[1]);
}

/* A number of slots that the cases have room in and the library of now takes. */
static size_t slots_of(const char *word)
{
    size_t slots = strtoul(word, NULL, 10);
    if (slots < FEWEST || slots > TJ_SLOTS) {
        fail("a number of slots is too small or too large");
    }
    return slots;
}

int main(int count, char **words)
{
    size_t rounds = count > 2 ? strtoul(words[1], NULL, 10) : 0, which;
    int word;
    if (rounds == 0) {
        fail("usage: compare ROUNDS SLOTS ..");
    }
    memset(first, 5, sizeof first);
    memset(data, 7, sizeof data);
    puts("| call | slots | before, ns | now, ns | now over before |\n|---|--:|--:|--:|--:|");
    for (which = 0; which < sizeof cases / sizeof *cases; which++) {
        for (word = 2; word < count; word++) {
            compare(which, slots_of(words[word]), rounds);
        }
    }
    return 0;
}
