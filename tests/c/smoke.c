/* The library as C sees it: each function once done and once refused, with all eight numbers of each answer, and the bytes where they matter.
 * What is expected is taken from document 01's rules and laid out by hand. */
#include "checks.h"

#define SLOTS 4

static uint8_t pool[TJ_BLOCK * SLOTS];
static uint8_t records[TJ_RECORD * SLOTS];

static int zeros(const uint8_t *bytes, size_t count)
{
    size_t i;
    for (i = 0; i < count; i++) {
        if (bytes[i] != 0) {
            return 0;
        }
    }
    return 1;
}

/* A record, and a leaf of so many data bytes. Versions and slots stay below 256. */
static void lay_record(unsigned slot, uint8_t state, uint8_t version)
{
    const uint8_t bytes[TJ_RECORD] = {0x52, 0x31, state, 0, version};
    memcpy(records + TJ_RECORD * slot, bytes, sizeof bytes);
}

static void lay_leaf(unsigned slot, uint8_t version, const char *text)
{
    uint8_t bytes[TJ_BLOCK] = {0x4C, 0x31, 0, (uint8_t)strlen(text), (uint8_t)slot, 0, 0, 0, version};
    memcpy(bytes + 16, text, strlen(text));
    memcpy(pool + TJ_BLOCK * slot, bytes, sizeof bytes);
}

static int record_is(unsigned slot, uint8_t state, uint8_t version)
{
    const uint8_t bytes[TJ_RECORD] = {0x52, 0x31, state, 0, version};
    return memcmp(records + TJ_RECORD * slot, bytes, sizeof bytes) == 0;
}

static int leaf_is(unsigned slot, uint8_t version, const char *text)
{
    uint8_t bytes[TJ_BLOCK] = {0x4C, 0x31, 0, (uint8_t)strlen(text), (uint8_t)slot, 0, 0, 0, version};
    memcpy(bytes + 16, text, strlen(text));
    return memcmp(pool + TJ_BLOCK * slot, bytes, sizeof bytes) == 0;
}

static void wipe(void)
{
    tj_wipe(pool, sizeof pool, records, sizeof records, answer);
}

static void create(void)
{
    tj_create(pool, sizeof pool, records, sizeof records, answer);
}

static void length(uint64_t root)
{
    tj_length(pool, sizeof pool, records, sizeof records, root, answer);
}

static void read(uint64_t root, uint64_t offset, uint8_t *out, size_t size)
{
    tj_read(pool, sizeof pool, records, sizeof records, root, offset, out, size, answer);
}

static void show(uint64_t root, uint64_t leaf)
{
    tj_show(pool, sizeof pool, records, sizeof records, root, leaf, answer);
}

static void audit(void)
{
    tj_audit(pool, sizeof pool, records, sizeof records, answer);
}

static void open_head(uint64_t root, uint64_t head[TJ_HEAD])
{
    tj_open_head(pool, sizeof pool, records, sizeof records, root, head, answer);
}

static void next(uint64_t head[TJ_HEAD], uint8_t *out, size_t size)
{
    tj_next(pool, sizeof pool, head, out, size, answer);
}

static void write_bytes(uint64_t root, uint64_t offset, const char *text, size_t size)
{
    tj_write(pool, sizeof pool, records, sizeof records, root, offset, (const uint8_t *)text, size, answer);
}

static void resize(uint64_t root, uint64_t size)
{
    tj_resize(pool, sizeof pool, records, sizeof records, root, size, answer);
}

static void delete_blob(uint64_t root)
{
    tj_delete(pool, sizeof pool, records, sizeof records, root, answer);
}

static void test_wipe(void)
{
    unsigned s;
    memset(pool, 0x5A, sizeof pool);
    memset(records, 0x5A, sizeof records);
    wipe();
    CHECK(done(0));
    CHECK(zeros(pool, sizeof pool));
    for (s = 0; s < SLOTS; s++) {
        CHECK(record_is(s, 0, 0));
    }
    audit();
    CHECK(done(0));
}

/* Slot 0, then slot 1; a freed slot keeps its version and is taken again one version higher. */
static void test_create_and_delete(void)
{
    wipe();
    CHECK(done(0));
    create();
    CHECK(done(0));
    CHECK(leaf_is(0, 1, "") && record_is(0, 2, 1));
    create();
    CHECK(done(1));
    CHECK(leaf_is(1, 1, "") && record_is(1, 2, 1));
    audit();
    CHECK(done(2));
    delete_blob(0);
    CHECK(done(0));
    CHECK(zeros(pool, TJ_BLOCK) && record_is(0, 0, 1));
    audit();
    CHECK(done(1));
    create();
    CHECK(done(0));
    CHECK(leaf_is(0, 2, "") && record_is(0, 2, 2));
}

static void test_empty_blob(void)
{
    uint8_t out[1] = {0x77};
    wipe();
    create();
    CHECK(done(0));
    length(0);
    CHECK(done(0));
    show(0, 0);
    CHECK(says(TJ_DONE, TJ_NO_SLOT, 16, 0));
    read(0, 0, out, 0);
    CHECK(done(0));
    read(0, 0, out, 1);
    CHECK(refused(TJ_OUT_OF_RANGE, TJ_NO_SLOT));
    CHECK(out[0] == 0x77);
}

/* A blob of three bytes in slot 2. */
static void test_reading(void)
{
    uint8_t out[3] = {0, 0, 0};
    wipe();
    lay_record(2, 2, 9);
    lay_leaf(2, 9, "abc");
    CHECK(done(0));
    length(2);
    CHECK(done(3));
    show(2, 0);
    CHECK(says(TJ_DONE, TJ_NO_SLOT, 2 * TJ_BLOCK + 16, 3));
    show(2, 1);
    CHECK(refused(TJ_OUT_OF_RANGE, TJ_NO_SLOT));
    read(2, 0, out, 3);
    CHECK(done(0));
    CHECK(memcmp(out, "abc", 3) == 0);
    read(2, 1, out, 2);
    CHECK(done(0));
    CHECK(memcmp(out, "bcc", 3) == 0);
    read(2, UINT64_MAX, out, 2);
    CHECK(refused(TJ_OUT_OF_RANGE, TJ_NO_SLOT));
    CHECK(memcmp(out, "bcc", 3) == 0);
    audit();
    CHECK(done(1));
}

/* The same blob by a head; after its end, and where opening is refused, nothing is handed out. tests/c/heads.c has more. */
static void test_head(void)
{
    uint8_t out[4] = {0x77, 0x77, 0x77, 0x77};
    uint64_t head[TJ_HEAD] = {9, 9, 9, 9};
    wipe();
    lay_record(2, 2, 9);
    lay_leaf(2, 9, "abc");
    CHECK(done(0));
    open_head(2, head);
    CHECK(done(3) && head_is(head, 2, 0, 3, 1));
    next(head, out, 2);
    CHECK(done(2) && head_is(head, 2, 2, 3, 1));
    CHECK(memcmp(out, "abww", 4) == 0);
    next(head, out, 4);
    CHECK(done(1) && head_is(head, 2, 3, 3, 1));
    CHECK(memcmp(out, "cbww", 4) == 0);
    next(head, out, 4);
    CHECK(done(0) && head_is(head, 2, 3, 3, 1));
    open_head(1, head);
    CHECK(refused(TJ_NO_ROOT, TJ_NO_SLOT) && head_is(head, 0, 0, 0, 0));
    next(head, out, 4);
    CHECK(done(0) && head_is(head, 0, 0, 0, 0));
    CHECK(memcmp(out, "cbww", 4) == 0);
}

/* A changed block goes one version up; equal bytes and no bytes change nothing; nothing is written past the end. */
static void test_write(void)
{
    wipe();
    lay_record(2, 2, 9);
    lay_leaf(2, 9, "abc");
    CHECK(done(0));
    write_bytes(2, 1, "XY", 2);
    CHECK(done(0));
    CHECK(leaf_is(2, 10, "aXY") && record_is(2, 2, 10));
    write_bytes(2, 0, "aX", 2);
    CHECK(done(0));
    write_bytes(2, 3, "", 0);
    CHECK(done(0));
    write_bytes(2, 2, "pq", 2);
    CHECK(refused(TJ_OUT_OF_RANGE, TJ_NO_SLOT));
    write_bytes(0, 0, "a", 1);
    CHECK(refused(TJ_NO_ROOT, TJ_NO_SLOT));
    CHECK(leaf_is(2, 10, "aXY") && record_is(2, 2, 10));
    CHECK(zeros(pool, 2 * TJ_BLOCK) && zeros(pool + 3 * TJ_BLOCK, TJ_BLOCK));
    memset(records + 2 * TJ_RECORD + 4, 0xFF, 8);
    memset(pool + 2 * TJ_BLOCK + 8, 0xFF, 8);
    write_bytes(2, 0, "", 0);
    CHECK(refused(TJ_WORN, TJ_NO_SLOT));
}

/* From one leaf to two and back: what is added is zeros, and a freed slot keeps its version. */
static void test_resize(void)
{
    uint8_t out[5];
    wipe();
    create();
    resize(0, 49);
    CHECK(done(0));
    CHECK(record_is(0, 2, 2) && record_is(1, 1, 1) && record_is(2, 1, 1));
    length(0);
    CHECK(done(49));
    audit();
    CHECK(done(3));
    write_bytes(0, 46, "wxy", 3);
    CHECK(done(0));
    CHECK(record_is(0, 2, 2) && record_is(1, 1, 2) && record_is(2, 1, 2));
    read(0, 44, out, sizeof out);
    CHECK(done(0));
    CHECK(memcmp(out, "\0\0wxy", sizeof out) == 0);
    show(0, 1);
    CHECK(says(TJ_DONE, TJ_NO_SLOT, 2 * TJ_BLOCK + 16, 1));
    resize(0, 48);
    CHECK(done(0));
    CHECK(record_is(0, 2, 3) && record_is(1, 0, 2) && record_is(2, 0, 2));
    CHECK(zeros(pool + TJ_BLOCK, 3 * TJ_BLOCK));
    resize(0, 12 * TJ_LEAF);
    CHECK(refused(TJ_FULL, TJ_NO_SLOT));
    resize(UINT64_MAX, UINT64_MAX);
    CHECK(refused(TJ_NO_ROOT, TJ_NO_SLOT));
    memset(records + 4, 0xFF, 8);
    memset(pool + 8, 0xFF, 8);
    resize(0, 0);
    CHECK(refused(TJ_WORN, TJ_NO_SLOT));
}

/* Lengths that do not fit are refused with 1 by every call, and nothing is touched. */
static void test_lengths(void)
{
    uint8_t out[1] = {0x77};
    uint64_t head[TJ_HEAD] = {9, 9, 9, 9};
    memset(pool, 0x5A, sizeof pool);
    memset(records, 0x5A, sizeof records);
    tj_wipe(pool, sizeof pool - 1, records, sizeof records, answer);
    CHECK(refused(TJ_BAD_LENGTHS, TJ_NO_SLOT));
    tj_create(pool, 0, records, 0, answer);
    CHECK(refused(TJ_BAD_LENGTHS, TJ_NO_SLOT));
    tj_length(pool, sizeof pool, records, sizeof records - TJ_RECORD, 0, answer);
    CHECK(refused(TJ_BAD_LENGTHS, TJ_NO_SLOT));
    tj_read(pool, 1, records, sizeof records, 0, 0, out, 1, answer);
    CHECK(refused(TJ_BAD_LENGTHS, TJ_NO_SLOT));
    tj_show(pool, sizeof pool, records, 0, 0, 0, answer);
    CHECK(refused(TJ_BAD_LENGTHS, TJ_NO_SLOT));
    tj_open_head(pool, sizeof pool, records, sizeof records + 1, 0, head, answer);
    CHECK(refused(TJ_BAD_LENGTHS, TJ_NO_SLOT) && head_is(head, 0, 0, 0, 0));
    tj_audit(pool, TJ_BLOCK, records, sizeof records, answer);
    CHECK(refused(TJ_BAD_LENGTHS, TJ_NO_SLOT));
    tj_delete(pool, TJ_BLOCK + 1, records, TJ_RECORD, 0, answer);
    CHECK(refused(TJ_BAD_LENGTHS, TJ_NO_SLOT));
    tj_write(pool, sizeof pool - TJ_BLOCK, records, sizeof records, 0, 0, out, 1, answer);
    CHECK(refused(TJ_BAD_LENGTHS, TJ_NO_SLOT));
    tj_resize(pool, sizeof pool, records, 1, 0, 0, answer);
    CHECK(refused(TJ_BAD_LENGTHS, TJ_NO_SLOT));
    CHECK(pool[0] == 0x5A && records[0] == 0x5A && out[0] == 0x77);
}

static void test_named_slots(void)
{
    uint8_t out[1] = {0x77};
    wipe();
    create();
    create();
    CHECK(done(1));
    length(2);
    CHECK(refused(TJ_NO_ROOT, TJ_NO_SLOT));
    delete_blob(UINT64_MAX);
    CHECK(refused(TJ_NO_ROOT, TJ_NO_SLOT));
    records[3 * TJ_RECORD] = 0;
    audit();
    CHECK(refused(TJ_BAD_RECORD, 3));
    lay_record(3, 0, 0);
    pool[3 * TJ_BLOCK + 63] = 1;
    audit();
    CHECK(refused(TJ_REINTRODUCED, 3));
    create();
    CHECK(refused(TJ_REINTRODUCED, 3));
    length(1);
    CHECK(done(0));
    lay_record(1, 2, 2);
    length(1);
    CHECK(refused(TJ_ROLLED_BACK, 1));
    lay_record(1, 2, 1);
    lay_leaf(1, 2, "");
    show(1, 0);
    CHECK(refused(TJ_AHEAD, 1));
    memcpy(pool + TJ_BLOCK, pool, TJ_BLOCK);
    read(1, 0, out, 1);
    CHECK(refused(TJ_MOVED, 1));
    CHECK(out[0] == 0x77);
    pool[0] = 0;
    delete_blob(0);
    CHECK(refused(TJ_SPOILED, 0));
}

static void test_full(void)
{
    wipe();
    create();
    create();
    create();
    create();
    CHECK(done(3));
    create();
    CHECK(refused(TJ_FULL, TJ_NO_SLOT));
    audit();
    CHECK(done(4));
}

int main(void)
{
    forget();
    test_wipe();
    test_create_and_delete();
    test_empty_blob();
    test_reading();
    test_head();
    test_write();
    test_resize();
    test_lengths();
    test_named_slots();
    test_full();
    return told();
}
