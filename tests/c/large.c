/* Pools of more than 1,024 slots, as C sees them: which lengths fit, blobs on either side of heights 3, 4 and 5, the longest one, and slot numbers
 * that no pool has. What is expected is taken from document 01's rules, as 02's larger pools change them. */
#include "checks.h"

#define LONGEST 2883456 /* the bytes of 60,072 leaves: 65,535 blocks, and no blob has 65,536 */
#define FILL 0x5A

#define COUNT(list) (sizeof(list) / sizeof *(list))

static uint8_t pool[TJ_BLOCK * (TJ_SLOTS + 1)], records[TJ_RECORD * (TJ_SLOTS + 1)], bytes[LONGEST], out[LONGEST];

#define LENT(slots) pool, TJ_BLOCK * (size_t)(slots), records, TJ_RECORD * (size_t)(slots)
#define WHOLE LENT(TJ_SLOTS)

static uint64_t blocks(uint64_t leaves)
{
    return leaves == 1 ? 1 : leaves + blocks((leaves + 11) / 12);
}

/* Every call but wipe and next, refused in that way. */
static int all_refused(size_t slots, uint64_t refusal, uint64_t slot)
{
    uint64_t head[TJ_HEAD];
    int all = 1;
    tj_create(LENT(slots), answer);
    all &= refused(refusal, slot);
    tj_length(LENT(slots), 0, answer);
    all &= refused(refusal, slot);
    tj_read(LENT(slots), 0, 0, out, 1, answer);
    all &= refused(refusal, slot);
    tj_write(LENT(slots), 0, 0, bytes, 1, answer);
    all &= refused(refusal, slot);
    tj_resize(LENT(slots), 0, 1, answer);
    all &= refused(refusal, slot);
    tj_delete(LENT(slots), 0, answer);
    all &= refused(refusal, slot);
    tj_show(LENT(slots), 0, 0, answer);
    all &= refused(refusal, slot);
    tj_audit(LENT(slots), answer);
    all &= refused(refusal, slot);
    tj_open_head(LENT(slots), 0, head, answer);
    return all & (refused(refusal, slot) && head_is(head, 0, 0, 0, 0));
}

static int untouched(void)
{
    return pool[0] == FILL && memcmp(pool, pool + 1, sizeof pool - 1) == 0 && records[0] == FILL && memcmp(records, records + 1, sizeof records - 1) == 0;
}

/* 4,194,368 bytes are the first too long of whole blocks. With lengths that fit, the records come next, which are none here. */
static void test_lengths(void)
{
    memset(pool, FILL, sizeof pool);
    memset(records, FILL, sizeof records);
    CHECK(TJ_BLOCK * 1025 == 65600 && all_refused(1025, TJ_BAD_RECORD, 0));
    CHECK(TJ_BLOCK * TJ_SLOTS == 4194304 && all_refused(TJ_SLOTS, TJ_BAD_RECORD, 0));
    CHECK(sizeof pool == 4194368 && all_refused(TJ_SLOTS + 1, TJ_BAD_LENGTHS, TJ_NO_SLOT));
    tj_wipe(LENT(TJ_SLOTS + 1), answer);
    CHECK(refused(TJ_BAD_LENGTHS, TJ_NO_SLOT) && untouched());
}

/* The last slot of a pool is one like the others, and the byte after it is not touched. */
static void test_ends(size_t slots)
{
    memset(pool, FILL, sizeof pool);
    memset(records, FILL, sizeof records);
    tj_wipe(LENT(slots), answer);
    CHECK(done(0) && pool[TJ_BLOCK * slots] == FILL && records[TJ_RECORD * slots] == FILL);
    tj_audit(LENT(slots), answer);
    CHECK(done(0));
    pool[TJ_BLOCK * slots - 1] = 1;
    tj_audit(LENT(slots), answer);
    CHECK(refused(TJ_REINTRODUCED, slots - 1));
    records[TJ_RECORD * (slots - 1)] = 0;
    tj_audit(LENT(slots), answer);
    CHECK(refused(TJ_BAD_RECORD, slots - 1));
}

/* Blob 0 gets so many leaves, the last of one byte, and its bytes; its root is then so high. */
static void test_blob(uint64_t leaves, unsigned height)
{
    uint64_t head[TJ_HEAD];
    size_t length = TJ_LEAF * (leaves - 1) + 1;
    tj_resize(WHOLE, 0, length, answer);
    CHECK(done(0) && pool[2] == height);
    tj_audit(WHOLE, answer);
    CHECK(done(blocks(leaves)));
    tj_write(WHOLE, 0, 0, bytes, length, answer);
    CHECK(done(0));
    tj_length(WHOLE, 0, answer);
    CHECK(done(length));
    memset(out, 0, sizeof out);
    tj_read(WHOLE, 0, 0, out, length, answer);
    CHECK(done(0) && memcmp(out, bytes, length) == 0);
    tj_show(WHOLE, 0, leaves - 1, answer);
    CHECK(answer[TJ_COUNT] == 1 && pool[answer[TJ_VALUE] % sizeof pool] == bytes[length - 1]);
    tj_show(WHOLE, 0, leaves, answer);
    CHECK(refused(TJ_OUT_OF_RANGE, TJ_NO_SLOT));
    memset(out, 0, sizeof out);
    tj_open_head(WHOLE, 0, head, answer);
    tj_next(pool, TJ_BLOCK * (size_t)TJ_SLOTS, head, out, length - 1, answer);
    tj_next(pool, TJ_BLOCK * (size_t)TJ_SLOTS, head, out + length - 1, 2, answer);
    CHECK(done(1) && head_is(head, 0, length, length, 1) && memcmp(out, bytes, length) == 0);
}

/* Longer and shorter over the heights; then deleted. */
static void test_heights(void)
{
    static const uint64_t leaves[] = {1, 1728, 1729, 20736, 20737, 60072, 20737, 20736, 1729, 1728, 60072, 12};
    static const unsigned heights[] = {0, 3, 4, 4, 5, 5, 5, 4, 4, 3, 5, 1};
    size_t i;
    for (i = 0; i < sizeof bytes; i++) {
        bytes[i] = (uint8_t)(i * 7 + i / TJ_LEAF * 5 + i / 576 + 1);
    }
    tj_wipe(WHOLE, answer);
    tj_create(WHOLE, answer);
    CHECK(done(0));
    for (i = 0; i < COUNT(leaves); i++) {
        test_blob(leaves[i], heights[i]);
    }
    tj_delete(WHOLE, 0, answer);
    CHECK(done(0));
    tj_audit(WHOLE, answer);
    CHECK(done(0));
}

/* The longest blob leaves one slot, and a leaf more finds no room. */
static void test_longest(void)
{
    tj_wipe(WHOLE, answer);
    tj_create(WHOLE, answer);
    tj_resize(WHOLE, 0, LONGEST + 1, answer);
    CHECK(refused(TJ_FULL, TJ_NO_SLOT));
    tj_resize(WHOLE, 0, LONGEST, answer);
    CHECK(done(0));
    tj_audit(WHOLE, answer);
    CHECK(done(TJ_SLOTS - 1));
    tj_resize(WHOLE, 0, LONGEST + 1, answer);
    CHECK(refused(TJ_FULL, TJ_NO_SLOT));
    tj_create(WHOLE, answer);
    CHECK(done(TJ_SLOTS - 1));
    tj_create(WHOLE, answer);
    CHECK(refused(TJ_FULL, TJ_NO_SLOT));
    tj_delete(WHOLE, TJ_SLOTS - 1, answer);
    CHECK(done(0));
}

/* The second child of the longest blob's root becomes that number; its height that, too. */
static void test_hostile(void)
{
    static const uint8_t free_slot[4] = {0xFF, 0xFF, 0, 0}, first_beyond[4] = {0, 0, 1, 0}, last[4] = {0xFF, 0xFF, 0xFF, 0xFF};
    memcpy(pool + 20, free_slot, 4);
    tj_length(WHOLE, 0, answer);
    CHECK(refused(TJ_REINTRODUCED, TJ_SLOTS - 1));
    memcpy(pool + 20, first_beyond, 4);
    tj_length(WHOLE, 0, answer);
    CHECK(refused(TJ_WRONG_SHAPE, 0));
    memcpy(pool + 20, last, 4);
    tj_audit(WHOLE, answer);
    CHECK(refused(TJ_WRONG_SHAPE, 0));
    /* Height 6 is a root's fault; 4 is not, but then its first child is one too high. */
    pool[2] = 6;
    tj_length(WHOLE, 0, answer);
    CHECK(refused(TJ_WRONG_SHAPE, 0));
    pool[2] = 4;
    tj_length(WHOLE, 0, answer);
    CHECK(answer[TJ_SLOT] != 0 && refused(TJ_WRONG_SHAPE, pool[16] | (uint64_t)pool[17] << 8));
}

int main(void)
{
    forget();
    test_lengths();
    test_ends(1025);
    test_ends(TJ_SLOTS);
    test_heights();
    test_longest();
    test_hostile();
    return told();
}
