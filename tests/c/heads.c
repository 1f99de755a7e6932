/* Heads as C sees them. However the asking is cut up, the pieces joined are one read. And whatever numbers a head has, and whatever pool it is used
 * with, what is handed out is what the definition in this file says, and nothing else is touched. */
#include "checks.h"

#define MANY 1024     /* slots of the pool that is gone through byte by byte too; tests/c/large.c goes through larger ones */
#define LONGEST 44976 /* the bytes of the blob that fills it */
#define SLOTS 32      /* of the pool that forged heads are used with */
#define MOST 200      /* the most that is asked of them at once */
#define TALLEST 5     /* the greatest height of a root */

#define COUNT(list) (sizeof(list) / sizeof *(list))

static uint8_t pool[TJ_BLOCK * MANY], records[TJ_RECORD * MANY], bytes[LONGEST], whole[LONGEST], joined[LONGEST + 1];

/* A store of so many slots with one blob, of root 0, that has so many bytes. */
static void lay_blob(size_t slots, size_t length)
{
    size_t i;
    for (i = 0; i < length; i++) {
        bytes[i] = (uint8_t)(i * 7 + i / TJ_LEAF * 5 + 1);
    }
    tj_wipe(pool, TJ_BLOCK * slots, records, TJ_RECORD * slots, answer);
    tj_create(pool, TJ_BLOCK * slots, records, TJ_RECORD * slots, answer);
    tj_resize(pool, TJ_BLOCK * slots, records, TJ_RECORD * slots, 0, length, answer);
    tj_write(pool, TJ_BLOCK * slots, records, TJ_RECORD * slots, 0, 0, bytes, length, answer);
    CHECK(done(0));
}

/* Asks for so many bytes at a time until none come, and once more. */
static void ask_to_the_end(size_t length, size_t size)
{
    uint64_t head[TJ_HEAD];
    size_t place = 0, got = 1, asked;
    tj_open_head(pool, sizeof pool, records, sizeof records, 0, head, answer);
    CHECK(done(length) && head_is(head, 0, 0, length, 1));
    memset(joined, 0xEE, sizeof joined);
    while (got != 0) {
        asked = size < sizeof joined - place ? size : sizeof joined - place;
        tj_next(pool, sizeof pool, head, joined + place, asked, answer);
        got = asked < length - place ? asked : length - place;
        CHECK(done(got) && head_is(head, 0, place + got, length, 1));
        place += got;
    }
    CHECK(place == length && memcmp(joined, whole, length) == 0 && joined[length] == 0xEE);
    tj_next(pool, sizeof pool, head, joined + length, 1, answer);
    CHECK(done(0) && head_is(head, 0, length, length, 1) && joined[length] == 0xEE);
}

static void test_pieces(void)
{
    static const size_t lengths[] = {0, 1, 47, 48, 49, 575, 576, 577, 6912, 6913, LONGEST};
    static const size_t sizes[] = {1, 7, 47, 48, 49, 576, 1000, LONGEST, LONGEST + 1};
    size_t l, s;
    for (l = 0; l < COUNT(lengths); l++) {
        lay_blob(MANY, lengths[l]);
        tj_read(pool, sizeof pool, records, sizeof records, 0, 0, whole, lengths[l], answer);
        CHECK(done(0) && memcmp(whole, bytes, lengths[l]) == 0);
        for (s = 0; s < COUNT(sizes); s++) {
            ask_to_the_end(lengths[l], sizes[s]);
        }
    }
}

/* Opening is refused as length is; the head is then zeros, and hands out nothing. */
static void test_refused(void)
{
    uint64_t head[TJ_HEAD] = {9, 9, 9, 9};
    uint8_t out = 0x77;
    lay_blob(MANY, 100);
    pool[TJ_BLOCK + 8]--;
    tj_open_head(pool, sizeof pool, records, sizeof records, 0, head, answer);
    CHECK(refused(TJ_ROLLED_BACK, 1) && head_is(head, 0, 0, 0, 0));
    pool[TJ_BLOCK + 8]++;
    tj_next(pool, sizeof pool, head, &out, 1, answer);
    CHECK(done(0) && head_is(head, 0, 0, 0, 0) && out == 0x77);
    tj_open_head(pool, sizeof pool, records, sizeof records, MANY, head, answer);
    CHECK(refused(TJ_NO_ROOT, TJ_NO_SLOT) && head_is(head, 0, 0, 0, 0));
}

/* All that is lent to a head, with something on either side of each. */
typedef struct {
    uint64_t side_0, head[TJ_HEAD], side_1, answer[TJ_ANSWER], side_2;
    uint8_t pool[TJ_BLOCK * SLOTS], side_3[TJ_BLOCK], out[MOST], side_4[TJ_BLOCK];
} area;

static area lent, wanted;

/* The number of a child in a row, 0 if there is no such slot. */
static uint64_t child(size_t slots, uint64_t slot, uint64_t number)
{
    const uint8_t *at;
    if (slot >= slots) {
        return 0;
    }
    at = lent.pool + TJ_BLOCK * slot + 16 + 4 * number;
    return at[0] | (uint64_t)at[1] << 8 | (uint64_t)at[2] << 16 | (uint64_t)at[3] << 24;
}

/* The slot of a block so many heights below the root, counted from 0. */
static uint64_t slot_below(size_t slots, uint64_t root, unsigned heights, uint64_t number)
{
    return heights == 0 ? root : child(slots, slot_below(slots, root, heights - 1, number / 12), number % 12);
}

/* A byte of the blob, by position alone. */
static uint8_t byte_at(size_t slots, uint64_t root, uint64_t place)
{
    unsigned height = root < slots ? lent.pool[TJ_BLOCK * root + 2] : 0;
    uint64_t slot = slot_below(slots, root, height < TALLEST ? height : TALLEST, place / TJ_LEAF);
    return slot < slots ? lent.pool[TJ_BLOCK * slot + 16 + place % TJ_LEAF] : 0;
}

/* One asking: all that is lent, and what is beside it, is then as the definition has it. */
static void ask_forged(size_t pool_length, size_t size)
{
    uint64_t left = lent.head[TJ_HEAD_PLACE] < lent.head[TJ_HEAD_LENGTH] ? lent.head[TJ_HEAD_LENGTH] - lent.head[TJ_HEAD_PLACE] : 0, i;
    uint64_t count = lent.head[TJ_HEAD_OPEN] != 1 ? 0 : left < size ? left : size;
    memset(lent.out, 0xA5, sizeof lent.out);
    memcpy(&wanted, &lent, sizeof wanted);
    for (i = 0; i < count; i++) {
        wanted.out[i] = byte_at(pool_length / TJ_BLOCK, lent.head[TJ_HEAD_ROOT], lent.head[TJ_HEAD_PLACE] + i);
    }
    wanted.head[TJ_HEAD_PLACE] += count;
    memset(wanted.answer, 0, sizeof wanted.answer);
    wanted.answer[TJ_SLOT] = TJ_NO_SLOT;
    wanted.answer[TJ_VALUE] = count;
    tj_next(lent.pool, pool_length, lent.head, lent.out, size, lent.answer);
    CHECK(memcmp(&lent, &wanted, sizeof lent) == 0);
}

/* Heads of these numbers over the pool that is laid, at all its lengths. */
static void forge(uint64_t root, uint64_t place, uint64_t length, uint64_t open)
{
    static const size_t pools[] = {0, 1, 63, 64, 65, 10 * TJ_BLOCK + 5, TJ_BLOCK * SLOTS - 1, TJ_BLOCK * SLOTS};
    static const size_t sizes[] = {0, 1, 49, MOST};
    size_t p, s;
    for (p = 0; p < COUNT(pools); p++) {
        for (s = 0; s < COUNT(sizes); s++) {
            lent.head[TJ_HEAD_ROOT] = root;
            lent.head[TJ_HEAD_PLACE] = place;
            lent.head[TJ_HEAD_LENGTH] = length;
            lent.head[TJ_HEAD_OPEN] = open;
            ask_forged(pools[p], sizes[s]);
        }
    }
}

static void forge_all(void)
{
    static const uint64_t roots[] = {0, 1, 2, 14, SLOTS - 1, SLOTS, (uint64_t)1 << 32, UINT64_MAX};
    /* 82,944 and 11,943,936 are the bytes of the leaves below a root of height 3, the greatest before pools had more than 1,024 slots, and of 5. */
    static const uint64_t places[] = {0, 1, 47, 100, 575, 576, 82943, 82944, 11943935, 11943936, (uint64_t)1 << 32, UINT64_MAX - 1, UINT64_MAX};
    static const uint64_t lengths[] = {0, 1, 577, 100000, 12000000, UINT64_MAX};
    size_t r, p, l;
    for (r = 0; r < COUNT(roots); r++) {
        for (p = 0; p < COUNT(places); p++) {
            for (l = 0; l < COUNT(lengths); l++) {
                forge(roots[r], places[p], lengths[l], 1);
            }
        }
        forge(roots[r], 0, 577, 0);
        forge(roots[r], 0, 577, 2);
        forge(roots[r], 0, 577, UINT64_MAX);
        forge(roots[r], 0, 577, (uint64_t)1 << 32 | 1);
    }
}

/* A sound pool; the same with a root's height and child slots that no check would pass; bytes of no meaning, of height 0 and of 3 to 7; ones. */
static void test_forged(void)
{
    size_t i;
    uint32_t some = 1;
    memset(&lent, 0xA5, sizeof lent);
    lay_blob(SLOTS, 577);
    memcpy(lent.pool, pool, sizeof lent.pool);
    forge_all();
    lent.pool[2] = 255;
    memset(lent.pool + 16 + 4, 0xFF, 4);
    lent.pool[16] = SLOTS;
    forge_all();
    for (i = 0; i < sizeof lent.pool; i++) {
        some = some * 1664525 + 1013904223;
        lent.pool[i] = i % 4 < 2 ? (uint8_t)(some >> 24) % SLOTS : 0;
    }
    forge_all();
    for (i = 0; i < SLOTS; i++) {
        lent.pool[TJ_BLOCK * i + 2] = (uint8_t)(3 + i % 5);
    }
    forge_all();
    memset(lent.pool, 0xFF, sizeof lent.pool);
    forge_all();
}

int main(void)
{
    forget();
    test_pieces();
    test_refused();
    test_forged();
    return told();
}
