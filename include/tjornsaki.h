/*
 * Tjornsaki: a small block store over two byte areas that the caller lends.
 *
 * The pool holds N blocks of 64 bytes, N from 1 to 65,536, and is not trusted. The records hold N records of 12 bytes and are trusted: they
 * say which slots are in use and at which version. A blob is a string of bytes, named by its root's slot, which stays the same as long as the
 * blob lives.
 *
 * Every function takes any pool, any records, any lengths and any numbers: what does not fit is refused, and nothing is undefined, as long as
 *   - no pointer is NULL, also before a length of 0, and each points to as many bytes as the length after it says,
 *   - answer points to eight numbers, and head to four,
 *   - pool, records, head, out and answer do not overlap, and neither does data with pool, records or answer,
 *   - no other thread touches them during the call.
 * A function keeps no pointer and nothing else between calls, takes no memory from the heap, and calls nothing but C's memset and memcpy.
 *
 * Stack. A call makes its rows there, by the number of slots: with 128, 1,024, 8,192 or 65,536 places, the least of these that suffices; so a pool
 * of 129 slots takes the stack of one of 1,024. Write, resize and delete make ten bytes a place, length, read, show and opening a head five, create and
 * audit one, wipe and tj_next none; and a call that is refused with 1 touches none and takes less than 2 KiB. The
 * walk is never deeper than six blocks. TJ_STACK(slots) is more than any call takes in a pool of so many slots. What each takes, in
 * bytes, as tests/c/stack.c measures it on x86-64, in a pool that one blob fills or whose root claims the greatest height, whichever takes more:
 *
 *   slots                 64       1,024       8,192      65,536
 *   tj_wipe              103         103         103         103
 *   tj_create          2,447       3,391      10,559      67,903
 *   tj_length          2,655       7,183      43,023     329,743
 *   tj_read            2,879       7,359      43,199     329,919
 *   tj_write           4,127      13,087      84,767     658,207
 *   tj_resize          5,559      13,471      85,151     658,591
 *   tj_delete          3,727      12,719      84,399     657,839
 *   tj_show            2,767       7,247      43,087     329,807
 *   tj_audit           2,383       3,327      10,495      67,839
 *   tj_open_head       2,687       7,215      43,055     329,775
 *   tj_next              311         311         311         311
 *
 * Every function leaves eight numbers in answer, whatever was there before:
 *   answer[TJ_REFUSAL]      the number of the refusal, 0 if the call was done
 *   answer[TJ_SLOT]         the slot that the refusal names, TJ_NO_SLOT if it names none or if the call was done
 *   answer[TJ_VALUE]        the call's value, as said below; 0 if there is none or if the call was refused
 *   answer[TJ_COUNT]        tj_show: how many bytes the shown part has; 0 in every other case
 *   answer[4] to answer[7]  0
 *
 * A call that is refused writes nothing but answer; tj_open_head also leaves a head of zeros. The refusals, of which the first that holds is given:
 *
 *    1  the pool's length is not 64 N with N from 1 to 65,536, or the records' length is not 12 N
 *    2  a record breaks its layout; names the lowest such slot
 *    3  the named root is not below N, or its record is not a root
 *    4  spoiled: a block's mark is wrong; names the block's slot
 *    5  moved: a block says another slot than its own; names the slot where it lies
 *    6  rolled back: a block's version is below its record; names its slot
 *    7  ahead: a block's version is above its record; names its slot
 *    8  wrong shape: names the block whose height, count, trailing bytes or child slot is wrong, or the part that no blob has
 *    9  reintroduced: a block's row names a free slot, or a free slot is not all zeros; names that free slot
 *   10  the stretch does not lie within the blob's length, or the blob has no leaf of that number
 *   11  more new blocks are needed than there are usable free slots
 *   12  write or resize of a blob that has a block at version 2^64 - 1
 *
 * They come in this order: 1; 2; 3 where a root is named; 4 to 9 for the blob (length, opening a head, read, show) or for the whole pool (create,
 * write, resize, delete, audit); 12; 10; 11. tj_wipe knows refusal 1 only, tj_next none. The refusals 1, 3, 10, 11 and 12 name no slot.
 *
 * A head hands out a blob's bytes from the first to the last, as many at a time as one asks for: however the asking is cut up, the pieces joined are
 * what tj_read gives. It is four numbers that the caller keeps; tj_open_head sets them, and tj_next moves the place on:
 *   head[TJ_HEAD_ROOT]      the blob's root
 *   head[TJ_HEAD_PLACE]     how many bytes were handed out so far
 *   head[TJ_HEAD_LENGTH]    the blob's length
 *   head[TJ_HEAD_OPEN]      1; if opening was refused, all four are 0, and such a head hands out nothing, for ever
 *
 * Only opening checks the blob. So the pool must not change between askings, or the bytes are those of the changed pool, unchecked: open anew
 * after a change. A head that tj_open_head did not make, or that is used with another pool, hands out some bytes of the pool that is lent, or zeros;
 * which ones, docs/DECISIONS.md says. Whatever its numbers are, tj_next touches nothing outside what it is lent.
 */
#ifndef TJORNSAKI_H
#define TJORNSAKI_H

#include <stddef.h>
#include <stdint.h>

#ifdef __cplusplus
extern "C" {
#endif

/* Rises when a function is added, or when a program for the header of before may need a change; so a program can ask by it what it has. 1 was the
 * nine functions without a head; 2 came with the head; 3 takes pools of more than 1,024 slots, and TJ_STACK takes their number. It is the second
 * number of the version that pkg-config tells. */
#define TJ_VERSION 3

/* The numbers in an answer, and the places of those that have a name. */
#define TJ_ANSWER 8
#define TJ_REFUSAL 0
#define TJ_SLOT 1
#define TJ_VALUE 2
#define TJ_COUNT 3

/* The numbers of a head, and their places. */
#define TJ_HEAD 4
#define TJ_HEAD_ROOT 0
#define TJ_HEAD_PLACE 1
#define TJ_HEAD_LENGTH 2
#define TJ_HEAD_OPEN 3

/* The number that stands for no slot. */
#define TJ_NO_SLOT UINT64_MAX

/* The bytes of a block and of a record, the data bytes of a leaf, and the most slots of a pool. */
#define TJ_BLOCK 64
#define TJ_RECORD 12
#define TJ_LEAF 48
#define TJ_SLOTS 65536

/* The places of the rows that a call makes in a pool of so many slots. */
#define TJ_PLACES(slots) ((slots) <= 128 ? 128 : (slots) <= 1024 ? 1024 : (slots) <= 8192 ? 8192 : 65536)

/* The most bytes of stack that a call takes in a pool of at most so many slots: 11 for each place of its rows, and 16 KiB. Constant if the number of
 * slots is, so that an array can have that size; TJ_STACK(TJ_SLOTS), 737,280 bytes, is enough for every pool. */
#define TJ_STACK(slots) (11 * TJ_PLACES(slots) + 16384)

/* The refusals. */
#define TJ_DONE 0
#define TJ_BAD_LENGTHS 1
#define TJ_BAD_RECORD 2
#define TJ_NO_ROOT 3
#define TJ_SPOILED 4
#define TJ_MOVED 5
#define TJ_ROLLED_BACK 6
#define TJ_AHEAD 7
#define TJ_WRONG_SHAPE 8
#define TJ_REINTRODUCED 9
#define TJ_OUT_OF_RANGE 10
#define TJ_FULL 11
#define TJ_WORN 12

/* Makes the store empty: the pool all zeros, each record free at version 0. Old blocks pass again after it: wipe only what is new. No value. */
void tj_wipe(uint8_t *pool, size_t pool_length, uint8_t *records, size_t records_length, uint64_t answer[TJ_ANSWER]);

/* Makes an empty blob, in the lowest usable free slot. Value: that slot, the new blob's root. */
void tj_create(uint8_t *pool, size_t pool_length, uint8_t *records, size_t records_length, uint64_t answer[TJ_ANSWER]);

/* Value: the blob's length in bytes. */
void tj_length(const uint8_t *pool, size_t pool_length, const uint8_t *records, size_t records_length, uint64_t root, uint64_t answer[TJ_ANSWER]);

/* Fills the whole of out with the blob's bytes from the offset on. A read of no bytes is done up to the blob's very end. If the
 * call is refused, out is untouched. No value. */
void tj_read(const uint8_t *pool, size_t pool_length, const uint8_t *records, size_t records_length, uint64_t root, uint64_t offset,
             uint8_t *out, size_t out_length, uint64_t answer[TJ_ANSWER]);

/* Opens a head at the blob's first byte, and checks the blob, with the refusals of tj_length. Value: the blob's length. */
void tj_open_head(const uint8_t *pool, size_t pool_length, const uint8_t *records, size_t records_length, uint64_t root,
                  uint64_t head[TJ_HEAD], uint64_t answer[TJ_ANSWER]);

/* Hands out the blob's next bytes, as many as out has room for or as remain, into the first bytes of out; the rest of out stays as it was. No records
 * are needed, and nothing is refused: at the end, and by a head that is not open, 0 bytes are handed out. Of head the place alone changes.
 * Value: how many bytes were handed out. */
void tj_next(const uint8_t *pool, size_t pool_length, uint64_t head[TJ_HEAD], uint8_t *out, size_t out_length, uint64_t answer[TJ_ANSWER]);

/* Puts data into the blob from the offset on, inside its present length. No value. */
void tj_write(uint8_t *pool, size_t pool_length, uint8_t *records, size_t records_length, uint64_t root, uint64_t offset,
              const uint8_t *data, size_t data_length, uint64_t answer[TJ_ANSWER]);

/* Gives the blob that length. What is added is zeros; what is cut off is gone. No value. */
void tj_resize(uint8_t *pool, size_t pool_length, uint8_t *records, size_t records_length, uint64_t root, uint64_t length,
               uint64_t answer[TJ_ANSWER]);

/* Removes the blob with all its blocks. No value. */
void tj_delete(uint8_t *pool, size_t pool_length, uint8_t *records, size_t records_length, uint64_t root, uint64_t answer[TJ_ANSWER]);

/* Shows a leaf of the blob, counted from 0: its data bytes as they lie in the pool, not a copy.
 * Value: where in the pool they start. answer[TJ_COUNT]: how many they are. */
void tj_show(const uint8_t *pool, size_t pool_length, const uint8_t *records, size_t records_length, uint64_t root, uint64_t leaf,
             uint64_t answer[TJ_ANSWER]);

/* Checks the whole pool. Value: the count of slots in use. */
void tj_audit(const uint8_t *pool, size_t pool_length, const uint8_t *records, size_t records_length, uint64_t answer[TJ_ANSWER]);

#ifdef __cplusplus
}
#endif

#endif
