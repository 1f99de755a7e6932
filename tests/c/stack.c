/* How much stack each call takes, against what the header says: TJ_STACK at each size of the rows and one slot above it, and the header's table.
 * Each call runs on a stack of its own that was painted before; what is no longer painted below the caller's frame was used. The pool is filled
 * by one blob, or holds a chain of blocks as high as a root may be. The header's path is the program's only word. */
#define _GNU_SOURCE
#include <pthread.h>
#include <stdio.h>
#include <stdlib.h>
#include <string.h>

#include "tjornsaki.h"

#define ROOM (1u << 20)
#define PAINT 0xA5
#define LONGEST 2883456 /* the bytes of the longest blob in 65,536 slots */
#define LITTLE 1024     /* what wipe and next may take, which make no rows */
#define LEAST 2048      /* what a call may take that is refused with 1, which makes no rows */
#define SLACK 512       /* between the header's table and what is measured: frames differ by compiler, but no row of 1,024 places is so short */
#define COLUMNS 4       /* of the table */

#define COUNT(list) (sizeof(list) / sizeof *(list))

static uint8_t stack[ROOM] __attribute__((aligned(4096)));
static uint8_t pool[TJ_BLOCK * (TJ_SLOTS + 1)], records[TJ_RECORD * (TJ_SLOTS + 1)], bytes[LONGEST];
static uint64_t answer[TJ_ANSWER], head[TJ_HEAD];
static size_t pool_length, records_length, used;
static uint64_t root, length;
static unsigned failures;

static void wipe(void) { tj_wipe(pool, pool_length, records, records_length, answer); }
static void create(void) { tj_create(pool, pool_length, records, records_length, answer); }
static void tell(void) { tj_length(pool, pool_length, records, records_length, root, answer); }
static void read(void) { tj_read(pool, pool_length, records, records_length, root, 0, bytes, length, answer); }
static void write(void) { tj_write(pool, pool_length, records, records_length, root, 0, bytes, length, answer); }
static void resize(void) { tj_resize(pool, pool_length, records, records_length, root, length, answer); }
static void delete(void) { tj_delete(pool, pool_length, records, records_length, root, answer); }
static void show(void) { tj_show(pool, pool_length, records, records_length, root, 0, answer); }
static void audit(void) { tj_audit(pool, pool_length, records, records_length, answer); }
static void open_head(void) { tj_open_head(pool, pool_length, records, records_length, root, head, answer); }
static void next(void) { tj_next(pool, pool_length, head, bytes, length, answer); }
static void nothing(void) {}

/* Looks before the thread ends, which takes stack too. */
static void *call_in_thread(void *call)
{
    volatile uint8_t here = 0;
    size_t low = 0;
    (*(void (**)(void))call)();
    while (low < sizeof stack && stack[low] == PAINT) {
        low++;
    }
    used = (size_t)(&here - (stack + low));
    return NULL;
}

static size_t stack_of(void (*call)(void))
{
    pthread_attr_t own;
    pthread_t thread;
    memset(stack, PAINT, sizeof stack);
    if (pthread_attr_init(&own) != 0 || pthread_attr_setstack(&own, stack, sizeof stack) != 0
        || pthread_create(&thread, &own, call_in_thread, &call) != 0 || pthread_join(thread, NULL) != 0) {
        fprintf(stderr, "no thread with a stack of its own\n");
        exit(1);
    }
    return used;
}

/* The header's table: a line for each function, with a number for each of these pools. */
static const size_t columns[COLUMNS] = {64, 1024, 8192, 65536};
static struct {
    char name[32];
    size_t bytes[COLUMNS], found[COLUMNS];
} table[16];
static size_t rows;

static void read_table(const char *path)
{
    char line[400], *from, *to;
    FILE *file = fopen(path, "r");
    while (file != NULL && rows < COUNT(table) && fgets(line, sizeof line, file) != NULL) {
        for (from = to = line; *from != 0; from++) {
            if (*from != ',') {
                *to++ = *from;
            }
        }
        *to = 0;
        if (sscanf(line, " * tj_%31s %zu %zu %zu %zu", table[rows].name, &table[rows].bytes[0], &table[rows].bytes[1],
                   &table[rows].bytes[2], &table[rows].bytes[3]) == 1 + COLUMNS) {
            rows++;
        }
    }
    if (file == NULL || fclose(file) != 0 || rows != 11) {
        fprintf(stderr, "%s: no table of the stack of eleven functions\n", path);
        exit(1);
    }
}

/* A pool between two of the table's sizes takes no more than the larger; one of up to 128 slots no more than one of 64, which has the same rows. */
static int fits_column(const char *function, size_t slots, size_t some)
{
    size_t row, column = slots <= 128 ? 0 : slots <= 1024 ? 1 : slots <= 8192 ? 2 : 3;
    for (row = 0; row < rows; row++) {
        if (strcmp(table[row].name, function) == 0 && some > table[row].bytes[column] + SLACK) {
            return 0;
        }
    }
    return 1;
}

/* Keeps the most that was found for a function at one of the table's sizes. */
static void keep(const char *function, size_t slots, size_t some)
{
    size_t row, column;
    for (row = 0; row < rows; row++) {
        for (column = 0; column < COLUMNS; column++) {
            if (strcmp(table[row].name, function) == 0 && columns[column] == slots && table[row].found[column] < some) {
                table[row].found[column] = some;
            }
        }
    }
}

/* A number as the table has it. */
static void print_number(size_t number)
{
    char digits[32];
    if (number < 1000) {
        snprintf(digits, sizeof digits, "%zu", number);
    } else {
        snprintf(digits, sizeof digits, "%zu,%03zu", number / 1000, number % 1000);
    }
    printf("%12s", digits);
}

/* Prints what was found, as it can stand in the header, and holds the header to it. */
static void hold_table(void)
{
    size_t row, column;
    for (row = 0; row < rows; row++) {
        printf(" *   tj_%-9s", table[row].name);
        for (column = 0; column < COLUMNS; column++) {
            size_t said = table[row].bytes[column], some = table[row].found[column];
            print_number(some);
            if (some + SLACK < said || some > said + SLACK) {
                failures++;
                fprintf(stderr, "tj_%s: %zu bytes at %zu slots, and the header says %zu\n", table[row].name, some, columns[column], said);
            }
        }
        printf("\n");
    }
}

/* The call ends so, and takes no more than that. */
static void measure(const char *function, void (*call)(void), uint64_t refusal, size_t most)
{
    size_t slots = pool_length / TJ_BLOCK, some;
    answer[TJ_REFUSAL] = refusal;
    some = stack_of(call);
    if (answer[TJ_REFUSAL] != refusal || some > most || !fits_column(function, slots, some)) {
        failures++;
        fprintf(stderr, "%s, %zu slots: refused with %d, and %zu bytes of stack, not at most %zu or the table's\n", function, slots, (int)answer[TJ_REFUSAL], some, most);
    }
    if (refusal != TJ_BAD_LENGTHS) {
        keep(function, slots, some);
    }
}

static uint64_t blocks(uint64_t leaves)
{
    return leaves == 1 ? 1 : leaves + blocks((leaves + 11) / 12);
}

/* The length of the longest blob in so many slots. */
static uint64_t longest(size_t slots)
{
    uint64_t leaves = 1;
    while (blocks(leaves + 1) <= slots) {
        leaves++;
    }
    return TJ_LEAF * leaves;
}

/* A second blob beside one that lacks a leaf to the longest. */
static void measure_second(size_t most)
{
    length -= TJ_LEAF;
    measure("resize", resize, TJ_DONE, most);
    measure("create", create, TJ_DONE, most);
}

/* Every call in a pool that one blob fills. */
static void measure_all(size_t slots)
{
    const size_t most = TJ_STACK(slots);
    pool_length = TJ_BLOCK * slots;
    records_length = TJ_RECORD * slots;
    measure("wipe", wipe, TJ_DONE, LITTLE);
    measure("create", create, TJ_DONE, most);
    root = answer[TJ_VALUE];
    length = longest(slots);
    measure("resize", resize, TJ_DONE, most);
    memset(bytes, 7, length);
    measure("write", write, TJ_DONE, most);
    measure("length", tell, TJ_DONE, most);
    measure("read", read, TJ_DONE, most);
    measure("show", show, TJ_DONE, most);
    measure("audit", audit, TJ_DONE, most);
    measure("open_head", open_head, TJ_DONE, most);
    measure("next", next, TJ_DONE, LITTLE);
    if (head[TJ_HEAD_PLACE] != length || length > LONGEST) {
        failures++;
        fprintf(stderr, "next: not the whole blob was handed out\n");
    }
    if (slots > 1) {
        measure_second(most);
    }
    measure("delete", delete, TJ_DONE, most);
    measure("create", create, TJ_DONE, most);
    root = answer[TJ_VALUE];
    length = 1;
    measure("resize", resize, TJ_DONE, most);
}

/* A block whose first child is the next slot, and its record. */
static void lay(size_t slot, uint8_t height, uint8_t count)
{
    uint8_t *block = pool + TJ_BLOCK * slot, *record = records + TJ_RECORD * slot;
    block[0] = 0x4C, block[1] = 0x31, block[2] = height, block[3] = count, block[4] = (uint8_t)slot, block[8] = 1;
    memset(block + 16, 0xFF, height == 0 ? count : 4 * count);
    memset(block + 16, 0, 4);
    block[16] = (uint8_t)(slot + 1);
    record[2] = slot == 0 ? 2 : 1, record[4] = 1;
}

/* Every call but wipe in a pool whose root is as high as a root may be, with one block of each height below it: the walk goes down to the leaf, and
 * is refused at the next child. The same root under a head that no opening made. */
static void measure_chain(size_t slots)
{
    const size_t most = TJ_STACK(slots);
    size_t slot;
    pool_length = TJ_BLOCK * slots;
    records_length = TJ_RECORD * slots;
    wipe();
    for (slot = 0; slot < 5; slot++) {
        lay(slot, (uint8_t)(5 - slot), slot == 0 ? 2 : 12);
    }
    lay(5, 0, TJ_LEAF);
    root = 0, length = 1;
    measure("create", create, TJ_WRONG_SHAPE, most);
    measure("length", tell, TJ_WRONG_SHAPE, most);
    measure("read", read, TJ_WRONG_SHAPE, most);
    measure("write", write, TJ_WRONG_SHAPE, most);
    measure("resize", resize, TJ_WRONG_SHAPE, most);
    measure("delete", delete, TJ_WRONG_SHAPE, most);
    measure("show", show, TJ_WRONG_SHAPE, most);
    measure("audit", audit, TJ_WRONG_SHAPE, most);
    measure("open_head", open_head, TJ_WRONG_SHAPE, most);
    head[TJ_HEAD_ROOT] = 0, head[TJ_HEAD_PLACE] = 0, head[TJ_HEAD_LENGTH] = 1, head[TJ_HEAD_OPEN] = 1;
    measure("next", next, TJ_DONE, LITTLE);
}

/* Lengths that fit no store: no row is made, however long the pool is. */
static void measure_refused(size_t pool_bytes, size_t records_bytes)
{
    static void (*const calls[])(void) = {wipe, create, tell, read, write, resize, delete, show, audit, open_head};
    size_t i;
    pool_length = pool_bytes;
    records_length = records_bytes;
    for (i = 0; i < COUNT(calls); i++) {
        measure("a call with lengths that do not fit", calls[i], TJ_BAD_LENGTHS, LEAST);
    }
}

int main(int count, char **words)
{
    /* The sizes of the table, and each size of the rows with the number after it, for which the next larger rows are made. */
    static const size_t sizes[] = {1, 64, 128, 129, 1024, 1025, 8192, 8193, 65536};
    /* A number of slots that is constant gives one that serves for an array. */
    static uint8_t room[TJ_STACK(TJ_SLOTS)];
    size_t i;
    if (count != 2 || sizeof room != 737280 || sizeof room >= ROOM) {
        fprintf(stderr, "no path of the header, or another most than it says\n");
        return 1;
    }
    read_table(words[1]);
    measure("nothing", nothing, TJ_DONE, 64);
    for (i = 0; i < COUNT(sizes); i++) {
        measure_all(sizes[i]);
        if (sizes[i] > 5) {
            measure_chain(sizes[i]);
        }
    }
    hold_table();
    measure_refused(TJ_BLOCK * (TJ_SLOTS + 1), TJ_RECORD * (TJ_SLOTS + 1));
    measure_refused(TJ_BLOCK * TJ_SLOTS, TJ_RECORD * TJ_SLOTS - 1);
    measure_refused(TJ_BLOCK * TJ_SLOTS - 1, TJ_RECORD * TJ_SLOTS);
    measure_refused(0, 0);
    return failures != 0;
}
