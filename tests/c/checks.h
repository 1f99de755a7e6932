/* What the tests in C share: checks that are counted, and looks at all numbers of an answer and of a head. */
#include <stdio.h>
#include <string.h>

#include "tjornsaki.h"

static uint64_t answer[TJ_ANSWER];
static unsigned checks, failures;

static void check(int holds, const char *what, int line)
{
    checks++;
    if (!holds) {
        failures++;
        fprintf(stderr, "line %d: %s\n", line, what);
    }
}

#define CHECK(what) check((what), #what, __LINE__)

/* Something that is no answer, so that a number which a call leaves out is seen. */
static void forget(void)
{
    memset(answer, 0xA5, sizeof answer);
}

static int says(uint64_t refusal, uint64_t slot, uint64_t value, uint64_t count)
{
    const uint64_t wanted[TJ_ANSWER] = {refusal, slot, value, count, 0, 0, 0, 0};
    int same = memcmp(answer, wanted, sizeof wanted) == 0;
    forget();
    return same;
}

static int done(uint64_t value)
{
    return says(TJ_DONE, TJ_NO_SLOT, value, 0);
}

static int refused(uint64_t refusal, uint64_t slot)
{
    return says(refusal, slot, 0, 0);
}

static int head_is(const uint64_t head[TJ_HEAD], uint64_t root, uint64_t place, uint64_t length, uint64_t open)
{
    const uint64_t wanted[TJ_HEAD] = {root, place, length, open};
    return memcmp(head, wanted, sizeof wanted) == 0;
}

/* How the checks went, as the program's status. */
static int told(void)
{
    printf("%u checks, %u failed\n", checks, failures);
    return failures != 0;
}
