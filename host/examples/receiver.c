/* A receiver: loads a table once, reads each message through it, and meets three refusals. */

#include <inttypes.h>
#include <stdio.h>

#include "teyolxan.h"

/* A car park, and how many of its places are free: each row with its offset. */
static const uint8_t table[30] = {
    0x04, 0, 2, 0,                                           /* 0: lot, a variable number */
    0x0C, 0, 1, 0, 0x00, 0x00, 0x00, 0x00, 0xE7, 0x03, 0, 0, /* 4: free places, 0 to 999 */
    0x0E, 0, 5, 0, 2, 0, 0, 0, 0, 0, 4, 0, 0, 0,             /* 16: a record of both */
};

static const struct {
    size_t length;
    uint8_t octets[4];
} messages[3] = {
    {4, {0x80, 0xAC, 0x04, 0x40}},
    {3, {0x07, 0xF9, 0xC0}},
    {3, {0x07, 0xFA, 0x00}},
};

static uint8_t state[TEYOLXAN_STATE_SIZE]; /* all zeros: fresh */

static int passed(const char *call, const uint64_t numbers[6])
{
    if (numbers[TEYOLXAN_NUMBER] == 0)
        return 1;
    printf("%s: refused %" PRIu64 " at %" PRIu64 ": %s\n", call, numbers[TEYOLXAN_NUMBER], numbers[TEYOLXAN_PLACE],
           teyolxan_meaning(numbers[TEYOLXAN_NUMBER]));
    return 0;
}

static void load(size_t length)
{
    uint64_t numbers[6];

    teyolxan_load(state, table, length, numbers);
    if (passed("load", numbers))
        printf("load: passed\n");
}

static void receive(size_t i)
{
    uint64_t numbers[6];
    int64_t values[8];

    teyolxan_read_loaded(state, messages[i].octets, messages[i].length, (uint8_t *)values, sizeof values, numbers);
    if (passed("read", numbers))
        printf("read: lot %" PRId64 ", %" PRId64 " free\n", values[0], values[1]);
}

int main(void)
{
    receive(0);
    load(sizeof table);
    for (size_t i = 0; i < 3; i++)
        receive(i);
    /* A table that lacks its last octet: the one before it stays. */
    load(sizeof table - 1);
    receive(0);
    return 0;
}
