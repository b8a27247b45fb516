/* A host: checks a table, reads a message under it, writes the values back, and meets three refusals. */

#include <inttypes.h>
#include <stdio.h>
#include <string.h>

#include "teyolxan.h"

/* The notice of a car park, from TABLES.md: each row with its offset. */
static const uint8_t table[128] = {
    0x0C, 0, 1, 0, 0x00, 0x00, 0x00, 0x00, 0xFF, 0x00, 0, 0, /* 0: octet, 0 to 255 */
    0x0C, 0, 1, 0, 0xD8, 0xFF, 0xFF, 0xFF, 0x7D, 0x00, 0, 0, /* 12: temperature, -40 to 85 */
    0x04, 0, 2, 0,                                           /* 24: lot, a variable number */
    0x0C, 0, 1, 0, 0x00, 0x00, 0x00, 0x00, 0xE7, 0x03, 0, 0, /* 28: free places, 0 to 999 */
    0x0C, 0, 1, 0, 0x00, 0x00, 0x00, 0x00, 0x07, 0x00, 0, 0, /* 40: reason, 0 to 7 */
    0x0C, 0, 6, 0, 3, 0, 28, 0, 0xFF, 0xFF, 40, 0,           /* 52: state, a choice */
    0x08, 0, 3, 0, 2, 0, 0, 0,                               /* 64: prefix, two octets */
    0x06, 0, 7, 0, 20, 0,                                    /* 72: note, at most 20 octets */
    0x0C, 0, 1, 0, 0x00, 0x00, 0x00, 0x00, 0xC8, 0x00, 0, 0, /* 78: fee, 0 to 200 */
    0x08, 0, 4, 0, 4, 0, 78, 0,                              /* 90: fees, at most 4 */
    0x1E, 0, 5, 0, 6, 0,                                     /* 98: notice, a record of six fields */
    24, 0, 0, 0, 12, 0, 0, 0, 52, 0, 0, 0, 64, 0, 0, 0, 72, 0, 1, 0, 90, 0, 0, 0,
};

static const uint8_t message[13] = {
    0xC0, 0x56, 0x23, 0x01, 0x14, 0x14, 0x20, 0x24, 0x86, 0x90, 0x29, 0x6C, 0x80,
};

static const int64_t temperatures[2] = {-41, 20};

static void refused(const char *call, const uint64_t numbers[6])
{
    printf("%s: refused %" PRIu64 " at %" PRIu64 ": %s\n", call, numbers[TEYOLXAN_NUMBER], numbers[TEYOLXAN_PLACE],
           teyolxan_meaning(numbers[TEYOLXAN_NUMBER]));
}

int main(void)
{
    uint64_t numbers[6];
    int64_t values[32]; /* x86-64 is little-endian: values are lent as they stand in memory */
    uint8_t slip[sizeof table];
    uint8_t output[100];
    size_t count = 0;

    /* As it is, then with one reference of the last row two octets late: 74 for 72. */
    memcpy(slip, table, sizeof table);
    slip[120] = 74;
    for (size_t i = 0; i < 2; i++) {
        teyolxan_check(i == 0 ? table : slip, sizeof table, numbers);
        if (numbers[TEYOLXAN_NUMBER] == 0)
            printf("table: passed\n");
        else
            refused("table", numbers);
    }

    /* Cut, then whole. What the values leave of their slice is zeroed. */
    for (size_t length = 12; length <= 13; length++) {
        teyolxan_read(table, sizeof table, message, length, (uint8_t *)values, sizeof values, numbers);
        if (numbers[TEYOLXAN_NUMBER] == TEYOLXAN_REFUSED_MESSAGE_ENDS) { /* the rest may still come */
            printf("read: cut, the item at bit %" PRIu64 " is not whole\n", numbers[TEYOLXAN_PLACE]);
            continue;
        }
        if (numbers[TEYOLXAN_NUMBER] != 0) {
            refused("read", numbers);
            continue;
        }
        count = numbers[TEYOLXAN_VALUES];
        printf("read: %" PRIu64 " bits, values", numbers[TEYOLXAN_BITS]);
        for (size_t at = 0; at < count; at++)
            printf(" %" PRId64, values[at]);
        printf("\n");
    }

    /* The list that was read, with another temperature: its third value. */
    for (size_t i = 0; i < 2; i++) {
        values[2] = temperatures[i];
        teyolxan_write(table, sizeof table, (const uint8_t *)values, 8 * count, output, sizeof output, numbers);
        if (numbers[TEYOLXAN_NUMBER] != 0) {
            refused("write", numbers);
            continue;
        }
        printf("write: octets");
        for (size_t at = 0; at < numbers[TEYOLXAN_OCTETS]; at++)
            printf(" %02X", output[at]);
        printf("\n");
    }
    return 0;
}
