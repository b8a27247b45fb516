/* The smallest unit: reads LMs with no table, and meets three refusals. */

#include <inttypes.h>
#include <stdio.h>

#include "teyolxan_lm.h"

static const struct {
    size_t length;
    uint8_t octets[10];
} messages[5] = {
    {6, {0x03, 0x00, 0x20, 0x02, 0x48, 0x69}},                          /* P1 */
    {10, {0x23, 0x00, 0x00, 0x07, 0x02, 0x00, 0x01, 0x00, 0x02, 0x00}}, /* P2 */
    {5, {0x03, 0x00, 0x20, 0x02, 0x48}},                                /* cut */
    {4, {0x02, 0x00, 0x20, 0x00}},                                      /* of version 2 */
    {4, {0x33, 0x00, 0x20, 0x00}},                                      /* of subtype 3 */
};

int main(void)
{
    uint64_t numbers[6];
    int64_t values[16]; /* x86-64 is little-endian: values are lent as they stand in memory */

    for (size_t i = 0; i < 5; i++) {
        teyolxan_lm_read(messages[i].octets, messages[i].length, (uint8_t *)values, sizeof values, numbers);
        if (numbers[TEYOLXAN_NUMBER] != 0) {
            printf("read: refused %" PRIu64 " at %" PRIu64 ": %s\n", numbers[TEYOLXAN_NUMBER], numbers[TEYOLXAN_PLACE],
                   teyolxan_meaning(numbers[TEYOLXAN_NUMBER]));
            continue;
        }
        printf("read: values");
        for (size_t at = 0; at < numbers[TEYOLXAN_VALUES]; at++)
            printf(" %" PRId64, values[at]);
        printf("\n");
    }
    return 0;
}
