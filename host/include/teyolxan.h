/* The calls of libteyolxan.a, for C and C++. docs/HOST.md says what each does. */

#ifndef TEYOLXAN_H
#define TEYOLXAN_H

#include <stdbool.h>
#include <stddef.h>
#include <stdint.h>

#include "teyolxan_answer.h"

#ifdef __cplusplus
extern "C" {
#endif

/* The octets of a state, into which a table is loaded. All zeros, it is fresh and holds no table. */
#define TEYOLXAN_STATE_SIZE 6160

void teyolxan_check(const uint8_t *table, size_t table_length, uint64_t numbers[6]);

void teyolxan_read(const uint8_t *table, size_t table_length,
                   const uint8_t *message, size_t message_length,
                   uint8_t *values, size_t values_length, uint64_t numbers[6]);

void teyolxan_write(const uint8_t *table, size_t table_length,
                    const uint8_t *values, size_t values_length,
                    uint8_t *output, size_t output_length, uint64_t numbers[6]);

void teyolxan_load(uint8_t state[TEYOLXAN_STATE_SIZE],
                   const uint8_t *table, size_t table_length, uint64_t numbers[6]);

void teyolxan_read_loaded(const uint8_t state[TEYOLXAN_STATE_SIZE],
                          const uint8_t *message, size_t message_length,
                          uint8_t *values, size_t values_length, uint64_t numbers[6]);

/* A record of a message that was forwarded: its ID, when, in milliseconds, and whether the record is in use. A list of records
   is the host's; all zeros, none is in use. `used` is 0 or 1, as any bool: with another octet there, nothing is promised. The
   three octets behind it may hold anything. */
struct teyolxan_seen {
    uint32_t id;
    uint32_t time;
    bool used;
};

/* Where this does not compile, a record stands otherwise in memory than the library has it. */
typedef char teyolxan_seen_has_12_octets
    [sizeof(struct teyolxan_seen) == 12 && offsetof(struct teyolxan_seen, used) == 8 ? 1 : -1];

void teyolxan_forward(const uint8_t *message, size_t message_length, uint32_t now,
                      struct teyolxan_seen *seen, size_t seen_length,
                      uint8_t *output, size_t output_length, uint64_t numbers[6]);

/* Whether a refusal's number tells what is wrong with the table: 1, and 20 to 26. Every call that is lent that table gives it. */
static inline int teyolxan_is_of_table(uint64_t number)
{
    return number == TEYOLXAN_REFUSED_TABLE_SIZE
           || (number >= TEYOLXAN_REFUSED_ROW_PAST_END && number <= TEYOLXAN_REFUSED_TOO_DEEP);
}

#ifdef __cplusplus
}
#endif

#endif
