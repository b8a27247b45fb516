/* The call of libteyolxan_lm.a, for C and C++: an LM read with no table. docs/HOST.md, "The smallest unit", says what it does. */

#ifndef TEYOLXAN_LM_H
#define TEYOLXAN_LM_H

#include <stddef.h>
#include <stdint.h>

#include "teyolxan_answer.h"

#ifdef __cplusplus
extern "C" {
#endif

void teyolxan_lm_read(const uint8_t *message, size_t message_length,
                      uint8_t *values, size_t values_length, uint64_t numbers[6]);

#ifdef __cplusplus
}
#endif

#endif
