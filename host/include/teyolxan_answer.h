/* What the calls answer: six numbers, and what they tell. Both teyolxan.h and teyolxan_lm.h have it, and it needs no library. */

#ifndef TEYOLXAN_ANSWER_H
#define TEYOLXAN_ANSWER_H

#include <stdint.h>

#ifdef __cplusplus
extern "C" {
#endif

/* What the six numbers of an answer are. */
enum {
    TEYOLXAN_NUMBER, /* the refusal's number, 0 where there is none */
    TEYOLXAN_PLACE,  /* the refusal's place */
    TEYOLXAN_VALUES, /* how many values were read */
    TEYOLXAN_BITS,   /* how many bits the root took */
    TEYOLXAN_OCTETS, /* how many octets were written, or forwarded */
    TEYOLXAN_KEPT,   /* 0 */
    TEYOLXAN_COUNT   /* how many numbers these are: 6 */
};

/* The refusals' numbers. For 20 to 26 the place is the row's offset in the table, in octets. */
enum {
    TEYOLXAN_REFUSED_TABLE_SIZE = 1,
    TEYOLXAN_REFUSED_MESSAGE_ENDS = 2,
    TEYOLXAN_REFUSED_ABOVE_SPAN = 3,
    TEYOLXAN_REFUSED_NO_BRANCH = 4,
    TEYOLXAN_REFUSED_BAD_LENGTH = 5,
    TEYOLXAN_REFUSED_OUTSIDE_LIMITS = 6,
    TEYOLXAN_REFUSED_BAD_VARIABLE = 7,
    TEYOLXAN_REFUSED_NO_ROOM = 8,
    TEYOLXAN_REFUSED_NOT_PADDING = 9,
    TEYOLXAN_REFUSED_WRONG_VERSION = 10,
    TEYOLXAN_REFUSED_WRONG_SUBTYPE = 11,
    TEYOLXAN_REFUSED_WRONG_VALUE = 12,
    TEYOLXAN_REFUSED_TOO_LONG = 13,
    TEYOLXAN_REFUSED_ROW_PAST_END = 20,
    TEYOLXAN_REFUSED_UNKNOWN_KIND = 21,
    TEYOLXAN_REFUSED_WRONG_ROW_LENGTH = 22,
    TEYOLXAN_REFUSED_WRONG_ROW_NUMBER = 23,
    TEYOLXAN_REFUSED_WRONG_REFERENCE = 24,
    TEYOLXAN_REFUSED_ONLY_RESERVED = 25,
    TEYOLXAN_REFUSED_TOO_DEEP = 26,
    TEYOLXAN_REFUSED_NO_TABLE = 27,
    TEYOLXAN_REFUSED_NO_HOPS = 40,
    TEYOLXAN_REFUSED_SEEN = 41,
    TEYOLXAN_REFUSED_NO_RECORD = 42
};

/* The name of 6 before it told lengths below a least, too. */
#define TEYOLXAN_REFUSED_ABOVE_MOST TEYOLXAN_REFUSED_OUTSIDE_LIMITS

/* What a refusal's number means, in one sentence. */
static inline const char *teyolxan_meaning(uint64_t number)
{
    switch (number) {
    case TEYOLXAN_REFUSED_TABLE_SIZE:
        return "the table has fewer than 4 octets, or more than 4,096";
    case TEYOLXAN_REFUSED_MESSAGE_ENDS:
        return "the message ends inside an item, or is empty";
    case TEYOLXAN_REFUSED_ABOVE_SPAN:
        return "a number's offset is above its span";
    case TEYOLXAN_REFUSED_NO_BRANCH:
        return "an index is too high, or its branch is reserved";
    case TEYOLXAN_REFUSED_BAD_LENGTH:
        return "a length has a bad form";
    case TEYOLXAN_REFUSED_OUTSIDE_LIMITS:
        return "a count or length is outside its limits";
    case TEYOLXAN_REFUSED_BAD_VARIABLE:
        return "a variable number starts with 1111";
    case TEYOLXAN_REFUSED_NO_ROOM:
        return "there is no room for the next value, for the next bits, or for the message";
    case TEYOLXAN_REFUSED_NOT_PADDING:
        return "the padding is not zero, or octets are left";
    case TEYOLXAN_REFUSED_WRONG_VERSION:
        return "the version of the LM is not 3";
    case TEYOLXAN_REFUSED_WRONG_SUBTYPE:
        return "the subtype of the LM is not one that the call takes";
    case TEYOLXAN_REFUSED_WRONG_VALUE:
        return "a value is missing, outside its row, or left over";
    case TEYOLXAN_REFUSED_TOO_LONG:
        return "the message has more than 65,535 octets";
    case TEYOLXAN_REFUSED_ROW_PAST_END:
        return "fewer than 4 octets are left for the row, or its length runs past the table's end";
    case TEYOLXAN_REFUSED_UNKNOWN_KIND:
        return "the row's kind is unknown";
    case TEYOLXAN_REFUSED_WRONG_ROW_LENGTH:
        return "the row's length is not the one that its kind asks for";
    case TEYOLXAN_REFUSED_WRONG_ROW_NUMBER:
        return "a count, limit, m or flag of the row is out of bounds";
    case TEYOLXAN_REFUSED_WRONG_REFERENCE:
        return "a reference of the row is not the first octet of an earlier row";
    case TEYOLXAN_REFUSED_ONLY_RESERVED:
        return "every branch of the choice is reserved";
    case TEYOLXAN_REFUSED_TOO_DEEP:
        return "the row is deeper than 32";
    case TEYOLXAN_REFUSED_NO_TABLE:
        return "no table is loaded";
    case TEYOLXAN_REFUSED_NO_HOPS:
        return "the hop count is 0";
    case TEYOLXAN_REFUSED_SEEN:
        return "the message ID stands in a live record";
    case TEYOLXAN_REFUSED_NO_RECORD:
        return "every record is live";
    default:
        return "no refusal has this number";
    }
}

#ifdef __cplusplus
}
#endif

#endif
