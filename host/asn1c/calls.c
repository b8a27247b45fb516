// What the benchmark calls of asn1c's code. A kind is the place of its type in the list below.
#include <stdlib.h>

#include <BitThenOctets.h>
#include <Lm.h>
#include <OctetNumbers.h>
#include <Sam.h>
#include <TwoOctetNumbers.h>
#include <per_support.h>

static asn_TYPE_descriptor_t *type_of(int kind)
{
    static asn_TYPE_descriptor_t *const types[] = {
        &asn_DEF_Lm,
        &asn_DEF_Sam,
        &asn_DEF_OctetNumbers,
        &asn_DEF_TwoOctetNumbers,
        &asn_DEF_BitThenOctets,
    };
    return types[kind];
}

void asn1c_free(int kind, void *structure)
{
    ASN_STRUCT_FREE(*type_of(kind), structure);
}

// The structure, or null where the whole message is not one.
void *asn1c_decode(int kind, const uint8_t *message, size_t length)
{
    void *structure = NULL;
    asn_dec_rval_t result = uper_decode_complete(NULL, type_of(kind), &structure, message, length);
    if (result.code == RC_OK && result.consumed == length)
        return structure;
    asn1c_free(kind, structure);
    return NULL;
}

// The count of octets, or -1.
ptrdiff_t asn1c_encode(int kind, void *structure, uint8_t *output, size_t length)
{
    asn_enc_rval_t result = uper_encode_to_buffer(type_of(kind), structure, output, length);
    return result.encoded < 0 ? -1 : (result.encoded + 7) / 8;
}

// Space for a place in a message; asn1c_rewind sets it.
void *asn1c_opened(void)
{
    return malloc(sizeof(asn_per_data_t));
}

void asn1c_rewind(asn_per_data_t *opened, const uint8_t *message, size_t length, size_t place)
{
    *opened = (asn_per_data_t){.buffer = message, .nboff = place, .nbits = 8 * length};
}

void asn1c_close(void *opened)
{
    free(opened);
}
