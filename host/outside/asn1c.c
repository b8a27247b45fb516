/*
 * Encodes each line "TYPE XML" of standard input with the types that asn1c made, and prints the bits
 * and the octets.
 */
#include <stdio.h>
#include <string.h>
#include <asn_application.h>
#include <asn_internal.h>
#include <per_encoder.h>
#include <xer_decoder.h>

extern asn_TYPE_descriptor_t *asn_pdu_collection[];

static void answer(const char *name, const char *xml) {
	static unsigned char room[1 << 17];
	asn_TYPE_descriptor_t **type = asn_pdu_collection;
	void *value = NULL, *octets = NULL;

	while(*type && strcmp((*type)->name, name)) type++;
	if(!*type) {
		puts("refused: no such type");
		return;
	}
	if(xer_decode(0, *type, &value, xml, strlen(xml)).code != RC_OK) {
		puts("refused: the XML is not understood");
		return;
	}
	/* the first call tells the bits, the second gives the complete encoding, at least one octet */
	asn_enc_rval_t bits = uper_encode_to_buffer(*type, value, room, sizeof room);
	ssize_t size = uper_encode_to_new_buffer(*type, 0, value, &octets);
	if(bits.encoded < 0 || size < 0) {
		printf("refused: in %s\n", bits.failed_type ? bits.failed_type->name : name);
	} else {
		printf("%ld ", (long)bits.encoded);
		for(ssize_t i = 0; i < size; i++) printf("%02x", ((unsigned char *)octets)[i]);
		putchar('\n');
	}
	free(octets);
	ASN_STRUCT_FREE(**type, value);
}

int main(void) {
	char *line = NULL;
	size_t room = 0;

	while(getline(&line, &room, stdin) > 0) {
		char *xml = strchr(line, ' ');
		line[strcspn(line, "\n")] = '\0';
		*xml++ = '\0';
		answer(line, xml);
	}
	return 0;
}
