// asn1c's codec of a segment as three functions, for the benchmark to call.
#include "Segment.h"

// The structure of a packet's bytes past L_PACKET_ATO; null where the codec refuses them or leaves some.
void *asn1c_read(const uint8_t *bytes, size_t bytes_len) {
    void *segment = NULL;
    asn_dec_rval_t read = uper_decode_complete(NULL, &asn_DEF_Segment, &segment, bytes, bytes_len);
    if (read.code == RC_OK && read.consumed == bytes_len) return segment;
    ASN_STRUCT_FREE(asn_DEF_Segment, segment);
    return NULL;
}

// Writes the structure's bytes at the room's start: how many, or 0 where the codec refuses it.
size_t asn1c_write(void *segment, uint8_t *room, size_t room_len) {
    asn_enc_rval_t written = uper_encode_to_buffer(&asn_DEF_Segment, segment, room, room_len);
    // the codec counts bits
    return written.encoded < 0 ? 0 : ((size_t)written.encoded + 7) / 8;
}

void asn1c_free(void *segment) {
    ASN_STRUCT_FREE(asn_DEF_Segment, segment);
}
