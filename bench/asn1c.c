/* Has the code that asn1c makes of cms.asn1 read one message in BER and write it in DER. */
#include "again.h"
#include <ContentInfo.h>

static size_t convert(const unsigned char *octets, size_t count, unsigned char *der) {
    ContentInfo_t *message = NULL;
    asn_dec_rval_t read = ber_decode(NULL, &asn_DEF_ContentInfo, (void **)&message, octets, count);
    size_t written = REFUSED;
    if (read.code == RC_OK && read.consumed == count) {
        asn_enc_rval_t encoded = der_encode_to_buffer(&asn_DEF_ContentInfo, message, der, 2 * count + 64);
        written = encoded.encoded < 0 ? REFUSED : (size_t)encoded.encoded;
    }
    ASN_STRUCT_FREE(asn_DEF_ContentInfo, message);
    return written;
}
