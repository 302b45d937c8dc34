/* Has Heimdal's ASN.1 read one message and write it again: the ContentInfo, and the SignedData in it. */
#include "again.h"
#include <cms_asn1.h>

/* Writes the SignedData as the content of the message, and the message to `der`. Heimdal writes from the end of the room. */
static size_t write_message(const ContentInfo *message, const SignedData *data, unsigned char *der) {
    size_t length = length_SignedData(data), written;
    unsigned char *inner = malloc(length);
    if (inner == NULL)
        return REFUSED;
    heim_any content = {length, inner};
    ContentInfo whole = {message->contentType, &content};
    size_t all = length_ContentInfo(&whole);
    int failed = encode_SignedData(inner + length - 1, length, data, &written) || written != length ||
                 encode_ContentInfo(der + all - 1, all, &whole, &written) || written != all;
    free(inner);
    return failed ? REFUSED : all;
}

static size_t convert(const unsigned char *octets, size_t count, unsigned char *der) {
    ContentInfo message;
    SignedData data;
    size_t read, written = REFUSED;
    if (decode_ContentInfo(octets, count, &message, &read) != 0)
        return REFUSED;
    if (read == count && message.content != NULL &&
        decode_SignedData(message.content->data, message.content->length, &data, &read) == 0) {
        written = write_message(&message, &data, der);
        free_SignedData(&data);
    }
    free_ContentInfo(&message);
    return written;
}
