/* Has libcrypto read the CMS messages one after another and write each, in the form of DER that libcrypto writes. */
#include "again.h"
#include <openssl/cms.h>

static size_t convert(const unsigned char *octets, size_t count, unsigned char *der) {
    const unsigned char *at = octets, *end = octets + count;
    unsigned char *into = der;
    while (at < end) {
        CMS_ContentInfo *message = d2i_CMS_ContentInfo(NULL, &at, end - at);
        if (message == NULL)
            return REFUSED;
        int written = i2d_CMS_ContentInfo(message, &into);
        CMS_ContentInfo_free(message);
        if (written < 0)
            return REFUSED;
    }
    return (size_t)(into - der);
}
