/* Converts one message, by cms_canon_convert. */
#include "again.h"
#include "cms_canon.h"

static size_t convert(const unsigned char *octets, size_t count, unsigned char *der) {
    struct cms_canon_outcome outcome;
    cms_canon_convert(octets, count, CMS_CANON_LIMIT, der, 2 * count + 64, &outcome);
    return outcome.status == CMS_CANON_DONE ? outcome.octets : REFUSED;
}
