/* Converts messages one after another, by one call of cms_canon_convert_many. */
#include "again.h"
#include "cms_canon.h"

static size_t convert(const unsigned char *octets, size_t count, unsigned char *der) {
    struct cms_canon_many many;
    cms_canon_convert_many(octets, count, CMS_CANON_LIMIT, der, 2 * count + 64, &many);
    return many.outcome.status == CMS_CANON_DONE ? many.outcome.octets : REFUSED;
}
