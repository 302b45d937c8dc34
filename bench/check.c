/* Digests the data of a time-stamp request, which are its own and must have the digest in it, by cms_canon_check. */
#include "again.h"
#include "cms_canon.h"

enum { REQUEST = 56 }; /* octets of the request, which the data follow */

static size_t convert(const unsigned char *octets, size_t count, unsigned char *der) {
    struct cms_canon_finding finding;
    struct cms_canon_outcome outcome;
    (void)der;
    if (count < REQUEST)
        return REFUSED;
    cms_canon_check(octets, REQUEST, octets, 0, false, octets + REQUEST, count - REQUEST, true, CMS_CANON_LIMIT, &finding, 1,
                    &outcome);
    return outcome.status == CMS_CANON_DONE && outcome.octets == 0 ? 0 : REFUSED;
}
