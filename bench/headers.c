/* Goes over the headers of elements in memory, those inside others too, and writes nothing. Headers are taken as they come: one
   octet of identifier, a definite length, and no rule is checked. */
#include "again.h"

/* The place behind the elements in `octets` from `at` to `end`; past `end` where one is cut. */
static size_t behind(const unsigned char *octets, size_t at, size_t end) {
    while (at < end) {
        if (end - at < 2)
            return end + 1;
        unsigned char identifier = octets[at], first = octets[at + 1];
        size_t length = first;
        at += 2;
        if (first >= 0x80) {
            length = 0;
            for (unsigned count = first - 0x80; count > 0 && at < end; count--)
                length = length << 8 | octets[at++];
        }
        if (length > end - at || (identifier & 0x20 && behind(octets, at, at + length) > at + length))
            return end + 1;
        at += length;
    }
    return at;
}

static size_t convert(const unsigned char *octets, size_t count, unsigned char *der) {
    (void)der;
    return behind(octets, 0, count) == count ? 0 : REFUSED;
}
