/*
 * Converts the message on the standard input, hexadecimal, into a room of as many octets as its argument says, and prints the status,
 * the octets of the outcome, and how many octets from the beginning of the room on were written to.
 */
#include "cms_canon.h"
#include <stdio.h>
#include <stdlib.h>

static const uint8_t UNUSED = 0xA5;

/* Static, so that the library alone takes memory. */
static uint8_t input[1 << 20], room[1 << 20];

int main(int argc, char **argv)
{
    size_t length = 0, size = argc > 1 ? strtoull(argv[1], NULL, 10) : 0;
    unsigned octet;
    if (size > sizeof room)
        return 2;
    while (length < sizeof input && scanf("%2x", &octet) == 1)
        input[length++] = (uint8_t)octet;
    for (size_t i = 0; i < sizeof room; i++)
        room[i] = UNUSED;
    struct cms_canon_outcome outcome;
    cms_canon_convert(input, length, CMS_CANON_LIMIT, room, size, &outcome);
    size_t written = sizeof room;
    while (written > 0 && room[written - 1] == UNUSED)
        written--;
    printf("%u %llu %zu", outcome.status, (unsigned long long)outcome.octets, written);
    return 0;
}
