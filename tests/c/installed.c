/* Converts the message on the standard input by the library that was installed. */
#include <cms_canon.h>
#include <stdio.h>

int main(void) {
    static uint8_t input[4096], output[4096];
    struct cms_canon_outcome outcome;
    size_t length = fread(input, 1, sizeof input, stdin);
    cms_canon_convert(input, length, CMS_CANON_LIMIT, output, sizeof output, &outcome);
    fwrite(output, 1, outcome.octets, stdout);
    return (int)outcome.status;
}
