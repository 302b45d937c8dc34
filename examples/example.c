/* Converts the message in the first file named to DER, and writes it to the second:

       ./example MESSAGE DER

   The exit status is 0 if it was written, 2 if the words are wrong, 3 if the message is refused, 4 if a file cannot be read or
   written, and 5 if there is not enough memory. */

#include <cms_canon.h>
#include <stdio.h>
#include <stdlib.h>

/* Returns the DER of a message, which the caller frees: `octets` of the outcome is its length. If there is none, returns NULL, and
   the outcome says why. */
static uint8_t *converted(const uint8_t *input, size_t input_length, struct cms_canon_outcome *outcome) {
    size_t room = input_length + 64; /* almost always enough */
    for (;;) {
        uint8_t *output = malloc(room);
        if (output == NULL) {
            outcome->status = CMS_CANON_OUT_OF_MEMORY;
            return NULL;
        }
        cms_canon_convert(input, input_length, CMS_CANON_LIMIT, output, room, outcome);
        if (outcome->status == CMS_CANON_DONE)
            return output;
        free(output);
        if (outcome->status != CMS_CANON_ROOM_TOO_SMALL)
            return NULL;
        room = outcome->octets;
    }
}

/* Returns the octets of a file, which the caller frees, and sets their number; returns NULL if it cannot be read. */
static uint8_t *read_file(const char *name, size_t *length) {
    FILE *file = fopen(name, "rb");
    if (file == NULL)
        return NULL;
    uint8_t *octets = NULL;
    long end = fseek(file, 0, SEEK_END) == 0 ? ftell(file) : -1;
    if (end >= 0 && fseek(file, 0, SEEK_SET) == 0)
        octets = malloc((size_t)end + 1);
    if (octets != NULL && fread(octets, 1, (size_t)end, file) != (size_t)end) {
        free(octets);
        octets = NULL;
    }
    fclose(file);
    *length = octets == NULL ? 0 : (size_t)end;
    return octets;
}

/* Returns whether the octets were written to the file. */
static bool write_file(const char *name, const uint8_t *octets, size_t length) {
    FILE *file = fopen(name, "wb");
    if (file == NULL)
        return false;
    bool is_written = fwrite(octets, 1, length, file) == length;
    return fclose(file) == 0 && is_written;
}

int main(int count, char **words) {
    if (count != 3) {
        fprintf(stderr, "usage: %s MESSAGE DER\n", words[0]);
        return 2;
    }
    size_t length = 0;
    uint8_t *message = read_file(words[1], &length);
    if (message == NULL) {
        fprintf(stderr, "%s cannot be read\n", words[1]);
        return 4;
    }
    struct cms_canon_outcome outcome;
    uint8_t *der = converted(message, length, &outcome);
    free(message);
    if (outcome.status == CMS_CANON_REFUSED)
        fprintf(stderr, "refused E%u %s at %llu\n", outcome.reason, outcome.name, (unsigned long long)outcome.at);
    if (der == NULL)
        return (int)outcome.status;
    bool is_written = write_file(words[2], der, outcome.octets);
    free(der);
    if (!is_written)
        fprintf(stderr, "%s cannot be written\n", words[2]);
    return is_written ? 0 : 4;
}
