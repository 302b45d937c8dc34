/* Prints the serial numbers of the certificates of those who signed or countersigned the message in the file named:

       ./fields MESSAGE

   The exit status is 0, or 2 if the words are wrong, 3 if the message is refused, 4 if the file cannot be read into memory, and 5 if
   there is not enough memory for the rest. */

#include <cms_canon.h>
#include <stdio.h>
#include <stdlib.h>

/* Prints each serial number among the fields. */
static void print_serial_numbers(const uint8_t *message, const struct cms_canon_row *fields, uint64_t count) {
    for (const struct cms_canon_row *row = fields; row < fields + count; row++) {
        if (row->kind != CMS_CANON_KIND_SERIAL_NUMBER)
            continue;
        for (uint64_t at = row->start; at < row->start + row->length; at++)
            printf("%02x", message[at]);
        printf("\n");
    }
}

/* Returns the octets of a file, which the caller frees, and sets their number; returns NULL if it cannot be read. */
static uint8_t *read_file(const char *name, size_t *length) {
    FILE *file = fopen(name, "rb");
    if (file == NULL)
        return NULL;
    uint8_t *octets = NULL;
    long end = fseek(file, 0, SEEK_END) == 0 ? ftell(file) : -1;
    if (end >= 0 && fseek(file, 0, SEEK_SET) == 0)
        octets = malloc((size_t)end + 1);
    if (octets != NULL && fread(octets, 1, (size_t)end, file) != (size_t)end) {
        free(octets);
        octets = NULL;
    }
    fclose(file);
    *length = octets == NULL ? 0 : (size_t)end;
    return octets;
}

int main(int count, char **words) {
    if (count != 2) {
        fprintf(stderr, "usage: %s MESSAGE\n", words[0]);
        return 2;
    }
    size_t length = 0;
    uint8_t *message = read_file(words[1], &length);
    if (message == NULL) {
        fprintf(stderr, "%s cannot be read\n", words[1]);
        return 4;
    }
    struct cms_canon_outcome outcome = {.status = CMS_CANON_OUT_OF_MEMORY};
    size_t room = length / 2 + 1;
    struct cms_canon_row *fields = malloc(room * sizeof *fields);
    if (fields != NULL)
        cms_canon_fields(message, length, CMS_CANON_LIMIT, fields, room, &outcome);
    if (outcome.status == CMS_CANON_DONE)
        print_serial_numbers(message, fields, outcome.octets);
    else if (outcome.status == CMS_CANON_REFUSED)
        fprintf(stderr, "refused E%u %s at %llu\n", outcome.reason, outcome.name, (unsigned long long)outcome.at);
    free(fields);
    free(message);
    return (int)outcome.status;
}
