/* Says which rules of the standards the message in the first file breaks, if the second file is the document that was signed:

       ./check MESSAGE [DOCUMENT]

   The document is used only if the message does not have its content itself. No signature is verified: F18 says so, and if a signer has no
   signed attributes, only its signature says whether the document is the one that was signed. The exit status is
   0 if no other rule is broken, 1 if one is, 2 if the words are wrong, 3 if the message is refused, 4 if a file cannot be read, and 5 if
   there is not enough memory. */

#include <cms_canon.h>
#include <inttypes.h>
#include <stdio.h>
#include <stdlib.h>

#define VERIFIER_UNKNOWN 18

/* Returns the octets of a file, which the caller frees, and sets their number; returns NULL if it cannot be read. */
static uint8_t *read_file(const char *name, size_t *length) {
    FILE *file = fopen(name, "rb");
    if (file == NULL)
        return NULL;
    uint8_t *octets = NULL;
    long end = fseek(file, 0, SEEK_END) == 0 ? ftell(file) : -1;
    if (end >= 0 && fseek(file, 0, SEEK_SET) == 0)
        octets = malloc((size_t)end + 1);
    if (octets != NULL && fread(octets, 1, (size_t)end, file) != (size_t)end) {
        free(octets);
        octets = NULL;
    }
    fclose(file);
    *length = octets == NULL ? 0 : (size_t)end;
    return octets;
}

/* Returns the findings, which the caller frees: `octets` of the outcome is their number. If there are none to return, returns NULL, and
   the outcome says why. */
static struct cms_canon_finding *found(const uint8_t *message, size_t length, const uint8_t *document, size_t document_length,
                                       bool has_document, struct cms_canon_outcome *outcome) {
    static const uint8_t no_data[1];
    size_t room = 64; /* almost always enough */
    for (;;) {
        struct cms_canon_finding *findings = calloc(room, sizeof *findings);
        if (findings == NULL) {
            outcome->status = CMS_CANON_OUT_OF_MEMORY;
            return NULL;
        }
        cms_canon_check(message, length, document, document_length, has_document, no_data, 0, false, CMS_CANON_LIMIT, findings, room,
                        outcome);
        if (outcome->status == CMS_CANON_DONE)
            return findings;
        free(findings);
        if (outcome->status != CMS_CANON_ROOM_TOO_SMALL)
            return NULL;
        room = outcome->octets;
    }
}

/* Prints a line for each finding, and returns the exit status. */
static int print_findings(const struct cms_canon_finding *findings, uint64_t count) {
    int status = 0;
    for (uint64_t i = 0; i < count; i++) {
        printf("F%" PRIu32, findings[i].code);
        if (findings[i].has_signer)
            printf(" signer %" PRIu64, findings[i].signer);
        printf(" %s\n", cms_canon_finding_text(findings[i].code));
        if (findings[i].code != VERIFIER_UNKNOWN)
            status = 1;
    }
    if (count == 0)
        printf("no findings\n");
    return status;
}

int main(int count, char **words) {
    if (count != 2 && count != 3) {
        fprintf(stderr, "usage: check MESSAGE [DOCUMENT]\n");
        return 2;
    }
    size_t length, document_length = 0;
    uint8_t *message = read_file(words[1], &length);
    uint8_t *document = count == 3 ? read_file(words[2], &document_length) : calloc(1, 1);
    if (message == NULL || document == NULL) {
        fprintf(stderr, "check: a file cannot be read\n");
        return 4;
    }
    struct cms_canon_outcome outcome;
    struct cms_canon_finding *findings = found(message, length, document, document_length, count == 3, &outcome);
    int status = findings == NULL ? (int)outcome.status : print_findings(findings, outcome.octets);
    if (status == CMS_CANON_REFUSED)
        fprintf(stderr, "refused E%" PRIu32 " %s at %" PRIu64 ": %s\n", outcome.reason, outcome.name, outcome.at,
                cms_canon_reason_text(outcome.reason));
    free(findings);
    free(document);
    free(message);
    return status;
}
