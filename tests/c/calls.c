/*
 * Checks of the calls of the library for C that the vectors do not make: the release, texts, rooms that are too small, messages
 * one after another, extents, octets, findings, rows, pieces and changes around the output, lengths of 0, limits, paths, fields, digests,
 * and four threads at once.
 * Prints a line for each failed check, and how many passed and failed.
 */
#include <cms_canon.h>
#include <pthread.h>
#include <stdio.h>
#include <string.h>

#define THREADS 4
#define TIMES 2000
#define GUARD 0xa5

/* A ContentInfo whose content is in segments, with indefinite lengths, and its DER. */
static const uint8_t message[] = {
    0x30, 0x80, 0x06, 0x09, 0x2a, 0x86, 0x48, 0x86, 0xf7, 0x0d, 0x01, 0x07, 0x02, 0xa0, 0x80, 0x30, 0x80, 0x02, 0x01, 0x01, 0x31, 0x00,
    0x30, 0x80, 0x06, 0x09, 0x2a, 0x86, 0x48, 0x86, 0xf7, 0x0d, 0x01, 0x07, 0x01, 0xa0, 0x80, 0x24, 0x80, 0x04, 0x02, 'h', 'i', 0x04,
    0x01, '!', 0x00, 0x00, 0x00, 0x00, 0x00, 0x00, 0x31, 0x00, 0x00, 0x00, 0x00, 0x00, 0x00, 0x00};
static const uint8_t der[] = {
    0x30, 0x2a, 0x06, 0x09, 0x2a, 0x86, 0x48, 0x86, 0xf7, 0x0d, 0x01, 0x07, 0x02, 0xa0, 0x1d, 0x30, 0x1b, 0x02, 0x01, 0x01, 0x31, 0x00,
    0x30, 0x12, 0x06, 0x09, 0x2a, 0x86, 0x48, 0x86, 0xf7, 0x0d, 0x01, 0x07, 0x01, 0xa0, 0x05, 0x04, 0x03, 'h', 'i', '!', 0x31, 0x00};

/* A message without content. Its signer's signature is AA, and the signature of the one countersignature is CC. */
static const uint8_t countersigned[] = {
    0x30, 0x66, 0x06, 0x09, 0x2a, 0x86, 0x48, 0x86, 0xf7, 0x0d, 0x01, 0x07, 0x02, 0xa0, 0x59, 0x30, 0x57, 0x02, 0x01, 0x03, 0x31, 0x00,
    0x30, 0x0b, 0x06, 0x09, 0x2a, 0x86, 0x48, 0x86, 0xf7, 0x0d, 0x01, 0x07, 0x01, 0x31, 0x43, 0x30, 0x41, 0x02, 0x01, 0x03, 0x80, 0x01,
    0x11, 0x30, 0x05, 0x06, 0x03, 0x2a, 0x03, 0x04, 0x30, 0x05, 0x06, 0x03, 0x2a, 0x03, 0x04, 0x04, 0x01, 0xaa, 0xa1, 0x28, 0x30, 0x26,
    0x06, 0x09, 0x2a, 0x86, 0x48, 0x86, 0xf7, 0x0d, 0x01, 0x09, 0x06, 0x31, 0x19, 0x30, 0x17, 0x02, 0x01, 0x03, 0x80, 0x01, 0x33, 0x30,
    0x05, 0x06, 0x03, 0x2a, 0x03, 0x04, 0x30, 0x05, 0x06, 0x03, 0x2a, 0x03, 0x04, 0x04, 0x01, 0xcc};

static int passed, failed;

static void check(const char *what, bool holds)
{
    if (holds) {
        passed++;
    } else {
        failed++;
        printf("FAILED %s\n", what);
    }
}

static bool is_all(const uint8_t *octets, size_t from, size_t to, uint8_t octet)
{
    while (from < to)
        if (octets[from++] != octet)
            return false;
    return true;
}

static void check_rooms(void)
{
    uint8_t output[sizeof der + 8];
    struct cms_canon_outcome outcome;
    for (size_t room = 0; room <= sizeof output; room++) {
        memset(output, GUARD, sizeof output);
        memset(&outcome, 0xff, sizeof outcome);
        cms_canon_convert(message, sizeof message, CMS_CANON_LIMIT, output, room, &outcome);
        bool fits = room >= sizeof der;
        check("status by the room", outcome.status == (fits ? CMS_CANON_DONE : CMS_CANON_ROOM_TOO_SMALL));
        check("octets by the room", outcome.octets == sizeof der);
        check("no reason", outcome.reason == 0 && outcome.at == 0 && outcome.name[0] == 0);
        check("what is written", !fits || memcmp(output, der, sizeof der) == 0);
        check("what is not written", is_all(output, fits ? sizeof der : 0, sizeof output, GUARD));
    }
}

static void check_refusals(void)
{
    uint8_t output[sizeof der];
    struct cms_canon_outcome outcome;
    memset(output, GUARD, sizeof output);
    cms_canon_convert(message, 0, CMS_CANON_LIMIT, output, sizeof output, &outcome);
    check("an empty input", outcome.status == CMS_CANON_REFUSED && outcome.reason == 1 && outcome.at == 0
                                && outcome.octets == 0 && strcmp(outcome.name, "Truncated") == 0);
    cms_canon_convert(message, sizeof message, sizeof message - 1, output, sizeof output, &outcome);
    check("a limit", outcome.status == CMS_CANON_REFUSED && outcome.reason == 2 && strcmp(outcome.name, "TooLarge") == 0);
    const uint64_t first[] = {0};
    cms_canon_cover(message, sizeof message, first, 1, message, 0, false, CMS_CANON_LIMIT, output, sizeof output, &outcome);
    check("no signer", outcome.status == CMS_CANON_REFUSED && outcome.reason == CMS_CANON_NO_SIGNER && outcome.at == 0
                           && strcmp(outcome.name, "no such signer") == 0);
    check("nothing is written on a refusal", is_all(output, 0, sizeof output, GUARD));
    cms_canon_convert(message, sizeof message, UINT64_MAX, output, sizeof output, &outcome);
    check("a limit above 2^40", outcome.status == CMS_CANON_DONE && outcome.octets == sizeof der);
}

/* What the signature at a path of the countersigned message covers is this octet, or there is no such signature. */
static void check_path(const char *what, const uint64_t *path, size_t length, int octet)
{
    uint8_t output[2] = {GUARD, GUARD};
    struct cms_canon_outcome outcome;
    cms_canon_cover(countersigned, sizeof countersigned, path, length, (const uint8_t *)"\x0b", 1, true, CMS_CANON_LIMIT, output, 1,
                    &outcome);
    if (octet >= 0)
        check(what, outcome.status == CMS_CANON_DONE && outcome.octets == 1 && output[0] == octet && output[1] == GUARD);
    else
        check(what, outcome.status == CMS_CANON_REFUSED && outcome.reason == CMS_CANON_NO_SIGNER && outcome.at == 0
                        && outcome.octets == 0 && is_all(output, 0, sizeof output, GUARD));
}

static void check_paths(void)
{
    static const uint64_t zeros[1000], none_0_1[] = {0, 1}, none_1[] = {1, 0}, last[] = {UINT64_MAX}, last_of_0[] = {0, UINT64_MAX};
    check_path("an empty path", zeros, 0, -1);
    check_path("a signer", zeros, 1, 0x0b);
    check_path("a countersignature", zeros, 2, 0xaa);
    check_path("a countersignature of it", zeros, 3, -1);
    check_path("a long path", zeros, sizeof zeros / sizeof zeros[0], -1);
    check_path("a second countersignature", none_0_1, 2, -1);
    check_path("a countersignature of a second signer", none_1, 2, -1);
    check_path("the signer with the greatest number", last, 1, -1);
    check_path("the countersignature with the greatest number", last_of_0, 2, -1);
}

/* The release of the library is that of the header, as one number and as a string, and the texts are those of their numbers alone. */
static void check_version_and_texts(void)
{
    char version[16];
    unsigned number = CMS_CANON_VERSION_NUMBER;
    snprintf(version, sizeof version, "%u.%u.%u", number / 10000, number / 100 % 100, number % 100);
    check("the release as a string", strcmp(version, CMS_CANON_VERSION) == 0);
    check("the release of the library", cms_canon_version() == CMS_CANON_VERSION_NUMBER);
    check("the first finding", strcmp(cms_canon_finding_text(1), "version does not follow the version rule") == 0);
    check("the last finding", strcmp(cms_canon_finding_text(19), "token does not fit the status") == 0);
    check("no finding", strcmp(cms_canon_finding_text(0), "unknown finding") == 0 && cms_canon_finding_text(20) == cms_canon_finding_text(0));
    check("the first reason", strncmp(cms_canon_reason_text(1), "The input ends before the message does.", 39) == 0);
    check("the last refusal", strncmp(cms_canon_reason_text(19), "Countersignatures are nested", 28) == 0);
    check("a reason of no refusal", strncmp(cms_canon_reason_text(CMS_CANON_NEEDS_CONTENT), "The detached content", 20) == 0);
    check("no reason", strcmp(cms_canon_reason_text(0), "unknown reason") == 0 && strcmp(cms_canon_reason_text(104), "unknown reason") == 0);
}
static void check_findings(void)
{
    struct cms_canon_finding findings[6], guards[6];
    struct cms_canon_outcome outcome;
    memset(guards, GUARD, sizeof guards);
    for (size_t room = 0; room <= 6; room++) {
        memcpy(findings, guards, sizeof findings);
        cms_canon_check(countersigned, sizeof countersigned, countersigned, 0, false, countersigned, 0, false, CMS_CANON_LIMIT,
                        findings, room, &outcome);
        bool fits = room >= 3;
        check("status by the room for findings", outcome.status == (fits ? CMS_CANON_DONE : CMS_CANON_ROOM_TOO_SMALL));
        check("how many findings", outcome.octets == 3);
        check("the findings", !fits || (findings[0].code == 9 && findings[0].has_signer == 0 && findings[0].signer == 0
                                        && findings[1].code == 8 && findings[1].has_signer == 1 && findings[1].signer == 0
                                        && findings[2].code == 10 && findings[2].has_signer == 1 && findings[2].signer == 0));
        check("findings that are not written", memcmp(findings + (fits ? 3 : 0), guards, (fits ? 3 : 6) * sizeof *guards) == 0);
    }
}

/* A message whose content, "abc", is detached; its signer has a message-digest by SHA-256. */
static const uint8_t detached_abc[] = {
    0x30, 0x81, 0x9e, 0x06, 0x09, 0x2a, 0x86, 0x48, 0x86, 0xf7, 0x0d, 0x01, 0x07, 0x02, 0xa0, 0x81, 0x90, 0x30, 0x81, 0x8d, 0x02, 0x01,
    0x03, 0x31, 0x0d, 0x30, 0x0b, 0x06, 0x09, 0x60, 0x86, 0x48, 0x01, 0x65, 0x03, 0x04, 0x02, 0x01, 0x30, 0x0b, 0x06, 0x09, 0x2a, 0x86,
    0x48, 0x86, 0xf7, 0x0d, 0x01, 0x07, 0x01, 0x31, 0x6c, 0x30, 0x6a, 0x02, 0x01, 0x03, 0x80, 0x01, 0x11, 0x30, 0x0b, 0x06, 0x09, 0x60,
    0x86, 0x48, 0x01, 0x65, 0x03, 0x04, 0x02, 0x01, 0xa0, 0x4b, 0x30, 0x18, 0x06, 0x09, 0x2a, 0x86, 0x48, 0x86, 0xf7, 0x0d, 0x01, 0x09,
    0x03, 0x31, 0x0b, 0x06, 0x09, 0x2a, 0x86, 0x48, 0x86, 0xf7, 0x0d, 0x01, 0x07, 0x01, 0x30, 0x2f, 0x06, 0x09, 0x2a, 0x86, 0x48, 0x86,
    0xf7, 0x0d, 0x01, 0x09, 0x04, 0x31, 0x22, 0x04, 0x20, 0xba, 0x78, 0x16, 0xbf, 0x8f, 0x01, 0xcf, 0xea, 0x41, 0x41, 0x40, 0xde, 0x5d,
    0xae, 0x22, 0x23, 0xb0, 0x03, 0x61, 0xa3, 0x96, 0x17, 0x7a, 0x9c, 0xb4, 0x10, 0xff, 0x61, 0xf2, 0x00, 0x15, 0xad, 0x30, 0x05, 0x06,
    0x03, 0x2a, 0x03, 0x04, 0x04, 0x01, 0xaa};
/* A time-stamp token whose content is detached. */
static const uint8_t detached_token[] = {
    0x30, 0x81, 0xe5, 0x06, 0x09, 0x2a, 0x86, 0x48, 0x86, 0xf7, 0x0d, 0x01, 0x07, 0x02, 0xa0, 0x81, 0xd7, 0x30, 0x81, 0xd4, 0x02, 0x01,
    0x03, 0x31, 0x0d, 0x30, 0x0b, 0x06, 0x09, 0x60, 0x86, 0x48, 0x01, 0x65, 0x03, 0x04, 0x02, 0x01, 0x30, 0x0d, 0x06, 0x0b, 0x2a, 0x86,
    0x48, 0x86, 0xf7, 0x0d, 0x01, 0x09, 0x10, 0x01, 0x04, 0xa0, 0x05, 0x30, 0x03, 0x02, 0x01, 0x05, 0x31, 0x81, 0xa9, 0x30, 0x81, 0xa6,
    0x02, 0x01, 0x03, 0x80, 0x01, 0x11, 0x30, 0x0b, 0x06, 0x09, 0x60, 0x86, 0x48, 0x01, 0x65, 0x03, 0x04, 0x02, 0x01, 0xa0, 0x81, 0x86,
    0x30, 0x1a, 0x06, 0x09, 0x2a, 0x86, 0x48, 0x86, 0xf7, 0x0d, 0x01, 0x09, 0x03, 0x31, 0x0d, 0x06, 0x0b, 0x2a, 0x86, 0x48, 0x86, 0xf7,
    0x0d, 0x01, 0x09, 0x10, 0x01, 0x04, 0x30, 0x2f, 0x06, 0x09, 0x2a, 0x86, 0x48, 0x86, 0xf7, 0x0d, 0x01, 0x09, 0x04, 0x31, 0x22, 0x04,
    0x20, 0xfd, 0x12, 0xcb, 0x7b, 0x9a, 0xa3, 0xdf, 0x3e, 0x45, 0x47, 0x17, 0xe1, 0x7a, 0x39, 0xfe, 0x10, 0x34, 0x35, 0x47, 0x5b, 0x3d,
    0x6f, 0x56, 0x72, 0xef, 0xb5, 0x22, 0xfb, 0x2a, 0x2a, 0x77, 0x4b, 0x30, 0x37, 0x06, 0x0b, 0x2a, 0x86, 0x48, 0x86, 0xf7, 0x0d, 0x01,
    0x09, 0x10, 0x02, 0x2f, 0x31, 0x28, 0x30, 0x26, 0x30, 0x24, 0x30, 0x22, 0x04, 0x20, 0x41, 0x7c, 0x77, 0x63, 0xc4, 0xe3, 0x20, 0xa6,
    0xb7, 0x47, 0xb3, 0xcb, 0x0c, 0x6d, 0x22, 0xf9, 0x37, 0x41, 0xb2, 0x9a, 0x32, 0xb4, 0x85, 0x94, 0xb8, 0xeb, 0x4c, 0x14, 0x4f, 0xe6,
    0xd7, 0x29, 0x30, 0x05, 0x06, 0x03, 0x2a, 0x03, 0x04, 0x04, 0x01, 0xaa};
/* A time-stamp token for "abc", by SHA-256, whose signer has the digest of other content by SHA-256. */
static const uint8_t token_for_abc[] = {
    0x30, 0x81, 0xf7, 0x06, 0x09, 0x2a, 0x86, 0x48, 0x86, 0xf7, 0x0d, 0x01, 0x07, 0x02, 0xa0, 0x81, 0xe9, 0x30, 0x81, 0xe6, 0x02, 0x01,
    0x03, 0x31, 0x0d, 0x30, 0x0b, 0x06, 0x09, 0x60, 0x86, 0x48, 0x01, 0x65, 0x03, 0x04, 0x02, 0x01, 0x30, 0x62, 0x06, 0x0b, 0x2a, 0x86,
    0x48, 0x86, 0xf7, 0x0d, 0x01, 0x09, 0x10, 0x01, 0x04, 0xa0, 0x53, 0x04, 0x51, 0x30, 0x4f, 0x02, 0x01, 0x01, 0x06, 0x03, 0x2a, 0x03,
    0x04, 0x30, 0x31, 0x30, 0x0d, 0x06, 0x09, 0x60, 0x86, 0x48, 0x01, 0x65, 0x03, 0x04, 0x02, 0x01, 0x05, 0x00, 0x04, 0x20, 0xba, 0x78,
    0x16, 0xbf, 0x8f, 0x01, 0xcf, 0xea, 0x41, 0x41, 0x40, 0xde, 0x5d, 0xae, 0x22, 0x23, 0xb0, 0x03, 0x61, 0xa3, 0x96, 0x17, 0x7a, 0x9c,
    0xb4, 0x10, 0xff, 0x61, 0xf2, 0x00, 0x15, 0xad, 0x02, 0x01, 0x05, 0x18, 0x0f, 0x32, 0x30, 0x32, 0x34, 0x30, 0x32, 0x32, 0x39, 0x31,
    0x32, 0x30, 0x30, 0x30, 0x30, 0x5a, 0x31, 0x6e, 0x30, 0x6c, 0x02, 0x01, 0x03, 0x80, 0x01, 0x11, 0x30, 0x0b, 0x06, 0x09, 0x60, 0x86,
    0x48, 0x01, 0x65, 0x03, 0x04, 0x02, 0x01, 0xa0, 0x4d, 0x30, 0x1a, 0x06, 0x09, 0x2a, 0x86, 0x48, 0x86, 0xf7, 0x0d, 0x01, 0x09, 0x03,
    0x31, 0x0d, 0x06, 0x0b, 0x2a, 0x86, 0x48, 0x86, 0xf7, 0x0d, 0x01, 0x09, 0x10, 0x01, 0x04, 0x30, 0x2f, 0x06, 0x09, 0x2a, 0x86, 0x48,
    0x86, 0xf7, 0x0d, 0x01, 0x09, 0x04, 0x31, 0x22, 0x04, 0x20, 0x00, 0x00, 0x00, 0x00, 0x00, 0x00, 0x00, 0x00, 0x00, 0x00, 0x00, 0x00,
    0x00, 0x00, 0x00, 0x00, 0x00, 0x00, 0x00, 0x00, 0x00, 0x00, 0x00, 0x00, 0x00, 0x00, 0x00, 0x00, 0x00, 0x00, 0x00, 0x00, 0x30, 0x05,
    0x06, 0x03, 0x2a, 0x03, 0x04, 0x04, 0x01, 0xaa};
/* The digest of "abc" by SHA-256. */
#define SHA256_OF_ABC \
    "\xba\x78\x16\xbf\x8f\x01\xcf\xea\x41\x41\x40\xde\x5d\xae\x22\x23" \
    "\xb0\x03\x61\xa3\x96\x17\x7a\x9c\xb4\x10\xff\x61\xf2\x00\x15\xad"

/* What a message asks for, in rooms of each size. */
static void check_asked_by(const char *what, const uint8_t *input, size_t length, const struct cms_canon_digest_asked *due, size_t count)
{
    struct cms_canon_digest_asked asked[3], guards[3];
    struct cms_canon_outcome outcome;
    memset(guards, GUARD, sizeof guards);
    for (size_t room = 0; room <= 3; room++) {
        memcpy(asked, guards, sizeof asked);
        cms_canon_digests_asked(input, length, CMS_CANON_LIMIT, asked, room, &outcome);
        bool fits = room >= count;
        check(what, outcome.status == (fits ? CMS_CANON_DONE : CMS_CANON_ROOM_TOO_SMALL) && outcome.octets == count
                        && outcome.reason == 0 && outcome.at == 0 && outcome.name[0] == 0
                        && (!fits || memcmp(asked, due, count * sizeof *due) == 0));
        check("rows of digests that are not written",
              memcmp(asked + (fits ? count : 0), guards, (3 - (fits ? count : 0)) * sizeof *guards) == 0);
    }
}

static void check_digests_asked(void)
{
    static const struct cms_canon_digest_asked content[] = {{CMS_CANON_OF_CONTENT, CMS_CANON_SHA256}},
                                               itself[] = {{CMS_CANON_OF_CONTENT, 0}}, data[] = {{CMS_CANON_OF_DATA, CMS_CANON_SHA256}};
    struct cms_canon_digest_asked asked[1];
    struct cms_canon_outcome outcome;
    check_asked_by("a digest of detached content", detached_abc, sizeof detached_abc, content, 1);
    check_asked_by("the content of a token", detached_token, sizeof detached_token, itself, 1);
    check_asked_by("a digest of data", token_for_abc, sizeof token_for_abc, data, 1);
    check_asked_by("no digests", message, sizeof message, content, 0);
    check_asked_by("no digests by an algorithm that is not known", countersigned, sizeof countersigned, content, 0);
    cms_canon_digests_asked(message, sizeof message, sizeof message - 1, asked, 1, &outcome);
    check("a limit of digests", outcome.status == CMS_CANON_REFUSED && outcome.reason == 2 && outcome.octets == 0);
    cms_canon_digests_asked(message, sizeof message, UINT64_MAX, asked, 1, &outcome);
    check("a limit of digests above 2^40", outcome.status == CMS_CANON_DONE && outcome.octets == 0);
}

/* A check by digests has this outcome and writes these findings, and nothing after them. */
static void check_by(const char *what, const struct cms_canon_digest *content, size_t count, const uint8_t *input, size_t length,
                     uint32_t reason, const uint32_t *codes, size_t findings_due)
{
    struct cms_canon_finding findings[4], guards[4];
    struct cms_canon_outcome outcome;
    memset(guards, GUARD, sizeof guards);
    memcpy(findings, guards, sizeof findings);
    cms_canon_check_digests(input, length, content, count, true, content, 0, false, CMS_CANON_LIMIT, findings, 4, &outcome);
    bool holds = outcome.status == (reason ? CMS_CANON_REFUSED : CMS_CANON_DONE) && outcome.reason == reason && outcome.at == 0
                 && outcome.octets == findings_due;
    for (size_t i = 0; i < findings_due && holds; i++)
        holds = findings[i].code == codes[i];
    check(what, holds && memcmp(findings + findings_due, guards, (4 - findings_due) * sizeof *guards) == 0);
}

static void check_digests(void)
{
    static const uint32_t good[] = {18}, differs[] = {7, 18}, none[1];
    static const struct cms_canon_digest sha256 = {CMS_CANON_SHA256, SHA256_OF_ABC}, other = {CMS_CANON_SHA256, "other"},
                                         sha512 = {CMS_CANON_SHA512, SHA256_OF_ABC}, unknown[] = {{0, SHA256_OF_ABC}, {8, SHA256_OF_ABC}};
    struct cms_canon_digest several[] = {sha512, unknown[0], sha256, other};
    struct cms_canon_finding findings[4];
    struct cms_canon_outcome outcome;
    const uint8_t *input = detached_abc;
    size_t length = sizeof detached_abc;
    check_by("the right digest", &sha256, 1, input, length, 0, good, 1);
    check_by("a wrong digest", &other, 1, input, length, 0, differs, 2);
    check_by("the first one of several", several, 4, input, length, 0, good, 1);
    memset(several[2].octets + 32, GUARD, 32);
    check_by("what follows a digest is not looked at", several, 4, input, length, 0, good, 1);
    several[2] = other;
    several[3] = sha256;
    check_by("the first one of several is wrong", several, 4, input, length, 0, differs, 2);
    check_by("no digests", &sha256, 0, input, length, CMS_CANON_NO_DIGEST, none, 0);
    check_by("a digest by another algorithm", &sha512, 1, input, length, CMS_CANON_NO_DIGEST, none, 0);
    check_by("digests by algorithms that are not known", unknown, 2, input, length, CMS_CANON_NO_DIGEST, none, 0);
    check_by("content that is needed itself", &sha256, 1, detached_token, sizeof detached_token, CMS_CANON_NEEDS_CONTENT, none, 0);
    cms_canon_check_digests(input, length, &sha256, 0, false, &sha256, 0, false, CMS_CANON_LIMIT, findings, 4, &outcome);
    check("no content", outcome.status == CMS_CANON_DONE && outcome.octets == 2 && findings[0].code == 9 && findings[1].code == 18);
    cms_canon_check_digests(token_for_abc, sizeof token_for_abc, &sha256, 0, false, &sha512, 1, true, CMS_CANON_LIMIT, findings, 4, &outcome);
    check("no digest of data", outcome.status == CMS_CANON_REFUSED && outcome.reason == CMS_CANON_NO_DIGEST
                                   && strcmp(outcome.name, "digest not given") == 0);
    cms_canon_check_digests(token_for_abc, sizeof token_for_abc, &sha256, 0, false, &other, 1, true, CMS_CANON_LIMIT, findings, 4, &outcome);
    check("a wrong digest of data", outcome.status == CMS_CANON_DONE && outcome.octets == 4 && findings[0].code == 14);
    cms_canon_check_digests(input, length, &sha256, 1, true, &sha256, 1, true, CMS_CANON_LIMIT, findings, 1, &outcome);
    check("no room for findings by digests", outcome.status == CMS_CANON_ROOM_TOO_SMALL && outcome.octets == 2);
    cms_canon_check_digests(input, length, &sha256, 1, true, &sha256, 0, false, length - 1, findings, 4, &outcome);
    check("a limit of a check by digests", outcome.status == CMS_CANON_REFUSED && outcome.reason == 2);
}

/* The rows of the message above, whose content is in two segments. */
static const struct cms_canon_row rows_of_message[] = {
    {0, 0, CMS_CANON_KIND_SIGNED_DATA, 0},   {19, 1, CMS_CANON_KIND_VERSION, 1}, {26, 9, CMS_CANON_KIND_CONTENT_TYPE, 1},
    {41, 2, CMS_CANON_KIND_CONTENT, 1}, {45, 1, CMS_CANON_KIND_CONTENT, 1}};
enum { ROWS = sizeof rows_of_message / sizeof rows_of_message[0] };

static void check_fields(void)
{
    struct cms_canon_row fields[ROWS + 3], guards[ROWS + 3];
    struct cms_canon_outcome outcome;
    memset(guards, GUARD, sizeof guards);
    for (size_t room = 0; room <= ROWS + 3; room++) {
        memcpy(fields, guards, sizeof fields);
        cms_canon_fields(message, sizeof message, CMS_CANON_LIMIT, fields, room, &outcome);
        bool fits = room >= ROWS;
        check("status by the room for rows", outcome.status == (fits ? CMS_CANON_DONE : CMS_CANON_ROOM_TOO_SMALL));
        check("how many rows", outcome.octets == ROWS && outcome.reason == 0 && outcome.at == 0 && outcome.name[0] == 0);
        check("the rows", !fits || memcmp(fields, rows_of_message, sizeof rows_of_message) == 0);
        check("rows that are not written", memcmp(fields + (fits ? ROWS : 0), guards, (fits ? 3 : ROWS + 3) * sizeof *guards) == 0);
    }
    memcpy(fields, guards, sizeof fields);
    cms_canon_fields(message, 0, CMS_CANON_LIMIT, fields, ROWS, &outcome);
    check("rows of no octets", outcome.status == CMS_CANON_REFUSED && outcome.reason == 1 && outcome.at == 0 && outcome.octets == 0);
    cms_canon_fields(message, sizeof message, sizeof message - 1, fields, ROWS, &outcome);
    check("a limit of rows", outcome.status == CMS_CANON_REFUSED && outcome.reason == 2 && strcmp(outcome.name, "TooLarge") == 0);
    check("no rows on a refusal", memcmp(fields, guards, sizeof guards) == 0);
    cms_canon_fields(message, sizeof message, UINT64_MAX, fields, ROWS, &outcome);
    check("a limit of rows above 2^40", outcome.status == CMS_CANON_DONE && outcome.octets == ROWS);
}

/* The pieces of its DER: of a header only what is not the same in the message is made. */
static const struct cms_canon_piece pieces_of_message[] = {{0, 2, 1},   {2, 12, 0}, {14, 3, 1}, {17, 6, 0}, {23, 1, 1},
                                                           {24, 12, 0}, {36, 3, 1}, {41, 2, 0}, {45, 1, 0}, {42, 2, 1}};
enum { PIECES = sizeof pieces_of_message / sizeof pieces_of_message[0] };

static void check_pieces(void)
{
    struct cms_canon_piece pieces[PIECES + 3], guards[PIECES + 3], whole = {0, sizeof der, 0};
    struct cms_canon_outcome outcome;
    memset(guards, GUARD, sizeof guards);
    for (size_t room = 0; room <= PIECES + 3; room++) {
        memcpy(pieces, guards, sizeof pieces);
        cms_canon_pieces(message, sizeof message, CMS_CANON_LIMIT, pieces, room, &outcome);
        bool fits = room >= PIECES;
        check("status by the room for pieces", outcome.status == (fits ? CMS_CANON_DONE : CMS_CANON_ROOM_TOO_SMALL));
        check("how many pieces", outcome.octets == PIECES && outcome.reason == 0 && outcome.at == 0 && outcome.name[0] == 0);
        check("the pieces", !fits || memcmp(pieces, pieces_of_message, sizeof pieces_of_message) == 0);
        check("pieces that are not written", memcmp(pieces + (fits ? PIECES : 0), guards, (fits ? 3 : PIECES + 3) * sizeof *guards) == 0);
    }
    size_t at = 0;
    for (const struct cms_canon_piece *piece = pieces_of_message; piece < pieces_of_message + PIECES; piece++) {
        check("a piece of the DER", memcmp(der + at, (piece->made ? der : message) + piece->place, piece->length) == 0);
        at += piece->length;
    }
    check("all of the DER", at == sizeof der);
    cms_canon_pieces(der, sizeof der, CMS_CANON_LIMIT, pieces, PIECES, &outcome);
    check("DER is one piece", outcome.status == CMS_CANON_DONE && outcome.octets == 1 && memcmp(pieces, &whole, sizeof whole) == 0);
    memcpy(pieces, guards, sizeof pieces);
    cms_canon_pieces(message, 0, CMS_CANON_LIMIT, pieces, PIECES, &outcome);
    check("pieces of no octets", outcome.status == CMS_CANON_REFUSED && outcome.reason == 1 && outcome.at == 0 && outcome.octets == 0);
    cms_canon_pieces(message, sizeof message, sizeof message - 1, pieces, PIECES, &outcome);
    check("a limit of pieces", outcome.status == CMS_CANON_REFUSED && outcome.reason == 2 && strcmp(outcome.name, "TooLarge") == 0);
    check("no pieces on a refusal", memcmp(pieces, guards, sizeof guards) == 0);
}

/* What conversion changes in it. */
static const struct cms_canon_change changes_of_message[] = {
    {CMS_CANON_LENGTH_MADE_DEFINITE, 0, 2, 0, 2, 42, 58, 0},
    {CMS_CANON_LENGTH_MADE_DEFINITE, 13, 2, 13, 2, 29, 56, 0},
    {CMS_CANON_LENGTH_MADE_DEFINITE, 15, 2, 15, 2, 27, 54, 0},
    {CMS_CANON_LENGTH_MADE_DEFINITE, 22, 2, 22, 2, 18, 50, 0},
    {CMS_CANON_LENGTH_MADE_DEFINITE, 35, 2, 35, 2, 5, 48, 0},
    {CMS_CANON_SEGMENTS_JOINED, 37, 11, 37, 5, 2, 3, 0}};
enum { CHANGES = sizeof changes_of_message / sizeof changes_of_message[0] };

static void check_changes(void)
{
    struct cms_canon_change changes[CHANGES + 3], guards[CHANGES + 3];
    struct cms_canon_outcome outcome;
    memset(guards, GUARD, sizeof guards);
    for (size_t room = 0; room <= CHANGES + 3; room++) {
        memcpy(changes, guards, sizeof changes);
        cms_canon_changes(message, sizeof message, CMS_CANON_LIMIT, changes, room, &outcome);
        bool fits = room >= CHANGES;
        check("status by the room for changes", outcome.status == (fits ? CMS_CANON_DONE : CMS_CANON_ROOM_TOO_SMALL));
        check("how many changes", outcome.octets == CHANGES && outcome.reason == 0 && outcome.at == 0 && outcome.name[0] == 0);
        check("the changes", !fits || memcmp(changes, changes_of_message, sizeof changes_of_message) == 0);
        check("changes that are not written", memcmp(changes + (fits ? CHANGES : 0), guards, (fits ? 3 : CHANGES + 3) * sizeof *guards) == 0);
    }
    memcpy(changes, guards, sizeof changes);
    cms_canon_changes(der, sizeof der, CMS_CANON_LIMIT, changes, CHANGES, &outcome);
    check("DER has no changes", outcome.status == CMS_CANON_DONE && outcome.octets == 0);
    cms_canon_changes(message, 0, CMS_CANON_LIMIT, changes, CHANGES, &outcome);
    check("changes of no octets", outcome.status == CMS_CANON_REFUSED && outcome.reason == 1 && outcome.at == 0 && outcome.octets == 0);
    cms_canon_changes(message, sizeof message, sizeof message - 1, changes, CHANGES, &outcome);
    check("a limit of changes", outcome.status == CMS_CANON_REFUSED && outcome.reason == 2 && strcmp(outcome.name, "TooLarge") == 0);
    check("no changes on a refusal", memcmp(changes, guards, sizeof guards) == 0);
}

static void check_list_of_changes(bool json, const char *text)
{
    uint8_t output[4096];
    struct cms_canon_outcome outcome;
    memset(output, GUARD, sizeof output);
    cms_canon_list_changes(message, sizeof message, json, CMS_CANON_LIMIT, output, 0, &outcome);
    check("no room for a list of changes", outcome.status == CMS_CANON_ROOM_TOO_SMALL && outcome.octets < sizeof output);
    uint64_t length = outcome.octets;
    cms_canon_list_changes(message, sizeof message, json, CMS_CANON_LIMIT, output, length, &outcome);
    check("a list of changes", outcome.status == CMS_CANON_DONE && outcome.octets == length && memcmp(output, text, strlen(text)) == 0
                                   && output[length - 1] == '\n' && is_all(output, length, sizeof output, GUARD));
    cms_canon_list_changes(message, sizeof message, json, sizeof message - 1, output, sizeof output, &outcome);
    check("a limit of a list of changes", outcome.status == CMS_CANON_REFUSED && outcome.reason == 2);
}

/* A TSTInfo without optional fields, its genTime at the beginning of 2026. */
static const uint8_t tst_info[] = {0x30, 0x27, 0x02, 0x01, 0x01, 0x06, 0x03, 0x2a, 0x03, 0x04, 0x30, 0x09, 0x30, 0x05,
                                   0x06, 0x03, 0x2a, 0x03, 0x04, 0x04, 0x00, 0x02, 0x01, 0x05, 0x18, 0x0f, '2',  '0',
                                   '2',  '6',  '0',  '1',  '0',  '1',  '0',  '0',  '0',  '0',  '0',  '0',  'Z'};
static const struct cms_canon_row rows_of_tst_info[] = {
    {0, 0, CMS_CANON_KIND_TST_INFO, 0},        {4, 1, CMS_CANON_KIND_TST_VERSION, 1},
    {7, 3, CMS_CANON_KIND_TST_POLICY, 1},      {16, 3, CMS_CANON_KIND_HASH_ALGORITHM, 1},
    {21, 0, CMS_CANON_KIND_HASHED_MESSAGE, 1}, {23, 1, CMS_CANON_KIND_TST_SERIAL_NUMBER, 1},
    {26, 15, CMS_CANON_KIND_GEN_TIME, 1}};
enum { TST_ROWS = sizeof rows_of_tst_info / sizeof rows_of_tst_info[0] };

static void check_tst_info(void)
{
    struct cms_canon_row fields[TST_ROWS + 1], guards[TST_ROWS + 1];
    struct cms_canon_outcome outcome;
    memset(guards, GUARD, sizeof guards);
    for (size_t room = 0; room <= TST_ROWS + 1; room++) {
        memcpy(fields, guards, sizeof fields);
        cms_canon_tst_info_fields(tst_info, sizeof tst_info, fields, room, &outcome);
        bool fits = room >= TST_ROWS;
        check("status of a TSTInfo", outcome.status == (fits ? CMS_CANON_DONE : CMS_CANON_ROOM_TOO_SMALL));
        check("its rows", outcome.octets == TST_ROWS && (!fits || memcmp(fields, rows_of_tst_info, sizeof rows_of_tst_info) == 0));
        check("what is not written of a TSTInfo",
              memcmp(fields + (fits ? TST_ROWS : 0), guards, (fits ? 1 : TST_ROWS + 1) * sizeof *guards) == 0);
    }
    memcpy(fields, guards, sizeof fields);
    for (size_t length = 0; length < sizeof tst_info; length++) {
        cms_canon_tst_info_fields(tst_info, length, fields, TST_ROWS, &outcome);
        check("no TSTInfo", outcome.status == CMS_CANON_REFUSED && outcome.reason == CMS_CANON_NO_TST_INFO && outcome.at == 0
                                && outcome.octets == 0 && strcmp(outcome.name, "not a TSTInfo in DER") == 0);
    }
    cms_canon_tst_info_fields(message, sizeof message, fields, TST_ROWS, &outcome);
    check("a message is no TSTInfo", outcome.status == CMS_CANON_REFUSED && outcome.reason == CMS_CANON_NO_TST_INFO);
    check("no rows of what is no TSTInfo", memcmp(fields, guards, sizeof guards) == 0);
}

static void check_comparisons(void)
{
    struct cms_canon_outcome outcome;
    cms_canon_same(message, sizeof message, der, sizeof der, CMS_CANON_LIMIT, &outcome);
    check("the same message", outcome.status == CMS_CANON_DONE && outcome.octets == 0 && outcome.reason == 0);
    cms_canon_same(der, sizeof der, countersigned, sizeof countersigned, CMS_CANON_LIMIT, &outcome);
    check("another message", outcome.status == CMS_CANON_DIFFERENT && outcome.octets == 0 && outcome.reason == 0);
    cms_canon_same(message, 0, der, 1, CMS_CANON_LIMIT, &outcome);
    check("no first message", outcome.status == CMS_CANON_REFUSED && outcome.octets == 1 && outcome.reason == 1 && outcome.at == 0);
    cms_canon_same(message, sizeof message, der, 1, CMS_CANON_LIMIT, &outcome);
    check("no second message", outcome.status == CMS_CANON_REFUSED && outcome.octets == 2 && outcome.reason == 1 && outcome.at == 1);
    cms_canon_same(message, sizeof message, der, sizeof der, sizeof message - 1, &outcome);
    check("a limit of two messages", outcome.status == CMS_CANON_REFUSED && outcome.octets == 1 && outcome.reason == 2);
}

static void check_listing(void)
{
    static const char text[] = "kind: signed-data\n";
    uint8_t output[4096];
    struct cms_canon_outcome outcome;
    memset(output, GUARD, sizeof output);
    cms_canon_show(message, sizeof message, CMS_CANON_LIMIT, output, 0, &outcome);
    check("no room for a listing", outcome.status == CMS_CANON_ROOM_TOO_SMALL && outcome.octets < sizeof output);
    uint64_t length = outcome.octets;
    cms_canon_show(message, sizeof message, CMS_CANON_LIMIT, output, length, &outcome);
    check("a listing", outcome.status == CMS_CANON_DONE && outcome.octets == length && memcmp(output, text, strlen(text)) == 0
                           && is_all(output, length, sizeof output, GUARD));
}

/* A message, its DER, and `more` octets of another one. */
static void check_many_in(size_t room, size_t more)
{
    uint8_t input[sizeof message + 2 * sizeof der], output[2 * sizeof der + 8];
    struct cms_canon_many many;
    size_t read = sizeof message + sizeof der, octets = 2 * sizeof der;
    memcpy(input, message, sizeof message);
    memcpy(input + sizeof message, der, sizeof der);
    memcpy(input + read, der, sizeof der);
    memset(output, GUARD, sizeof output);
    memset(&many, 0xff, sizeof many);
    cms_canon_convert_many(input, read + more, CMS_CANON_LIMIT, output, room, &many);
    bool fits = room >= octets, cut = fits && more > 0;
    check("status of many", many.outcome.status == (cut ? CMS_CANON_REFUSED : fits ? CMS_CANON_DONE : CMS_CANON_ROOM_TOO_SMALL));
    check("octets of many", many.outcome.octets == octets && many.messages == 2 && many.read == read);
    check("why many end", many.outcome.reason == (cut ? 1 : 0) && many.outcome.at == (cut ? more : 0)
                              && strcmp(many.outcome.name, cut ? "Truncated" : "") == 0);
    check("what is written of many",
          !fits || (memcmp(output, der, sizeof der) == 0 && memcmp(output + sizeof der, der, sizeof der) == 0));
    check("what is not written of many", is_all(output, fits ? octets : 0, sizeof output, GUARD));
}

static void check_many(void)
{
    static const uint8_t wrong[] = {0x31, 0x00, 0x30, 0x00};
    uint8_t output[sizeof der];
    struct cms_canon_many many;
    for (size_t room = 0; room <= 2 * sizeof der + 8; room++)
        for (size_t more = 0; more < 3; more++)
            check_many_in(room, more);
    memset(output, GUARD, sizeof output);
    cms_canon_convert_many(message, 0, CMS_CANON_LIMIT, output, 0, &many);
    check("no messages", many.outcome.status == CMS_CANON_DONE && many.outcome.octets == 0 && many.messages == 0 && many.read == 0);
    cms_canon_convert_many(message, 0, 0, output, 0, &many);
    check("no messages and the limit 0", many.outcome.status == CMS_CANON_REFUSED && many.outcome.reason == 2 && many.outcome.at == 0);
    cms_canon_convert_many(wrong, sizeof wrong, CMS_CANON_LIMIT, output, sizeof output, &many);
    check("a first message that is refused", many.outcome.status == CMS_CANON_REFUSED && many.outcome.reason == 7
                                                 && many.outcome.at == 2 && many.outcome.octets == 0 && many.messages == 0
                                                 && many.read == 0);
    check("nothing is written before it", is_all(output, 0, sizeof output, GUARD));
    cms_canon_convert_many(message, sizeof message, UINT64_MAX, output, sizeof output, &many);
    check("a limit of many above 2^40", many.outcome.status == CMS_CANON_DONE && many.messages == 1);
}

static bool is_extent(const struct cms_canon_extent *extent, uint64_t end, uint64_t unended, uint32_t reach)
{
    return extent->end == end && extent->unended == unended && extent->reach == reach;
}

/* The first `end` octets of the message are headers of `unended` elements of indefinite length, and whole elements. */
static void check_extents(void)
{
    static const uint8_t long_element[] = {0x30, 0x84, 0x10, 0x00, 0x00, 0x01}, reserved[] = {0x30, 0x80, 0x04, 0xff},
                         end[] = {0x00, 0x00}, primitive[] = {0x04, 0x80};
    struct cms_canon_extent extent = {0}, from_nothing;
    for (size_t length = 0; length < sizeof message; length++) {
        from_nothing = (struct cms_canon_extent){0};
        cms_canon_extent(message, length, CMS_CANON_LIMIT, &extent);
        cms_canon_extent(message, length, CMS_CANON_LIMIT, &from_nothing);
        check("octets are missing", extent.reach == CMS_CANON_MORE && extent.end <= length);
        check("the same from the first octet", is_extent(&from_nothing, extent.end, extent.unended, extent.reach));
        if (length == 2)
            check("a header is passed", is_extent(&extent, 2, 1, CMS_CANON_MORE));
        if (length == 13)
            check("and the element after it", is_extent(&extent, 13, 1, CMS_CANON_MORE));
    }
    cms_canon_extent(message, sizeof message, CMS_CANON_LIMIT, &extent);
    check("a whole message", is_extent(&extent, sizeof message, 0, CMS_CANON_WHOLE));
    extent = (struct cms_canon_extent){0};
    cms_canon_extent(countersigned, sizeof countersigned - 1, sizeof countersigned, &extent);
    check("an octet of a definite length is missing", is_extent(&extent, 0, 0, CMS_CANON_MORE));
    cms_canon_extent(countersigned, sizeof countersigned, sizeof countersigned, &extent);
    check("a whole message of a definite length", is_extent(&extent, sizeof countersigned, 0, CMS_CANON_WHOLE));
    extent = (struct cms_canon_extent){0};
    cms_canon_extent(countersigned, sizeof countersigned, sizeof countersigned - 1, &extent);
    check("a message past the limit", is_extent(&extent, 0, 0, CMS_CANON_NOTHING));
    extent = (struct cms_canon_extent){0};
    cms_canon_extent(message, sizeof message, sizeof message - 1, &extent);
    check("an end of contents past the limit", extent.reach == CMS_CANON_NOTHING && extent.unended == 1);
    for (size_t limit = 0; limit < sizeof message; limit++) {
        extent = from_nothing = (struct cms_canon_extent){0};
        cms_canon_extent(message, sizeof message, limit, &extent);
        for (size_t length = 0; length <= sizeof message && from_nothing.reach == CMS_CANON_MORE; length++)
            cms_canon_extent(message, length, limit, &from_nothing);
        check("a limit that is passed", extent.reach == CMS_CANON_NOTHING && from_nothing.reach == CMS_CANON_NOTHING);
    }
    extent = (struct cms_canon_extent){0};
    cms_canon_extent(long_element, sizeof long_element, CMS_CANON_LIMIT, &extent);
    check("a length past the limit", is_extent(&extent, 0, 0, CMS_CANON_NOTHING));
    extent = (struct cms_canon_extent){0};
    cms_canon_extent(reserved, sizeof reserved, CMS_CANON_LIMIT, &extent);
    check("a reserved length inside", is_extent(&extent, 2, 1, CMS_CANON_NOTHING));
    extent = (struct cms_canon_extent){0};
    cms_canon_extent(primitive, sizeof primitive, CMS_CANON_LIMIT, &extent);
    check("a primitive element of indefinite length", is_extent(&extent, 0, 0, CMS_CANON_NOTHING));
    extent = (struct cms_canon_extent){0};
    cms_canon_extent(end, sizeof end, CMS_CANON_LIMIT, &extent);
    check("an element of two zeros", is_extent(&extent, 2, 0, CMS_CANON_WHOLE));
    extent = (struct cms_canon_extent){.end = UINT64_MAX, .unended = UINT64_MAX};
    cms_canon_extent(message, sizeof message, CMS_CANON_LIMIT, &extent);
    check("an extent that no call wrote", extent.reach == CMS_CANON_NOTHING);
    extent = (struct cms_canon_extent){.end = sizeof message, .unended = sizeof message};
    cms_canon_extent(message, sizeof message, UINT64_MAX, &extent);
    check("one at the last octet", is_extent(&extent, sizeof message, sizeof message, CMS_CANON_MORE));
}

static void *convert_often(void *wrong)
{
    uint8_t output[sizeof der];
    struct cms_canon_outcome outcome;
    for (int i = 0; i < TIMES; i++) {
        memset(output, 0, sizeof output);
        cms_canon_convert(message, sizeof message, CMS_CANON_LIMIT, output, sizeof output, &outcome);
        if (outcome.status != CMS_CANON_DONE || memcmp(output, der, sizeof der) != 0)
            ++*(int *)wrong;
    }
    return NULL;
}

static void check_threads(void)
{
    pthread_t threads[THREADS];
    int wrong[THREADS] = {0};
    for (int i = 0; i < THREADS; i++)
        check("a thread begins", pthread_create(&threads[i], NULL, convert_often, &wrong[i]) == 0);
    for (int i = 0; i < THREADS; i++) {
        pthread_join(threads[i], NULL);
        check("a thread's conversions", wrong[i] == 0);
    }
}

int main(void)
{
    check("the size of an outcome", sizeof(struct cms_canon_outcome) == 48);
    check("the size of what became of many", sizeof(struct cms_canon_many) == 64);
    check("the size of a finding", sizeof(struct cms_canon_finding) == 16);
    check("the size of a digest", sizeof(struct cms_canon_digest) == 68);
    check("the size of a digest asked for", sizeof(struct cms_canon_digest_asked) == 8);
    check_rooms();
    check_refusals();
    check_paths();
    check_version_and_texts();
    check_findings();
    check_digests_asked();
    check_digests();
    check_fields();
    check_pieces();
    check_changes();
    check_list_of_changes(false, "at 0 length made definite: 30 80 -> 30 2a\n");
    check_list_of_changes(true, "{\"changes\": [{\"change\": \"length made definite\", \"at\": 0, ");
    check("the size of a change", sizeof(struct cms_canon_change) == 64);
    check_tst_info();
    check_comparisons();
    check_listing();
    check_many();
    check_extents();
    check_threads();
    printf("%d passed, %d failed\n", passed, failed);
    return failed != 0;
}
