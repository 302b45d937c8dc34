/*
 * cms-canon: the one DER encoding of a CMS signed message (RFC 5652 SignedData), or of a request, a response or a token of
 * time-stamping (RFC 3161); its listing; the rules of the standards that it breaks; whether two messages are the same; where each
 * of its fields is; and the octets that its signatures cover.
 *
 *     struct cms_canon_outcome outcome;
 *     cms_canon_convert(input, input_length, CMS_CANON_LIMIT,
 *                       output, output_room, &outcome);
 *     if (outcome.status == CMS_CANON_DONE)
 *         fwrite(output, 1, outcome.octets, stdout);
 *     else if (outcome.status == CMS_CANON_REFUSED)
 *         fprintf(stderr, "refused E%u %s at %llu\n", outcome.reason,
 *                 outcome.name, (unsigned long long)outcome.at);
 *
 * A `reason` above 100, which only cms_canon_cover, cms_canon_tst_info_fields and cms_canon_check_digests give, has no `at`. The line of
 * the command is then "refused: %s", with `name`.
 *
 * Each call works only on the memory that it is handed. It keeps nothing and has no global state, so any number of threads
 * may call at once, with outputs and outcomes of their own. It takes working memory by malloc and frees it before it returns:
 * no memory that it allocates is handed out, and none that the caller allocated is freed.
 *
 * A call may be made from a thread that has a stack of CMS_CANON_STACK octets, however deep the message is nested.
 *
 * As nothing is kept, each call reads the message from its beginning, and takes time in proportion to its length, whatever it
 * writes. cms_canon_fields says with one reading where all fields of all signers are; a verifier that asks for the cover of each
 * signer in turn takes time in proportion to the square of their number.
 *
 * No pointer may be NULL, even with a length of 0. `output`, `findings`, `fields`, `pieces`, `changes`, `asked`, `outcome`, `many` and
 * `extent` must not overlap one another or an input. A call must not be made from a signal handler, or from the forked child of a
 * process with several threads.
 */
#ifndef CMS_CANON_H
#define CMS_CANON_H

#include <stdbool.h>
#include <stddef.h>
#include <stdint.h>

#ifdef __cplusplus
extern "C" {
#endif

/* The version: scripts/generate writes this from crates/cms_cli/src/task.rt */
/* The release of this header. */
#define CMS_CANON_VERSION "0.27.0"
/* The same as one number: 10,000 times the first number, plus 100 times the second, plus the third. */
#define CMS_CANON_VERSION_NUMBER 2700
/* the end of the version */

/*
 * Returns the release of the library that the program runs with, as one number like CMS_CANON_VERSION_NUMBER. A library with a larger number
 * and the same name for the loader has all that this header declares; one with a smaller number may lack calls.
 */
uint32_t cms_canon_version(void);

/* The limit of the command, in octets: 256 MiB. A limit may be at most 2^40; a larger one counts as 2^40. */
#define CMS_CANON_LIMIT UINT64_C(268435456)

/* The octets of stack that suffice for a thread whose own functions take few: 64 KiB, of which a call takes about 48 KiB. */
#define CMS_CANON_STACK 65536

/* The values of `status`. All but the last are those of the command. */
enum cms_canon_status {
    CMS_CANON_DONE = 0,           /* the first `octets` octets of the output were written, and no others; of a comparison: the
                                     messages are the same */
    CMS_CANON_DIFFERENT = 1,      /* of a comparison alone: the messages are not the same */
    CMS_CANON_REFUSED = 3,        /* `reason`, `at` and `name` say why; nothing was written, except by cms_canon_convert_many */
    CMS_CANON_OUT_OF_MEMORY = 5,  /* malloc failed; nothing was written */
    CMS_CANON_ROOM_TOO_SMALL = 6  /* `octets` says how much room is needed; nothing was written: call again with more */
};

/* The values of `reason`: 1 to 19 stand for E1 to E19 (cms-canon(1)), and these say why there is no cover or TSTInfo, or why
 * digests do not suffice. */
enum cms_canon_reason {
    CMS_CANON_NO_SIGNED_DATA = 101, /* the message is a request, or a response without a token */
    CMS_CANON_NO_SIGNER = 102,      /* the path is empty, or leads to no signer or countersignature */
    CMS_CANON_NO_CONTENT = 103,     /* the signer has no signed attributes, and there is no content */
    CMS_CANON_NO_TST_INFO = 105,    /* the octets are not a TSTInfo in DER */
    CMS_CANON_NO_DIGEST = 106,      /* a digest that the message asks for is not given */
    CMS_CANON_NEEDS_CONTENT = 107   /* the content is needed itself, and not only by its digests */
};

/* What became of a call, which sets every field. */
struct cms_canon_outcome {
    uint32_t status; /* enum cms_canon_status */
    uint32_t reason; /* why the message is refused, or 0 */
    uint64_t at;     /* how many octets of the message were taken when it was refused by one of E1 to E19, or 0 */
    uint64_t octets; /* how many octets, findings or rows were written, or would be (CMS_CANON_ROOM_TOO_SMALL), or another number
                        that the call returns; if one of two messages is refused, which: 1 or 2; else 0 */
    char name[24];   /* the name of the reason, as "Overrun" or "no such signer", with zeros after it: a string, or "" */
};

/*
 * Returns what the `reason` of an outcome means, and what to do: a string in ASCII, which must not be freed. For a reason that no outcome
 * has, and for 0, it is "unknown reason".
 */
static inline const char *cms_canon_reason_text(uint32_t reason)
{
    switch (reason) {
    /* The reasons: scripts/generate writes this from docs/texts/refusals.toml */
    case 1: return "The input ends before the message does. At 0 it is empty. Get the whole message.";
    case 2:
        return "The message, its DER, the detached content or the data have more than 268,435,456 octets, or a length in the "
               "message says so. If it is not damaged: `cms-canon-archive check FILE DOCUMENT` takes content and data of any "
               "length, `cms-canon-archive convert --limit` longer messages, and a program of your own can give a larger "
               "limit.";
    case 3: return "A length is malformed. Get the message again: it is damaged, or was badly made.";
    case 4:
        return "A length is malformed. Get the message again: it is damaged, or was badly made. If it is refused at 2 to 4, it"
               " is usually text, such as PEM or S/MIME: decode it first.";
    case 5: return "A length is malformed. Get the message again: it is damaged, or was badly made.";
    case 6:
        return "An element is longer than what is left of the one around it. Get the message again: it is damaged, or was "
               "badly made. If it is refused at 2 to 4, it is usually text, such as PEM or S/MIME: decode it first.";
    case 7:
        return "An element is missing, or is not allowed here, or an identifier is malformed. Get the message again: it is "
               "damaged, or was badly made. If it is refused at 2 to 4, it is usually text, such as PEM or S/MIME: decode it "
               "first.";
    case 8: return "An INTEGER is empty, or longer than it has to be. Only the maker of the message can fix it.";
    case 9:
        return "An OBJECT IDENTIFIER is empty, or one of its numbers begins with 80 or does not end. Only the maker of the "
               "message can fix it.";
    case 10: return "The contents of a BOOLEAN are not one octet. Only the maker of the message can fix it.";
    case 11:
        return "A BIT STRING counts unused bits that it cannot have, or is empty. Only the maker of the message can fix it.";
    case 12:
        return "The content is in segments inside segments, more than eight deep. Nothing helps: eight is the limit of "
               "`cms-canon`.";
    case 13:
        return "A certificate, a revocation list, an attribute value or another field that is kept octet for octet is not "
               "framed as in DER. Only the maker of the message can fix it.";
    case 14:
        return "A certificate, a revocation list, an attribute value or another field that is kept octet for octet is nested "
               "more than 64 deep. Only the maker of the message can fix it.";
    case 15:
        return "Signed attributes are in another order than in DER, or have a length that is not DER's. Keep the message as it"
               " is: its signature covers these octets, so they must not be encoded again.";
    case 16: return "Signed or unsigned attributes are there and empty. Only the maker of the message can fix it.";
    case 17:
        return "It is CMS, but of another content type, as plain or enveloped data. Nothing helps: of CMS only SignedData is "
               "converted.";
    case 18:
        return "Something follows the message. At 1434, for example, the message is 1433 octets long. Cut the message out: in "
               "the example, `head -c 1433` does it. If it is the content or the data, give `--content` or `--data`. If "
               "messages follow, `convert --many` converts them too.";
    case 19: return "Countersignatures are nested more than four deep. Nothing helps: four is the limit of `cms-canon`.";
    case 101:
        return "The message is accepted, and is a request, or a response without a token: it has no signers. Give a signed "
               "message, or a response that has a token.";
    case 102:
        return "The message is accepted, and has no signer or countersignature with this number. Numbers count from 0, in the "
               "order read.";
    case 103:
        return "The message is accepted, the signer has no signed attributes, and the content is detached. Give the content.";
    case 105: return "The octets are not a TSTInfo in DER. Only the maker of the token can fix it.";
    case 106:
        return "The message asks for a digest of the content or of the data that is not among those given. Ask which digests "
               "are needed, and give all of them.";
    case 107:
        return "The detached content has to be a TSTInfo: it is needed itself, and not only by its digests. Give the content "
               "itself.";
    /* the end of the reasons */
    default: return "unknown reason";
    }
}

/*
 * Converts: reads the `input_length` octets at `input`, which are one message in BER or DER with nothing after it, and writes
 * its DER to `output`, which has room for `output_room` octets. Neither may have more than `limit` octets.
 *
 * The DER is seldom longer than the input, and then by a few octets for each element of 64 KiB or more. Room for
 * `input_length + 64` octets almost always suffices.
 */
void cms_canon_convert(const uint8_t *input, size_t input_length, uint64_t limit,
                       uint8_t *output, size_t output_room, struct cms_canon_outcome *outcome);

/* What became of messages one after another. */
struct cms_canon_many {
    struct cms_canon_outcome outcome; /* what became of all, as of a single message */
    uint64_t messages; /* how many messages were accepted, and so also the number of the one that is refused, from 0 */
    uint64_t read;     /* how many octets of the input these have, and so also where the one that is refused begins */
};

/*
 * Converts messages one after another: reads the `input_length` octets at `input`, which are messages in BER or DER, one right
 * after the other, and writes the DER of each to `output`, in the same order. The input may be empty. No message may have more
 * than `limit` octets, and neither may its DER; the input may. If `limit` is 0, any input is refused.
 *
 * CMS_CANON_DONE: all of the input is messages. Their DER is at the beginning of the output, `octets` of the outcome is its
 * length, `messages` says how many there are, and `read` is `input_length`.
 *
 * CMS_CANON_REFUSED: a message is refused. `reason`, `at` and `name` say why, and `at` counts from the first octet of that
 * message. The messages before it are converted all the same: their DER is at the beginning of the output, `octets` is its length,
 * `messages` says how many they are, and `read` how many octets of the input they have. If the reason is 1 (E1 Truncated), the
 * input ends inside a message: a caller that then gets more octets calls again with the octets from `read` on, and those.
 *
 * CMS_CANON_ROOM_TOO_SMALL: nothing was written. `octets` says how much room is needed; `messages` and `read` are as above, even if
 * the next message is refused, which this outcome does not say. CMS_CANON_OUT_OF_MEMORY: nothing was written, and `messages` and
 * `read` are 0.
 *
 * Each message is read as cms_canon_convert reads one, except that E18 does not come: what follows a message is the next one. Room
 * for `input_length + 64` octets almost always suffices.
 */
void cms_canon_convert_many(const uint8_t *input, size_t input_length, uint64_t limit,
                            uint8_t *output, size_t output_room, struct cms_canon_many *many);

/* The values of `reach`. */
enum cms_canon_reach {
    CMS_CANON_MORE = 0,          /* octets are missing: they are a proper prefix of an element, and fewer than `limit` */
    CMS_CANON_WHOLE = 1,         /* the element is whole: its length is `end`, at most `limit` */
    CMS_CANON_NOTHING = 2,       /* after `end` octets no element begins that ends within `limit`: cms_canon_convert says why */
    CMS_CANON_REACH_UNKNOWN = 3  /* malloc failed: call again with this extent */
};

/* How far an element reaches (X.690, section 8.1). */
struct cms_canon_extent {
    uint64_t end;     /* how many octets of the input were passed: headers of indefinite length, and whole elements after them */
    uint64_t unended; /* how many elements of indefinite length have not ended there */
    uint32_t reach;   /* enum cms_canon_reach */
};

/*
 * Finds how far the element reaches that the `input_length` octets at `input` begin with: so a caller whose octets come in pieces
 * learns when a whole message is there, and has it converted once. In the first call all of `extent` is 0. In a later one it is as the
 * call before left it, and the input is that of the call before and the octets that have come since: the call goes on at the header
 * where the one before stopped. All calls for a message take time in proportion to its headers and to the number of calls. If
 * `extent` was changed, or the call before said CMS_CANON_WHOLE or CMS_CANON_NOTHING, the extent says nothing.
 *
 *     struct cms_canon_extent extent = {0};
 *     do {
 *         length += read_more(input + length);
 *         cms_canon_extent(input, length, CMS_CANON_LIMIT, &extent);
 *     } while (extent.reach == CMS_CANON_MORE);
 *
 * Only headers are read, and not what is in elements of definite length: whether the element is a message, cms_canon_convert says.
 */
void cms_canon_extent(const uint8_t *input, size_t input_length, uint64_t limit, struct cms_canon_extent *extent);

/*
 * Writes the octets that a signature covers (RFC 5652, sections 5.4 and 11.4), which a verifier digests: that of a signer of the
 * message at `input`, or of a countersignature. The `path_length` numbers at `path` say which. Each counts from 0, in the order
 * read: path[0] names the signer, and each later number a countersignature of the one before, through all its countersignature
 * attributes. So the path 0 is the first signer, and 0, 1 the second countersignature of that signer. An empty path, or a number
 * out of range, is refused as `no such signer`. Of a response of time-stamping, the signers are those of its token.
 *
 * If the signer has signed attributes, the signature covers these and not the content. A verifier must also compare the digest of
 * the content with the attribute message-digest; cms_canon_cover does not do it, and cms_canon_check does. A signer without signed
 * attributes covers the content. The cover of a countersignature without signed attributes is the value octets of the signature
 * that it signs.
 *
 * If the content of the message is detached, it is handed in as the `content_length` octets at `content`, with `has_content`
 * true. If the signer has signed attributes, or the message has its content itself, `content` is not used. If `has_content` is
 * false, `content` may be any pointer but NULL, and `content_length` be 0.
 *
 * The message and its DER may have at most `limit` octets each. The content is not limited.
 *
 * Room for `input_length + content_length` octets always suffices.
 */
void cms_canon_cover(const uint8_t *input, size_t input_length, const uint64_t *path, size_t path_length,
                     const uint8_t *content, size_t content_length, bool has_content, uint64_t limit,
                     uint8_t *output, size_t output_room, struct cms_canon_outcome *outcome);

/*
 * Lists the message at `input`, as the command `show` does: a line for each of its parts, in UTF-8, each ended by a line feed.
 * No zero follows the text.
 *
 * A listing seldom has more than 4,000 octets. There is no room that always suffices: the outcome says how much is needed.
 */
void cms_canon_show(const uint8_t *input, size_t input_length, uint64_t limit,
                    uint8_t *output, size_t output_room, struct cms_canon_outcome *outcome);

/* A rule of the standards that a message breaks. */
struct cms_canon_finding {
    uint64_t signer;     /* the number of the signer that breaks it, from 0 in the order read; 0 if `has_signer` is 0 */
    uint32_t code;       /* 1 to 19 for F1 to F19 (docs/FORMATS.md) */
    uint32_t has_signer; /* 1 for a rule for a signer, 0 for one for the message */
};

/*
 * Returns the text that the command has for the finding with this code, as "message digest differs": a string in ASCII, which must not be
 * freed. For a code that no finding has it is "unknown finding".
 */
static inline const char *cms_canon_finding_text(uint32_t code)
{
    switch (code) {
    /* The findings: scripts/generate writes this from docs/texts/findings.toml */
    case 1: return "version does not follow the version rule";
    case 2: return "version does not fit the signer identifier";
    case 3: return "signed attributes missing";
    case 4: return "content-type attribute not once with one value";
    case 5: return "content-type attribute names another type";
    case 6: return "message-digest attribute not once with one octet string";
    case 7: return "message digest differs";
    case 8: return "digest algorithm unknown";
    case 9: return "no content";
    case 10: return "digest algorithm not listed";
    case 11: return "not a time-stamp token";
    case 12: return "token has not one signer";
    case 13: return "content is not a TSTInfo in DER";
    case 14: return "imprint differs";
    case 15: return "no signing-certificate attribute";
    case 16: return "no certificate has the hash";
    case 17: return "verifier says bad";
    case 18: return "verifier says unknown";
    case 19: return "token does not fit the status";
    /* the end of the findings */
    default: return "unknown finding";
    }
}

/*
 * Writes the rules that the message at `input` breaks to the array `findings`, which has room for `findings_room` of them.
 * `octets` of the outcome says how many findings there are, and not octets. Those for the message come first, and then those
 * for each signer in the order read; both are ordered by their codes. There are none for a message that breaks no rule, and has
 * no signature that covers anything.
 *
 * No signature is verified: there is a finding of code 18 for each signer whose signature covers anything, which is what a verifier
 * that cannot say whether it is right comes to. If a signer has no signed attributes, nothing else says whether the content fits. A caller that verifies drops it if the signature is right, and puts one of code 17 in
 * its place if the signature is wrong: cms_canon_fields says where what it needs is, and what the signature covers.
 *
 * If the content of the message is detached, it is handed in as the `content_length` octets at `content`, with `has_content`
 * true. If the message has its content itself, `content` is not used. The data that were time-stamped are the `data_length`
 * octets at `data`, with `has_data` true: the message then has to be a time-stamp token for them, a response with such a token,
 * or a request for one. If `has_content` or `has_data` is false, its pointer may be any but NULL, and its length be 0.
 *
 * The message and its DER may have at most `limit` octets each. Content and data are not limited; if they do not fit into memory,
 * cms_canon_check_digests takes digests of them.
 */
void cms_canon_check(const uint8_t *input, size_t input_length, const uint8_t *content, size_t content_length, bool has_content,
                     const uint8_t *data, size_t data_length, bool has_data, uint64_t limit,
                     struct cms_canon_finding *findings, size_t findings_room, struct cms_canon_outcome *outcome);

/* The digest algorithms that are known here (FIPS 180-4): the values of `algorithm` below. */
enum cms_canon_digest_algorithm {
    CMS_CANON_SHA1 = 1,       /* 20 octets */
    CMS_CANON_SHA224 = 2,     /* 28 */
    CMS_CANON_SHA256 = 3,     /* 32 */
    CMS_CANON_SHA384 = 4,     /* 48 */
    CMS_CANON_SHA512 = 5,     /* 64 */
    CMS_CANON_SHA512_224 = 6, /* 28 */
    CMS_CANON_SHA512_256 = 7  /* 32 */
};

/* What a digest is of: the values of `of` below. */
enum cms_canon_digested {
    CMS_CANON_OF_CONTENT = 1, /* the content of the message, which is detached */
    CMS_CANON_OF_DATA = 2     /* the data that were time-stamped, or are to be */
};

/* A digest that a message asks for. */
struct cms_canon_digest_asked {
    uint32_t of;        /* enum cms_canon_digested */
    uint32_t algorithm; /* enum cms_canon_digest_algorithm; 0 if the content is needed itself */
};

/* A digest. */
struct cms_canon_digest {
    uint32_t algorithm; /* enum cms_canon_digest_algorithm */
    uint8_t octets[64]; /* as many octets as the algorithm has; those after them are not looked at */
};

/*
 * Writes which digests of detached content, and of the data that were time-stamped, the message at `input` asks for, to the array
 * `asked`, which has room for `asked_room` of them. `octets` of the outcome says how many there are, and not octets. They are those of
 * the content, if that is detached, by the algorithms of the signers that have signed attributes and do not break F6, ordered by number
 * and each once; and then that of the data that were time-stamped, or are to be, by the algorithm of the imprint. An algorithm that is
 * not known here is not among them.
 *
 * The content is needed itself if the message is a time-stamp token, or a response with one, and its content is detached: that is the
 * TSTInfo. The only row is then {CMS_CANON_OF_CONTENT, 0}, and cms_canon_check has to be called, with the content and the data as octets.
 * If no content is given, cms_canon_check_digests reports F9.
 *
 * The message and its DER may have at most `limit` octets each. Room for 8 always suffices.
 */
void cms_canon_digests_asked(const uint8_t *input, size_t input_length, uint64_t limit,
                             struct cms_canon_digest_asked *asked, size_t asked_room, struct cms_canon_outcome *outcome);

/*
 * Writes the rules that the message at `input` breaks to the array `findings`, as cms_canon_check does, by digests of the content and
 * of the data in place of their octets. So no document has to be in memory: the caller asks cms_canon_digests_asked which digests are
 * needed, reads the document in pieces, and digests them by a library of its own. The findings are those of cms_canon_check
 * with any octets that have these digests: a digest that is not of the document is believed.
 *
 * If the content of the message is detached, the `content_count` digests at `content` are of it, with `has_content` true. If the message
 * has its content itself, they are not used. The `data_count` digests at `data` are of the data that were time-stamped, with `has_data`
 * true, and the message then has to be a time-stamp token for them, a response with such a token, or a request for one. If `has_content`
 * or `has_data` is false, its pointer may be any but NULL, and its count be 0. More digests may be given than are asked for, in any
 * order. The first one by an algorithm counts, and one by an algorithm that is not known here is not used.
 *
 * If the content is needed itself and `has_content` is true, the call is refused as `needs the content` (CMS_CANON_NEEDS_CONTENT);
 * else, if a digest that is asked for is not given, as `digest not given` (CMS_CANON_NO_DIGEST).
 *
 * The message and its DER may have at most `limit` octets each.
 */
void cms_canon_check_digests(const uint8_t *input, size_t input_length, const struct cms_canon_digest *content, size_t content_count,
                             bool has_content, const struct cms_canon_digest *data, size_t data_count, bool has_data, uint64_t limit,
                             struct cms_canon_finding *findings, size_t findings_room, struct cms_canon_outcome *outcome);

/*
 * Says whether the message at `first` and the one at `second` are the same: whether they have the same DER. Each is one message
 * in BER or DER with nothing after it. The status is CMS_CANON_DONE if they are the same, and CMS_CANON_DIFFERENT if they are
 * not.
 *
 * If a message is refused, `octets` of the outcome says which: 1 or 2. If the first is refused, the second is not read. The
 * messages and their DER may have at most `limit` octets each.
 */
void cms_canon_same(const uint8_t *first, size_t first_length, const uint8_t *second, size_t second_length, uint64_t limit,
                    struct cms_canon_outcome *outcome);

/* A field of a message, or a segment of one. */
struct cms_canon_row {
    uint64_t start;  /* where in the input its octets begin, from 0 */
    uint64_t length; /* how many there are: start + length is at most input_length */
    uint32_t kind;   /* enum cms_canon_kind */
    uint32_t level;  /* how many fields it is in */
};

/*
 * The values of `kind`, with the field of the standard and its ASN.1: those from 0x10 on are of SignedData (RFC 5652, section 5.1),
 * from 0x20 on of SignerInfo (section 5.3), from 0x30 on of TimeStampReq, from 0x40 on of TimeStampResp (RFC 3161, sections 2.4.1
 * and 2.4.2), and from 0x50 on of TSTInfo (section 2.4.2).
 *
 * What the octets of a row are:
 *   contents  those of an INTEGER, an OBJECT IDENTIFIER, a BIT STRING or a GeneralizedTime after its header
 *   element   one element, with its header
 *   segments  the octets of an OCTET STRING: a row for each of the pieces in which it was received, or one that is empty
 *   none      start and length are 0. The fields of a SEQUENCE or SET are the rows after it, up to the first whose level is not higher
 *             than its own; a BOOLEAN has a row if it is TRUE
 */
enum cms_canon_kind {
    CMS_CANON_KIND_PARAMETERS = 0x01,              /* element: parameters of the AlgorithmIdentifier one level above */
    CMS_CANON_KIND_ATTRIBUTE = 0x02,               /* contents: attrType. The attrValues are one level below */
    CMS_CANON_KIND_VALUE = 0x03,                   /* element: AttributeValue */
    CMS_CANON_KIND_HASH_ALGORITHM = 0x04,          /* contents: hashAlgorithm of a MessageImprint */
    CMS_CANON_KIND_HASHED_MESSAGE = 0x05,          /* segments: hashedMessage of a MessageImprint */

    CMS_CANON_KIND_SIGNED_DATA = 0x10,             /* none: SignedData ::= SEQUENCE */
    CMS_CANON_KIND_VERSION = 0x11,                 /* contents: version CMSVersion, an INTEGER */
    CMS_CANON_KIND_DIGEST_ALGORITHM = 0x12,        /* contents: a member of digestAlgorithms SET OF AlgorithmIdentifier */
    CMS_CANON_KIND_CONTENT_TYPE = 0x13,            /* contents: eContentType OBJECT IDENTIFIER */
    CMS_CANON_KIND_CONTENT = 0x14,                 /* segments: eContent [0] EXPLICIT OCTET STRING OPTIONAL */
    CMS_CANON_KIND_CERTIFICATES = 0x15,            /* none: certificates [0] IMPLICIT CertificateSet OPTIONAL */
    CMS_CANON_KIND_CERTIFICATE = 0x16,             /* element: CertificateChoices. One that begins with 30 is a Certificate (RFC 5280) */
    CMS_CANON_KIND_CRLS = 0x17,                    /* none: crls [1] IMPLICIT RevocationInfoChoices OPTIONAL */
    CMS_CANON_KIND_CRL = 0x18,                     /* element: RevocationInfoChoice. One that begins with 30 is a CRL (RFC 5280) */

    CMS_CANON_KIND_SIGNER = 0x20,                  /* none: a member of signerInfos SET OF SignerInfo */
    CMS_CANON_KIND_COUNTERSIGNATURE = 0x21,        /* none: Countersignature ::= SignerInfo, one level below its ATTRIBUTE */
    CMS_CANON_KIND_SIGNER_VERSION = 0x22,          /* contents: version CMSVersion, an INTEGER */
    CMS_CANON_KIND_ISSUER = 0x23,                  /* element: issuer Name, of IssuerAndSerialNumber */
    CMS_CANON_KIND_SERIAL_NUMBER = 0x24,           /* contents: serialNumber INTEGER, of IssuerAndSerialNumber */
    CMS_CANON_KIND_SUBJECT_KEY_IDENTIFIER = 0x25,  /* segments: subjectKeyIdentifier [0] IMPLICIT OCTET STRING */
    CMS_CANON_KIND_SIGNER_DIGEST_ALGORITHM = 0x26, /* contents: digestAlgorithm AlgorithmIdentifier */
    CMS_CANON_KIND_SIGNED_ATTRIBUTES = 0x27,       /* element: signedAttrs [0] IMPLICIT SET OF Attribute OPTIONAL */
    CMS_CANON_KIND_SIGNATURE_ALGORITHM = 0x28,     /* contents: signatureAlgorithm AlgorithmIdentifier */
    CMS_CANON_KIND_SIGNATURE = 0x29,               /* segments: signature OCTET STRING */
    CMS_CANON_KIND_UNSIGNED_ATTRIBUTES = 0x2a,     /* none: unsignedAttrs [1] IMPLICIT SET OF Attribute OPTIONAL */

    CMS_CANON_KIND_REQUEST = 0x30,                 /* none: TimeStampReq ::= SEQUENCE */
    CMS_CANON_KIND_REQUEST_VERSION = 0x31,         /* contents: version INTEGER */
    CMS_CANON_KIND_REQUEST_POLICY = 0x32,          /* contents: reqPolicy OBJECT IDENTIFIER OPTIONAL */
    CMS_CANON_KIND_REQUEST_NONCE = 0x33,           /* contents: nonce INTEGER OPTIONAL */
    CMS_CANON_KIND_CERT_REQ = 0x34,                /* none: certReq BOOLEAN DEFAULT FALSE, if it is TRUE */
    CMS_CANON_KIND_REQUEST_EXTENSIONS = 0x35,      /* element: extensions [0] IMPLICIT Extensions OPTIONAL */

    CMS_CANON_KIND_RESPONSE = 0x40,                /* none: TimeStampResp ::= SEQUENCE. The SignedData of its token is one level below */
    CMS_CANON_KIND_STATUS = 0x41,                  /* contents: status INTEGER, of PKIStatusInfo */
    CMS_CANON_KIND_STATUS_STRING = 0x42,           /* element: statusString PKIFreeText OPTIONAL, a SEQUENCE */
    CMS_CANON_KIND_FAIL_INFO = 0x43,               /* contents: failInfo BIT STRING OPTIONAL, as received */

    CMS_CANON_KIND_TST_INFO = 0x50,                /* none: TSTInfo ::= SEQUENCE */
    CMS_CANON_KIND_TST_VERSION = 0x51,             /* contents: version INTEGER */
    CMS_CANON_KIND_TST_POLICY = 0x52,              /* contents: policy OBJECT IDENTIFIER */
    CMS_CANON_KIND_TST_SERIAL_NUMBER = 0x53,       /* contents: serialNumber INTEGER */
    CMS_CANON_KIND_GEN_TIME = 0x54,                /* contents: genTime GeneralizedTime */
    CMS_CANON_KIND_ACCURACY = 0x55,                /* none: accuracy Accuracy OPTIONAL, a SEQUENCE */
    CMS_CANON_KIND_SECONDS = 0x56,                 /* contents: seconds INTEGER OPTIONAL, one level below */
    CMS_CANON_KIND_MILLIS = 0x57,                  /* contents: millis [0] INTEGER (1..999) OPTIONAL */
    CMS_CANON_KIND_MICROS = 0x58,                  /* contents: micros [1] INTEGER (1..999) OPTIONAL */
    CMS_CANON_KIND_ORDERING = 0x59,                /* none: ordering BOOLEAN DEFAULT FALSE, if it is TRUE */
    CMS_CANON_KIND_TST_NONCE = 0x5a,               /* contents: nonce INTEGER OPTIONAL */
    CMS_CANON_KIND_TSA = 0x5b,                     /* element: tsa [0] GeneralName OPTIONAL */
    CMS_CANON_KIND_TST_EXTENSIONS = 0x5c           /* element: extensions [1] IMPLICIT Extensions OPTIONAL */
};

/*
 * Writes where each field of the message is in `input`: a row for each, to the array `fields`, which has room for
 * `fields_room` of them. `octets` of the outcome says how many rows there are, and not octets. They come in the order of the
 * definitions, which is that of the octets, the members of a SET in the order read; the fields of a field come right after it, with a
 * level that is one more. A field that is absent has no row. So all of a message comes from one reading; for example, its signers and
 * their countersignatures, each with the name or the key identifier of its certificate:
 *
 *     for (uint64_t i = 0; i < outcome.octets; i++) {
 *         const uint8_t *octets = input + fields[i].start;
 *         switch (fields[i].kind) {
 *         case CMS_CANON_KIND_SIGNER:
 *         case CMS_CANON_KIND_COUNTERSIGNATURE:
 *             puts("signer");
 *             break;
 *         case CMS_CANON_KIND_ISSUER:
 *         case CMS_CANON_KIND_SUBJECT_KEY_IDENTIFIER:
 *             print_octets(octets, fields[i].length);
 *         }
 *     }
 *
 * What a signature covers, from the fields of its signer or countersignature, whose level is one more than that of the row SIGNER or
 * COUNTERSIGNATURE: if one of them is SIGNED_ATTRIBUTES, the octet 31 and the octets of that row but the first; else of a signer the
 * octets of the rows CONTENT, or the content that is detached, and of a countersignature those of the rows SIGNATURE of the signer
 * or countersignature whose unsigned attributes it is in. cms_canon_cover writes the same.
 *
 * The message and its DER may have at most `limit` octets each.
 *
 * Room for `input_length / 2` rows always suffices, as each stands for an element of its own; a message that is mostly content or
 * certificates has few. A call takes working memory for all rows, of 24 octets each.
 */
void cms_canon_fields(const uint8_t *input, size_t input_length, uint64_t limit,
                      struct cms_canon_row *fields, size_t fields_room, struct cms_canon_outcome *outcome);

/*
 * Writes where each field of a TSTInfo is, the content of a time-stamp token, as cms_canon_fields does. The
 * `content_length` octets at `content` are those of the rows CONTENT of the token, one after another, or the content that is
 * detached. If they are not a TSTInfo in DER, the call is refused as `not a TSTInfo in DER` (CMS_CANON_NO_TST_INFO). The content is
 * not limited.
 */
void cms_canon_tst_info_fields(const uint8_t *content, size_t content_length,
                               struct cms_canon_row *fields, size_t fields_room, struct cms_canon_outcome *outcome);

/* A piece of the DER of a message. */
struct cms_canon_piece {
    uint64_t place;  /* where it begins, from 0: in the input if it is copied, in the DER if it is made */
    uint64_t length; /* how many octets it has, at least 1 */
    uint64_t made;   /* 1 if its octets are made, 0 if they are copied from the input */
};

/*
 * Writes of which pieces the DER of the message in `input` is put together, to the array `pieces`, which has room for
 * `pieces_room` of them. `octets` of the outcome says how many pieces there are, and not octets. Their octets, one piece after
 * another, are the DER that cms_canon_convert writes; so this writes it to a file, from `input` and that DER:
 *
 *     for (uint64_t i = 0; i < outcome.octets; i++) {
 *         const uint8_t *from = pieces[i].made ? der : input;
 *         fwrite(from + pieces[i].place, 1, pieces[i].length, file);
 *     }
 *
 * Only headers, BOOLEAN and BIT STRINGs with named bits are made, if they are not the same in the input beside what is copied; all
 * else is copied from the input. No piece goes on where the one before it ends: copied octets of the input that follow each
 * other in both are one piece, and so are made octets.
 *
 * The message and its DER may have at most `limit` octets each.
 */
void cms_canon_pieces(const uint8_t *input, size_t input_length, uint64_t limit,
                      struct cms_canon_piece *pieces, size_t pieces_room, struct cms_canon_outcome *outcome);

/* What is changed, and what `first` and `second` are then. */
enum cms_canon_change_kind {
    CMS_CANON_LENGTH_MADE_DEFINITE = 1,       /* a header: its length is indefinite in the input; the new length, and the place in
                                                 the input of the end-of-contents octets, which are left out */
    CMS_CANON_LENGTH_IN_FEWEST_OCTETS = 2,    /* a header: its length has more octets than it needs; the old length and the new */
    CMS_CANON_LENGTH_OF_WHAT_IS_INSIDE = 3,   /* a header: its contents have another length; the old length and the new */
    CMS_CANON_SEGMENTS_JOINED = 4,            /* a string in segments: how many primitive segments, and how many octets in them */
    CMS_CANON_MOVED = 5,                      /* a member of the set `set`: its old number and its new one, both from 0 */
    CMS_CANON_BOOLEAN = 6,                    /* the contents octet of a BOOLEAN: the old octet, and FF */
    CMS_CANON_DEFAULT_OMITTED = 7,            /* a field that has its default value, and is left out: 0 and 0 */
    CMS_CANON_TRAILING_ZERO_BITS_REMOVED = 8, /* a BIT STRING with named bits: how many bits it had and has */
    CMS_CANON_UNUSED_BITS_SET_TO_ZERO = 9     /* a BIT STRING with named bits: how many bits it has, twice */
};

/* The sets whose members are moved, by the names of RFC 5652. */
enum cms_canon_set {
    CMS_CANON_DIGEST_ALGORITHMS = 1,
    CMS_CANON_CERTIFICATES = 2,
    CMS_CANON_CRLS = 3,
    CMS_CANON_SIGNER_INFOS = 4,
    CMS_CANON_UNSIGNED_ATTRS = 5,
    CMS_CANON_ATTR_VALUES = 6
};

/* A change from a message to its DER. Places are in octets, from 0. */
struct cms_canon_change {
    uint64_t kind;       /* an enum cms_canon_change_kind */
    uint64_t place;      /* where what is changed begins in the input: as `kind` says a header, an octet, or else a whole element */
    uint64_t length;     /* how many octets it has there */
    uint64_t der_place;  /* where it begins in the DER; if it is left out, where it would */
    uint64_t der_length; /* how many octets it has there: 0 if it is left out */
    uint64_t first;      /* as `kind` says */
    uint64_t second;     /* as `kind` says */
    uint64_t set;        /* an enum cms_canon_set if a member of one is moved, else 0 */
};

/*
 * Writes what cms_canon_convert changes in the message in `input`, to the array `changes`, which has room for `changes_room` of
 * them, in the order of their places in `input`. `octets` of the outcome says how many changes there are, and not octets: 0 if the
 * message is its own DER.
 *
 * The octets that a change names lie in `input`, and in the DER that cms_canon_convert writes. If a string is in segments, what is
 * changed of its headers is part of that change.
 *
 * The message and its DER may have at most `limit` octets each.
 */
void cms_canon_changes(const uint8_t *input, size_t input_length, uint64_t limit,
                       struct cms_canon_change *changes, size_t changes_room, struct cms_canon_outcome *outcome);

/*
 * Lists these changes as the command `changes` does, in UTF-8: a line for each, and one that counts them and the octets, each ended by
 * a line feed; or, if `json` is true, one JSON object and a line feed. No zero follows the text.
 *
 * There is no room that always suffices: the outcome says how much is needed.
 */
void cms_canon_list_changes(const uint8_t *input, size_t input_length, bool json, uint64_t limit,
                            uint8_t *output, size_t output_room, struct cms_canon_outcome *outcome);

#ifdef __cplusplus
}
#endif

#endif
