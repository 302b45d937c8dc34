/*
 * Verifies the first signature of a message with libcrypto, over the octets that cms-canon says it covers, by a certificate that the caller has.
 *
 *     verify_with_openssl MESSAGE CERTIFICATE.pem DIGEST
 *
 * The signature itself is found by cms_canon_fields. Whether the content is the one that was signed, cms_canon_check says.
 */
#include <cms_canon.h>
#include <openssl/evp.h>
#include <openssl/pem.h>
#include <openssl/x509.h>
#include <stdio.h>
#include <stdlib.h>

enum { MOST = 1 << 20, ROWS = 4096 };

static uint8_t message[MOST], der[MOST], covered[MOST];
static struct cms_canon_row rows[ROWS];

/* The signature is one row in the DER; in BER it may come in segments, each of which is one. */
static const struct cms_canon_row *signature_in(size_t length)
{
    struct cms_canon_outcome outcome;
    cms_canon_fields(der, length, MOST, rows, ROWS, &outcome);
    if (outcome.status != CMS_CANON_DONE)
        return NULL;
    for (size_t at = 0; at < outcome.octets; at++)
        if (rows[at].kind == CMS_CANON_KIND_SIGNATURE)
            return &rows[at];
    return NULL;
}

static X509 *certificate_in(const char *name)
{
    FILE *file = fopen(name, "r");
    X509 *certificate = file == NULL ? NULL : PEM_read_X509(file, NULL, NULL, NULL);
    if (file != NULL)
        fclose(file);
    return certificate;
}

int main(int count, char **words)
{
    FILE *file = count == 4 ? fopen(words[1], "rb") : NULL;
    if (file == NULL)
        return 2;
    size_t length = fread(message, 1, MOST, file);
    fclose(file);
    struct cms_canon_outcome converted, outcome;
    cms_canon_convert(message, length, MOST, der, MOST, &converted);
    if (converted.status != CMS_CANON_DONE)
        return 2;
    const struct cms_canon_row *signature = signature_in(converted.octets);
    X509 *certificate = certificate_in(words[2]);
    const EVP_MD *digest = EVP_get_digestbyname(words[3]);
    if (signature == NULL || certificate == NULL || digest == NULL)
        return 2;
    uint64_t first = 0;
    cms_canon_cover(der, converted.octets, &first, 1, der, 0, false, MOST, covered, MOST, &outcome);
    if (outcome.status != CMS_CANON_DONE)
        return 2;
    EVP_MD_CTX *context = EVP_MD_CTX_new();
    int is_right = context != NULL && EVP_DigestVerifyInit(context, NULL, digest, NULL, X509_get0_pubkey(certificate)) == 1
        && EVP_DigestVerify(context, der + signature->start, signature->length, covered, outcome.octets) == 1;
    EVP_MD_CTX_free(context);
    X509_free(certificate);
    puts(is_right ? "right" : "wrong");
    return is_right ? 0 : 1;
}
