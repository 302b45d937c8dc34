package cmscanon;

import java.math.BigInteger;
import java.util.List;
import java.util.Objects;

/**
 * A message that is accepted, by one reading of it: {@link CmsCanon#read(byte[])}.
 *
 * <p>Nothing of it can be changed. It keeps a copy of the input, of which its {@link Octets} are parts. The fields of its SignedData are
 * its own too. If there is no SignedData, they are null, and the lists digestAlgorithms and signers are empty.
 *
 * @param kind what the message is
 * @param signedData that of a signed message, or of the token of a response; null if there is none
 * @param request null if the message is no request
 * @param response null if the message is no response
 */
public record Message(MessageKind kind, @Nullable SignedData signedData, @Nullable TimeStampReq request, @Nullable TimeStampResp response) {
    /**
     * Refuses a {@code kind} that is null.
     *
     * @param kind {@link #kind}
     * @param signedData {@link #signedData}
     * @param request {@link #request}
     * @param response {@link #response}
     */
    public Message {
        Objects.requireNonNull(kind);
    }

    // What is in a SignedData: scripts/generate writes this from bindings/records.toml.

    /** {@return {@link SignedData#version}} */
    @Nullable
    public BigInteger version() {
        return signedData == null ? null : signedData.version();
    }

    /** {@return {@link SignedData#digestAlgorithms}} */
    public List<AlgorithmIdentifier> digestAlgorithms() {
        return signedData == null ? List.of() : signedData.digestAlgorithms();
    }

    /** {@return {@link SignedData#contentType}} */
    @Nullable
    public String contentType() {
        return signedData == null ? null : signedData.contentType();
    }

    /** {@return {@link SignedData#content}} */
    @Nullable
    public Octets content() {
        return signedData == null ? null : signedData.content();
    }

    /** {@return {@link SignedData#certificates}} */
    @Nullable
    public List<Octets> certificates() {
        return signedData == null ? null : signedData.certificates();
    }

    /** {@return {@link SignedData#crls}} */
    @Nullable
    public List<Octets> crls() {
        return signedData == null ? null : signedData.crls();
    }

    /** {@return {@link SignedData#signers}} */
    public List<SignerInfo> signers() {
        return signedData == null ? List.of() : signedData.signers();
    }

    // The end of what is in a SignedData.

    /**
     * {@return the certificate in the message that a signer of it names, by issuer and serial number or by the key identifier (RFC 5652,
     * section 5.3), one element; null if there is none that can be read, or several that differ}
     *
     * <p>Anybody can put a certificate into a message: whether it is to be trusted is for the caller to judge.
     *
     * @param signer a signer of the message
     */
    @Nullable
    public Octets certificateOf(SignerInfo signer) {
        List<Octets> all = certificates() == null ? List.of() : certificates();
        List<Octets> named = all.stream().filter(it -> Certificate.isNamed(it.toArray(), signer)).distinct().toList();
        return named.size() == 1 ? named.get(0) : null;
    }

    /**
     * {@return {@link SignedData#tstInfo}}
     *
     * @throws CmsCanon.Refused with the reason 105, if the content is no TSTInfo in DER
     */
    public TstInfo tstInfo() throws CmsCanon.Refused {
        return signedData == null ? null : signedData.tstInfo();
    }
}
