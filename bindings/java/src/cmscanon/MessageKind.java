package cmscanon;

/** The kinds of messages. */
public enum MessageKind {
    /** A signed message: ContentInfo with SignedData (RFC 5652, section 5.1). A time-stamp token is one. */
    SIGNED_DATA,
    /** TimeStampReq (RFC 3161, section 2.4.1). */
    REQUEST,
    /** TimeStampResp (RFC 3161, section 2.4.2). */
    RESPONSE
}
