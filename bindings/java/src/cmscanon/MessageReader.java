package cmscanon;

/** Makes a message, or a TSTInfo, of all its rows. */
final class MessageReader {
    private MessageReader() {}

    /** The message with these rows. */
    static Message message(Rows rows) {
        Message message = first(rows, new RecordReader(rows));
        rows.end();
        return message;
    }

    /** The TSTInfo with these rows. */
    static TstInfo tstInfo(Rows rows) {
        TstInfo info = new RecordReader(rows).tstInfo(Kind.TST_INFO, 0);
        rows.end();
        return info;
    }

    private static Message first(Rows rows, RecordReader reader) {
        if (rows.has(Kind.REQUEST, 0)) {
            return new Message(MessageKind.REQUEST, null, reader.timeStampReq(Kind.REQUEST, 0), null);
        }
        if (rows.has(Kind.RESPONSE, 0)) {
            TimeStampResp response = reader.timeStampResp(Kind.RESPONSE, 0);
            return new Message(MessageKind.RESPONSE, response.token(), null, response);
        }
        return new Message(MessageKind.SIGNED_DATA, reader.signedData(Kind.SIGNED_DATA, 0), null, null);
    }
}
