"""The listing of a message in DER, put together from what walk.py finds in its octets, which shares nothing with the program."""

from walk import contents_of_integer, fields_of, fields_of_tst_info

NAMES = {
    "1.2.840.113549.1.7.1": "data", "1.2.840.113549.1.7.2": "signedData", "1.2.840.113549.1.9.3": "contentType",
    "1.2.840.113549.1.9.4": "messageDigest", "1.2.840.113549.1.9.5": "signingTime", "1.2.840.113549.1.9.6": "countersignature",
    "1.2.840.113549.1.9.16.1.4": "tSTInfo", "1.2.840.113549.1.9.16.2.12": "signingCertificate",
    "1.2.840.113549.1.9.16.2.47": "signingCertificateV2", "1.3.14.3.2.26": "sha1",
    **{f"2.16.840.1.101.3.4.2.{number}": name for number, name in enumerate(
        ["sha256", "sha384", "sha512", "sha224", "sha512-224", "sha512-256"], start=1)},
}  # fmt: skip
CERTIFICATES = {0x30: "certificate", 0xA0: "extended", 0xA1: "v1-attribute", 0xA2: "v2-attribute", 0xA3: "other"}
CRLS = {0x30: "crl", 0xA1: "other"}


def integer(number, absent="absent"):
    if number is None:
        return absent
    return str(number) if 0 <= number < 1 << 64 else f"0x{contents_of_integer(number).hex()}"


def named(oid):
    return f"{oid} {NAMES.get(oid, '-')}"


def algorithm(it):
    parameters = "absent" if it["parameters"] is None else it["parameters"].hex()
    return f"{named(it['oid'])} {'null' if parameters == '0500' else parameters}"


def truth(is_so):
    return "true" if is_so else "false"


def octets_or_absent(octets):
    return "absent" if octets is None else f"{len(octets)} octets"


def counted(name, those, lines):
    """Returns how many there are, and a line for each."""
    return [f"{name}: {'absent' if those is None else len(those)}", *(f"  {line}" for line in map(lines, those or []))]


def members(name, those, kinds):
    return counted(name, those, lambda it: f"{kinds[it[0]]} {len(it)} octets")


def attributes(name, those):
    return counted(name, those, lambda it: f"{named(it['oid'])} {len(it['values'] + it['countersignatures'])}")


def signer(begin, it):
    yield f"{begin}version: {integer(it['version'])}"
    if it["issuer"] is None:
        yield f"{begin}id: key {it['subject_key_identifier'].hex()}"
    else:
        yield f"{begin}id: issuer {it['issuer'].hex()} serial {integer(it['serial_number'])}"
    yield f"{begin}digest: {algorithm(it['digest_algorithm'])}"
    yield from attributes(f"{begin}signed-attributes", it["signed_attributes"])
    yield f"{begin}signature-algorithm: {algorithm(it['signature_algorithm'])}"
    yield f"{begin}signature: {len(it['signature'])} octets"
    yield from attributes(f"{begin}unsigned-attributes", it["unsigned_attributes"])


def accuracy(it):
    return "absent" if it is None else " ".join(integer(it[name], "-") for name in ("seconds", "millis", "micros"))


def time(it):
    moment = it["gen_time"].replace(microsecond=0)
    return f"{moment.isoformat()[:19]}{it['gen_time_text'][14:-1]}Z {int(moment.timestamp())}"


def imprint(it):
    return f"{algorithm(it['hash_algorithm'])} {it['hashed_message'].hex()}"


def signed_data(it):
    yield "kind: signed-data"
    yield f"version: {integer(it['version'])}"
    yield from counted("digest-algorithms", it["digest_algorithms"], algorithm)
    yield f"content-type: {named(it['content_type'])}"
    yield f"content: {octets_or_absent(it['content'])}"
    yield from members("certificates", it["certificates"], CERTIFICATES)
    yield from members("crls", it["crls"], CRLS)
    yield f"signers: {len(it['signers'])}"
    for number, one in enumerate(it["signers"]):
        yield from signer(f"signer {number} ", one)
    if NAMES.get(it["content_type"]) == "tSTInfo" and it["content"] is not None:
        yield from tst_info(fields_of_tst_info(it["content"])[1])


TST_INFO = {  # how each field of a TSTInfo is listed
    "version": integer, "policy": named, "imprint": imprint, "serial_number": integer, "gen_time": None, "accuracy": accuracy,
    "ordering": truth, "nonce": integer, "tsa": octets_or_absent, "extensions": octets_or_absent,
}
REQUEST = {
    "version": integer, "imprint": imprint, "policy": lambda it: "absent" if it is None else named(it), "nonce": integer, "cert_req": truth,
    "extensions": octets_or_absent,
}


def tst_info(it):
    names = {"serial_number": "serial", "gen_time": "time"}
    yield from (f"tst-{names.get(name, name)}: {show(it[name]) if show else time(it)}" for name, show in TST_INFO.items())


def request(it):
    yield "kind: request"
    yield from (f"{name.replace('_', '-')}: {show(it[name])}" for name, show in REQUEST.items())


def response(it):
    bits = it["fail_info"]
    yield "kind: response"
    yield f"status: {integer(it['status'])}"
    yield f"status-string: {octets_or_absent(it['status_string'])}"
    yield f"fail-info: {'absent' if bits is None else ' '.join(map(str, bits)) or 'none'}"
    yield f"token: {'absent' if it['token'] is None else 'present'}"
    if it["token"] is not None:
        yield from signed_data(it["token"])


def listing_of(message):
    """Returns the listing of a message in DER. If it is a token, its TSTInfo has to be in DER too."""
    _, kind, it = fields_of(message)
    lister = {"signed-data": signed_data, "request": request, "response": response}[kind]
    return "".join(f"{line}\n" for line in lister(it))
