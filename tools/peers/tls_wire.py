"""Records of TLS on a stream, and how each is cut into a line of the language."""
from dataclasses import dataclass

from peers.tls_suites import Kind

CHANGE_CIPHER_SPEC, ALERT, HANDSHAKE, DATA = 20, 21, 22, 23
FINISHED, KEY_UPDATE = 20, 24


@dataclass
class Record:
    header: bytes
    body: bytes

    def kind(self):
        return self.header[0]


def records(stream):
    """The whole records of a direction."""
    found = []
    while len(stream) >= 5 and len(stream) >= 5 + int.from_bytes(stream[3:5], "big"):
        length = int.from_bytes(stream[3:5], "big")
        found.append(Record(stream[:5], stream[5 : 5 + length]))
        stream = stream[5 + length :]
    return found


def random_of(found):
    """The random of the last hello in the clear: behind type, length and version."""
    hellos = [record.body for record in found if record.kind() == HANDSHAKE and record.body[0] in (1, 2)]
    return hellos[-1][6:38]


def sealed_records(found, version):
    """TLS 1.3: what is announced as data; TLS 1.2: all behind ChangeCipherSpec."""
    if version == "1.3":
        return [record for record in found if record.kind() == DATA]
    changes = [place for place, record in enumerate(found) if record.kind() == CHANGE_CIPHER_SPEC]
    return found[changes[0] + 1 :] if changes else []


@dataclass
class Cut:
    """IV, associated bytes and sealed text of a line; what stands before the ciphertext on the wire isn't in the text."""

    iv: bytes
    aad: bytes
    sealed: bytes


def nonce_of(suite, nonce):
    return nonce if suite.kind is Kind.GCM else b"\x02" + nonce + bytes(3)


def cut_1_3(suite, keys, number, record):
    """RFC 8446, 5.2 and 5.3."""
    nonce = (int.from_bytes(keys.iv, "big") ^ number).to_bytes(12, "big")
    return Cut(nonce_of(suite, nonce), record.header, record.body)


def cut_1_2(suite, keys, number, record):
    """RFC 5288, 3 and RFC 6655, 3 with 8 explicit bytes; RFC 7366, 3 and RFC 5246, 6.2.3.2 with an IV of 16."""
    front = number.to_bytes(8, "big") + record.header[:3]
    explicit = record.body[: 8 if suite.kind in (Kind.GCM, Kind.CCM) else 16]
    sealed = record.body[len(explicit) :]
    if suite.kind in (Kind.GCM, Kind.CCM):
        return Cut(nonce_of(suite, keys.iv + explicit), front + (len(sealed) - suite.tag).to_bytes(2, "big"), sealed)
    if suite.kind is Kind.ENCRYPT_THEN_MAC:
        covered = (len(record.body) - suite.tag).to_bytes(2, "big")
        return Cut(explicit, front + covered + explicit, sealed)
    return Cut(explicit, b"", sealed)


def cut(suite, keys, number, record):
    return (cut_1_3 if suite.version == "1.3" else cut_1_2)(suite, keys, number, record)


def content_of(suite, record, text):
    """What a record holds, and its bytes: TLS 1.3 has the type behind them and zeros behind that; CBC has padding."""
    if suite.version == "1.3":
        inner = text.rstrip(b"\x00")
        return (inner[-1], inner[:-1]) if inner else (0, b"")
    if suite.kind in (Kind.GCM, Kind.CCM) or not text:
        return record.kind(), text
    unpadded = text[: -text[-1] - 1]
    return record.kind(), unpadded if suite.kind is Kind.ENCRYPT_THEN_MAC else unpadded[:-32]


def messages(handshake):
    """The types of handshake messages, or None where their lengths don't fit."""
    types = []
    while handshake:
        length = int.from_bytes(handshake[1:4], "big")
        if len(handshake) < 4 + length:
            return None
        types.append(handshake[0])
        handshake = handshake[4 + length :]
    return types
