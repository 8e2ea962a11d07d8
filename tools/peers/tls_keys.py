"""Keys of records from a key log (the format of NSS), by the key schedules of RFC 8446, 7 and RFC 5246, 6.3."""
import hashlib
import hmac
import os
from dataclasses import dataclass

from peers.tls_suites import Kind

SECRETS = {
    "client": ["CLIENT_HANDSHAKE_TRAFFIC_SECRET", "CLIENT_TRAFFIC_SECRET_0"],
    "server": ["SERVER_HANDSHAKE_TRAFFIC_SECRET", "SERVER_TRAFFIC_SECRET_0"],
}


@dataclass
class Keys:
    """Of one direction: under TLS 1.3 the IV has 12 bytes, under TLS 1.2 it is the implicit part of 4."""

    key: bytes
    iv: bytes
    mac_key: bytes = b""


def read_key_log(path):
    """The secrets by their labels; a log is of one connection, and isn't there where none was made."""
    if not os.path.exists(path):
        return {}
    with open(path, encoding="ascii") as rows:
        found = [row.split() for row in rows if row.strip() and not row.startswith("#")]
    return {label: bytes.fromhex(secret) for label, _, secret in found}


def expand_label(secret, label, length, digest):
    """HKDF-Expand-Label with no context (RFC 8446, 7.1); the output is of one block of the hash at most."""
    label = b"tls13 " + label
    info = length.to_bytes(2, "big") + bytes([len(label)]) + label + b"\x00"
    return hmac.digest(secret, info + b"\x01", digest)[:length]


def traffic_keys(secret, suite):
    return Keys(expand_label(secret, b"key", suite.key_length, suite.digest), expand_label(secret, b"iv", 12, suite.digest))


def updated(secret, suite):
    """The next secret, of a key update (RFC 8446, 7.2)."""
    return expand_label(secret, b"traffic upd", hashlib.new(suite.digest).digest_size, suite.digest)


def prf(secret, label, seed, length, digest):
    """P_hash of RFC 5246, 5."""
    made, link = b"", label + seed
    while len(made) < length:
        link = hmac.digest(secret, link, digest)
        made += hmac.digest(secret, link + label + seed, digest)
    return made[:length]


def keys_of_1_2(master, client_random, server_random, suite):
    """Both directions' keys (RFC 5246, 6.3): MAC keys, cipher keys, implicit IVs."""
    has_mac = suite.kind in (Kind.ENCRYPT_THEN_MAC, Kind.MAC_THEN_ENCRYPT)
    lengths = [32, suite.key_length, 0] if has_mac else [0, suite.key_length, 4]
    block = prf(master, b"key expansion", server_random + client_random, 2 * sum(lengths), suite.digest)
    parts = []
    for length in lengths:
        parts.append((block[:length], block[length : 2 * length]))
        block = block[2 * length :]
    return {side: Keys(parts[1][n], parts[2][n], parts[0][n]) for n, side in enumerate(("client", "server"))}
