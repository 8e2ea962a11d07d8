"""The forms of ESP that docs/IPSEC.md names, and how a packet of each is cut into a line of the language."""
from dataclasses import dataclass
from typing import Optional

from common import draw

KEY_LENGTHS = [16, 24, 32]
# what the key of an ESP transform has behind the cipher's: the salt of GCM and CCM, the nonce of CTR
SALT_LENGTHS = {"AES-GCM": 4, "AES-CCM": 3, "AES-CTR": 4, "AES-CBC": 0}
IV_LENGTHS = {"AES-GCM": 8, "AES-CCM": 8, "AES-CTR": 8, "AES-CBC": 16}
HEADER_LENGTH = 8


@dataclass(frozen=True)
class Form:
    """A transform of ESP. `high` is the high half of extended sequence numbers, or None where there are none."""

    cipher: str
    key_length: int
    tag: int = 16
    high: Optional[int] = None
    in_udp: bool = False

    def __str__(self):
        high = "" if self.high is None else f" ESN {self.high:x}"
        return f"{self.cipher}-{8 * self.key_length} tag {self.tag}{high}{' in UDP' if self.in_udp else ''}"

    def has_mac(self):
        """Whether the tag is that of SHA2-256-128 over the packet."""
        return self.cipher in ("AES-CBC", "AES-CTR")

    def key(self):
        """As a tunnel's key material has it: the cipher's key, and then its salt."""
        return draw(f"key of {self}", self.key_length + SALT_LENGTHS[self.cipher])

    def mac_key(self):
        return draw(f"MAC key of {self}", 32) if self.has_mac() else b""


def forms():
    """Eleven forms for each length of key."""
    found = []
    for length in KEY_LENGTHS:
        found += [Form("AES-GCM", length, high=high) for high in (None, 0, 7, 0xFFFFFFFF)]
        found += [Form("AES-GCM", length, in_udp=True)]
        found += [Form("AES-CCM", length, tag) for tag in (8, 12, 16)]
        found += [Form("AES-CCM", length, high=7)]
        found += [Form("AES-CBC", length), Form("AES-CTR", length)]
    return found


def name_of(form):
    """The algorithm's name, without `pcrypt`."""
    if form.cipher == "AES-GCM":
        return "rfc4106(gcm(aes))"
    if form.cipher == "AES-CCM":
        return "ccm(aes)"
    return f"authenc(hmac(sha256),{'cbc(aes)' if form.cipher == 'AES-CBC' else 'rfc3686(ctr(aes))'})"


def key_of(form):
    """What `key` takes: under CCM without the salt, under a MAC the blob, in which the MAC key comes first."""
    if form.cipher == "AES-CCM":
        return form.key()[: form.key_length]
    if form.has_mac():
        return bytes.fromhex("08000100") + len(form.key()).to_bytes(4, "big") + form.mac_key() + form.key()
    return form.key()


@dataclass
class Cut:
    """The IV, associated bytes and sealed text of a line."""

    iv: bytes
    aad: bytes
    sealed: bytes


def header_of(form, wire):
    """What the tag covers of the header: with extended numbers SPI, high half and number."""
    if form.high is None:
        return wire[:HEADER_LENGTH]
    return wire[:4] + form.high.to_bytes(4, "big") + wire[4:HEADER_LENGTH]


def cut(form, wire):
    """A packet from its SPI to its tag."""
    behind = HEADER_LENGTH + IV_LENGTHS[form.cipher]
    iv, sealed, header = wire[HEADER_LENGTH:behind], wire[behind:], header_of(form, wire)
    if form.cipher == "AES-CCM":
        # RFC 4309, 4: the nonce of 11 bytes is salt and IV, so the length field has 4
        return Cut(b"\x03" + form.key()[form.key_length :] + iv + bytes(4), header, sealed)
    return Cut(iv, header + iv, sealed)


def joined(wire, sealed, form):
    """The packet on the wire, of what `enc` answered for it."""
    return wire[: HEADER_LENGTH + IV_LENGTHS[form.cipher]] + sealed
