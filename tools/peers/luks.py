"""LUKS, version 1, as qemu-img writes it: the header, and the volume's key out of a passphrase (LUKS On-Disk Format Specification 1.2)."""
import hashlib
from dataclasses import dataclass

SECTOR = 512
SLOT_IN_USE = 0x00AC71F3


def number(octets):
    return int.from_bytes(octets, "big")


def word(octets):
    return octets.rstrip(b"\x00").decode()


@dataclass
class Header:
    """Offsets and lengths are in bytes."""

    mode: str
    digest: str
    payload: int
    key_length: int
    check: bytes
    check_salt: bytes
    check_rounds: int
    rounds: int
    salt: bytes
    material: int
    stripes: int


def read_header(image):
    """The header, and of its key slots the first one, which is the one in use."""
    if image[:8] != b"LUKS\xba\xbe\x00\x01" or number(image[208:212]) != SLOT_IN_USE:
        raise ValueError("no LUKS header of version 1 with its first slot in use")
    return Header(
        mode=word(image[40:72]),
        digest=word(image[72:104]),
        payload=number(image[104:108]) * SECTOR,
        key_length=number(image[108:112]),
        check=image[112:132],
        check_salt=image[132:164],
        check_rounds=number(image[164:168]),
        rounds=number(image[212:216]),
        salt=image[216:248],
        material=number(image[248:252]) * SECTOR,
        stripes=number(image[252:256]),
    )


def slot_key(header, passphrase):
    return hashlib.pbkdf2_hmac(header.digest, passphrase, header.salt, header.rounds, header.key_length)


def is_volume_key(header, key):
    return hashlib.pbkdf2_hmac(header.digest, key, header.check_salt, header.check_rounds, len(header.check)) == header.check


def diffused(block, digest):
    """The hash of each piece and its number, of as many bytes as the piece has."""
    size = hashlib.new(digest).digest_size
    pieces = [block[place : place + size] for place in range(0, len(block), size)]
    return b"".join(hashlib.new(digest, place.to_bytes(4, "big") + piece).digest()[: len(piece)] for place, piece in enumerate(pieces))


def merged(material, header):
    """The volume's key out of its stripes: each is added, and all but the last one diffused."""
    key = bytes(header.key_length)
    for stripe in range(header.stripes):
        part = material[stripe * header.key_length : (stripe + 1) * header.key_length]
        key = bytes(a ^ b for a, b in zip(key, part))
        if stripe < header.stripes - 1:
            key = diffused(key, header.digest)
    return key


def qcow2_header_place(image):
    """Where a qcow2 file has its LUKS header: in the header extension 0537be77."""
    place = number(image[100:104])
    while number(image[place : place + 4]) != 0x0537BE77:
        place += 8 + -(-number(image[place + 4 : place + 8]) // 8) * 8
    return number(image[place + 8 : place + 16])


def qcow2_first_cluster(image):
    """Where the file has the guest's first cluster: by the first rows of both tables, without their flags."""
    in_table = 0x00FFFFFFFFFFFE00
    second = number(image[number(image[40:48]) :][:8]) & in_table
    return number(image[second : second + 8]) & in_table
