"""Disks: volumes of qemu-img, opened and sealed alike by the program, and the program's sectors read back by qemu-img."""
import hashlib
import os
import subprocess
import tempfile
from dataclasses import dataclass

from common import draw
from peers import luks, turned
from peers.luks import SECTOR
from peers.script import Outcome, Script, value_of

NEEDS = ["qemu-img"]
TURNS = turned.WITHOUT_TAGS
SECTORS = 4096
OURS = 64
QUEUE = 1000
QCOW2_CLUSTER = 65536
PASSPHRASE = b"a passphrase"
SECRET = ["--object", f"secret,id=pass,data={PASSPHRASE.decode()}"]


@dataclass(frozen=True)
class Format:
    """A cipher as qemu-img names it, and whether its sectors go through a queue here."""

    cipher: str
    mode: str
    ivs: str
    is_queued: bool = False

    def __str__(self):
        return f"{self.cipher} {self.mode}-{self.ivs}"

    def plain_name(self):
        return f"{self.mode}(aes)"

    def name(self):
        return f"cryptd({self.plain_name()})" if self.is_queued else self.plain_name()

    def options(self, front=""):
        found = {"key-secret": "pass", "cipher-alg": self.cipher, "cipher-mode": self.mode, "ivgen-alg": self.ivs}
        found |= {"hash-alg": "sha256", "iter-time": "10"}
        if self.ivs == "essiv":
            found["ivgen-hash-alg"] = "sha256"
        return ",".join(f"{front}{key}={value}" for key, value in found.items())


FORMATS = [
    Format("aes-256", "xts", "plain64"),
    Format("aes-128", "xts", "plain64"),
    Format("aes-256", "xts", "plain", is_queued=True),
    Format("aes-256", "cbc", "essiv"),
    Format("aes-128", "cbc", "plain64", is_queued=True),
]


def qemu(*words):
    subprocess.run(["qemu-img", *words], capture_output=True, check=True)


def read(path):
    with open(path, "rb") as file:
        return file.read()


def write(path, octets):
    with open(path, "wb") as file:
        file.write(octets)


def sectors_of(octets):
    return [octets[place : place + SECTOR] for place in range(0, len(octets), SECTOR)]


def ivs_of(program, form, key, numbers):
    """The IVs of sectors: the number, little-endian; under ESSIV sealed by `aes` under the hash of the key."""
    blocks = [(number % 2**32 if form.ivs == "plain" else number).to_bytes(16, "little") for number in numbers]
    if form.ivs != "essiv":
        return blocks
    seal_key = hashlib.sha256(key).hexdigest()
    answers = program.answers("".join(f"aes {seal_key} {block.hex()}\n" for block in blocks))
    return [value_of(answer) or bytes(16) for answer in answers]


def opened(program, form, key, numbers, sealed):
    """What the program opens sectors to."""
    script = Script()
    script.alloc("t", form.plain_name(), key)
    for iv, sector in zip(ivs_of(program, form, key, numbers), sealed):
        script.dec("t", iv, b"", sector, b"")
    return b"".join(value_of(answer) or bytes(SECTOR) for answer in program.answers(script.text())[2:])


def volume_key(program, form, header, image):
    """The volume's key, by the sectors of the first key slot."""
    key = luks.slot_key(header, PASSPHRASE)
    length = header.key_length * header.stripes
    material = image[header.material : header.material + -(-length // SECTOR) * SECTOR]
    return luks.merged(opened(program, form, key, range(len(material) // SECTOR), sectors_of(material)), header)


def compared(program, form, key, first, plain, sealed):
    """Sectors opened and sealed; a queue is drained before it is full."""
    ivs = ivs_of(program, form, key, range(first, first + len(plain)))
    script = Script()
    script.register_fast_drivers()
    script.alloc("t", form.name(), key)
    for number, (iv, text, sector) in enumerate(zip(ivs, plain, sealed)):
        if number and number % (QUEUE // 2) == 0:
            script.drain("t")
        script.dec("t", iv, b"", sector, text, "sectors opened")
        script.enc("t", iv, b"", text, sector, "sectors sealed")
    script.drain("t")
    return program.run(f"{form}", script)


def converted(plain, volume):
    """Has qemu-img write the texts of sectors into a volume."""
    qemu("convert", "-n", *SECRET, "-f", "raw", "--target-image-opts", plain, f"driver=luks,file.filename={volume},key-secret=pass")


def read_back(volume, path):
    qemu("convert", *SECRET, "--image-opts", f"driver=luks,file.filename={volume},key-secret=pass", "-O", "raw", path)
    return read(path)


def pbkdf2_by_mac(program, header, key):
    """The digest of the key that the header keeps (RFC 8018, 5.2), a line for each round, behind the answer to the one before."""
    with program.dialogue() as ask:
        ask("alloc m hmac(sha256)")
        ask(f"key m {key.hex()}")
        link, total = (header.check_salt + (1).to_bytes(4, "big")).hex(), 0
        for _ in range(header.check_rounds):
            link = (value_of(ask(f"mac m {link}")) or bytes(32)).hex()
            total ^= int(link, 16)
    return total.to_bytes(32, "big")[: len(header.check)]


def judge_volume(program, form, folder, count):
    outcome, plain = Outcome(), draw(f"disk {form}", count * SECTOR)
    volume, raw = f"{folder}/volume", f"{folder}/raw"
    qemu("create", "-f", "luks", *SECRET, "-o", form.options(), volume, str(count * SECTOR))
    write(raw, plain)
    converted(raw, volume)
    image = read(volume)
    header = luks.read_header(image)
    key = volume_key(program, form, header, image)
    outcome.note("volume keys", luks.is_volume_key(header, key), f"{form}: not the volume's key")
    if form is FORMATS[0]:
        outcome.note("PBKDF2 by mac", pbkdf2_by_mac(program, header, key) == header.check, f"{form}: another digest")
    outcome.add(compared(program, form, key, 0, sectors_of(plain), sectors_of(image[header.payload : header.payload + count * SECTOR])))
    outcome.add(ours_read_back(program, form, key, header, volume, f"{folder}/back"))
    os.remove(volume)
    return outcome


def ours_read_back(program, form, key, header, volume, path):
    """Sectors that the program seals, put into the volume."""
    outcome, texts = Outcome(), sectors_of(draw(f"ours {form}", OURS * SECTOR))
    script = Script()
    script.alloc("t", form.name(), key)
    for iv, text in zip(ivs_of(program, form, key, range(OURS)), texts):
        script.enc("t", iv, b"", text, b"")
    values = [value_of(answer) for answer in program.answers(script.text() + "drain t\n")]
    with open(volume, "r+b") as file:
        file.seek(header.payload)
        file.write(b"".join(value for value in values if value))
    found = sectors_of(read_back(volume, path))[:OURS]
    for number, (text, sector) in enumerate(zip(texts, found)):
        outcome.note("sectors read back by qemu-img", text == sector, f"{form}, sector {number}")
    return outcome


def judge_qcow2(program, form, folder):
    """A guest's first cluster in a qcow2 file: its sectors are counted in the host's file."""
    outcome, plain = Outcome(), draw("guest", QCOW2_CLUSTER)
    volume, raw = f"{folder}/guest.qcow2", f"{folder}/raw"
    qemu("create", "-f", "qcow2", *SECRET, "-o", f"encrypt.format=luks,{form.options('encrypt.')}", volume, str(QCOW2_CLUSTER))
    write(raw, plain)
    qemu("convert", "-n", *SECRET, "-f", "raw", "--target-image-opts", raw, f"driver=qcow2,file.filename={volume},encrypt.key-secret=pass")
    image = read(volume)
    inner = image[luks.qcow2_header_place(image) :]
    header = luks.read_header(inner)
    key = volume_key(program, form, header, inner)
    place = luks.qcow2_first_cluster(image)
    outcome.note("volume keys", luks.is_volume_key(header, key), f"qcow2, {form}: not the volume's key")
    outcome.add(compared(program, form, key, place // SECTOR, sectors_of(plain), sectors_of(image[place : place + QCOW2_CLUSTER])))
    return outcome


def check(program, share=1):
    """The lines of the report, by name."""
    report = {}
    with tempfile.TemporaryDirectory(prefix="check-peers-") as folder:
        for form in FORMATS:
            report[f"LUKS1, {form}"] = judge_volume(program, form, folder, SECTORS // share)
        report[f"qcow2 with LUKS, {FORMATS[0]}"] = judge_qcow2(program, FORMATS[0], folder)
    return report
