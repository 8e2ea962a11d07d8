"""The transforms that both have: their names and drivers, and what their keys, IVs and tags are."""
import dataclasses
import importlib.machinery
import importlib.util
import os
import sys

TOOLS = os.path.dirname(os.path.dirname(os.path.realpath(__file__)))
sys.path.insert(0, TOOLS)


def load_settled():
    """tools/check-settled, whose values are those of python's `cryptography`: a copy of its own at each call."""
    loader = importlib.machinery.SourceFileLoader("check_settled", f"{TOOLS}/check-settled")
    module = importlib.util.module_from_spec(importlib.util.spec_from_loader("check_settled", loader))
    loader.exec_module(module)
    return module


settled = load_settled()

AES = ["aes-generic", "aes-generic", "aes-table", "aes-lanes"]
GHASH = ["ghash-generic", "ghash-table"]
# drivers that no look-up by an algorithm's name chooses
REGISTERED = ["aes-table", "aes-lanes", "ghash-table"]


@dataclasses.dataclass(frozen=True)
class Form:
    """A transform: its type for AF_ALG, its name, its driver here over any AES and GHASH, and the kernel's driver."""

    word: str
    kind: str
    name: str
    driver: str
    kernel: str

    def plan(self):
        """What it computes."""
        return settled.Plan(settled.tree_of(self.over("aes-generic", "ghash-generic")))

    def over(self, aes, ghash):
        return self.driver.replace("AES", aes).replace("GHASH", ghash)


def plain(word, kind, name, driver, kernel=None):
    return Form(word, kind, name, driver, kernel or driver.replace("AES", "aes-generic").replace("GHASH", "ghash-generic"))


CIPHERS = [
    plain("cbc", "skcipher", "cbc(aes)", "cbc(AES)"),
    plain("ctr", "skcipher", "ctr(aes)", "ctr(AES)"),
    plain("rfc3686", "skcipher", "rfc3686(ctr(aes))", "rfc3686(ctr(AES))"),
    plain("xts", "skcipher", "xts(aes)", "xts(AES)", "xts(ecb(aes-generic))"),
]
TAGGED = [
    plain("gcm", "aead", "gcm(aes)", "gcm_base(ctr(AES),GHASH)"),
    plain("rfc4106", "aead", "rfc4106(gcm(aes))", "rfc4106(gcm_base(ctr(AES),GHASH))"),
    plain("ccm", "aead", "ccm(aes)", "ccm(AES)", "ccm_base(ctr(aes-generic),cbcmac(aes-generic))"),
]
for cipher in CIPHERS:
    below = [f"authenc(hmac(sha256-generic),{driver})" for driver in (cipher.driver, cipher.kernel)]
    TAGGED.append(plain("authenc", "aead", f"authenc(hmac(sha256),{cipher.name})", *below))
MACS = [
    plain("hmac", "hash", "hmac(sha256)", "hmac(sha256-generic)"),
    plain("cmac", "hash", "cmac(aes)", "cmac(AES)"),
]
FORMS = CIPHERS + TAGGED + MACS
# one block of AES, which the kernel seals by ECB
BLOCK = Form("aes", "skcipher", "aes", "aes", "ecb(aes-generic)")


def good_key(draw, form):
    """A key that both take."""
    word = form.word
    if word == "authenc":
        return blob(draw.randbytes(draw.choice([0, 1, 20, 32, 64, 65, 131])), cipher_key(draw, cipher_of(form).word))
    if word == "hmac":
        return draw.randbytes(draw.choice([0, 1, 16, 32, 63, 64, 65, 131, 200]))
    key = cipher_key(draw, word)
    # OpenSSL, and so the second program, takes no equal halves
    return key[: len(key) // 2] * 2 if word == "xts" and draw.random() < 0.1 else key


def cipher_key(draw, word):
    lengths = {"xts": [32, 64], "rfc3686": [20, 28, 36], "rfc4106": [20, 28, 36]}
    return draw.randbytes(draw.choice(lengths.get(word, [16, 24, 32])))


def bad_key(draw, form):
    """A key that both refuse; there is none of HMAC's."""
    if form.word == "authenc":
        return bad_blob(draw, form)
    plan = form.plan() if form.word != "aes" else CIPHERS[0].plan()
    while True:
        key = draw.randbytes(draw.choice([0, 1, 8, 15, 17, 20, 23, 25, 31, 33, 36, 40, 63, 65, draw.randrange(80)]))
        if not plan.takes_key(key) and not (form.word == "xts" and len(key) == 48):
            return key


WRONG_BEGINNINGS = ["00080001", "08000200", "09000100", "0c000100", "07000100", "08000000"]


def bad_blob(draw, form):
    """A blob that is too short, begins otherwise, counts more bytes than there are, or has no key of the cipher's."""
    good = good_key(draw, form)
    what = draw.randrange(4)
    if what == 0:
        return good[: draw.randrange(8)]
    if what == 1:
        return bytes.fromhex(draw.choice(WRONG_BEGINNINGS)) + good[4:]
    if what == 2:
        return good[:4] + (len(good) - 8 + draw.choice([1, 2, 2**16, 2**31])).to_bytes(4, "big") + good[8:]
    return blob(draw.randbytes(20), bad_key(draw, cipher_of(form)))


def blob(mac_key, key):
    """The key of an authenc."""
    return b"\x08\0\1\0" + len(key).to_bytes(4, "big") + mac_key + key


def cipher_of(form):
    """The cipher mode under an authenc."""
    return next(cipher for cipher in CIPHERS if form.name == f"authenc(hmac(sha256),{cipher.name})")


def some_iv(draw, form):
    """An IV; counters are often near the end of 32, 64 or 128 bits."""
    plan = form.plan()
    if draw.random() < 0.04:
        return draw.randbytes(draw.randrange(20))
    if plan.word == "ccm":
        first = draw.choice([0, 8, 255]) if draw.random() < 0.06 else draw.randrange(1, 8)
        return bytes([first]) + draw.randbytes(15)
    if plan.iv == 16 and draw.random() < 0.4:
        kept = draw.choice([12, 8, 0])
        return draw.randbytes(kept) + b"\xff" * (15 - kept) + bytes([draw.randrange(0xF0, 0x100)])
    return draw.randbytes(plan.iv)


def some_aad(draw, form):
    if form.kind != "aead":
        return b""
    if form.word == "rfc4106":
        return draw.randbytes(draw.choice([16, 20, 16, 20, 16, 20, 0, 8, 12, 15, 17, 19, 21, 24]))
    return draw.randbytes(draw.choice([0, 1, 8, 13, 14, 15, 16, 20, 33, draw.randrange(64), draw.randrange(600)]))


def some_length(draw, form):
    """How long a text is: 0 to 4,096 bytes, mostly few; whole blocks more often where nothing else is taken."""
    length = draw.choice([draw.randrange(81), draw.randrange(81), 16 * draw.randrange(9), draw.randrange(520)])
    if draw.random() < 0.08:
        length = draw.choice([draw.randrange(4097), 4096, 4095, 2048, 1024])
    whole = form.word == "cbc" or form.name.endswith("cbc(aes))")
    return length - length % 16 if whole and draw.random() < 0.85 else length
