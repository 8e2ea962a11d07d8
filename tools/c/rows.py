"""Rows for tools/c/rows.c: the repository's own, and others whose answers python's `cryptography` gives.

A row is: a driver, a key, a tag size, enc, dec or mac, an IV, associated bytes, a text, and what comes of these."""
import hashlib
import hmac
import re
import struct
import subprocess
import sys

from common import TOP, draw

AES = ["aes-lanes", "aes-table", "aes-generic"]
GHASH = ["ghash-table", "ghash-generic"]
LENGTHS = [0, 1, 15, 16, 17, 31, 33, 64, 100, 127, 128, 129, 255, 256, 300, 511, 1000, 1400, 4480]


def hexed(data):
    return data.hex() or "-"


def row(driver, key, tag, direction, iv, aad, text, want):
    return f"{driver} {hexed(key)} {tag} {direction} {hexed(iv)} {hexed(aad)} {hexed(text)} {hexed(want) if isinstance(want, bytes) else want}"


def of_mode_tests():
    """The rows of crates/mode_tests."""
    with open(f"{TOP}/crates/mode_tests/src/vectors.rt", encoding="utf-8") as file:
        text = file.read()
    found = []
    for part in re.findall(r'const \w+: &str = "\\\n(.*?)";', text, re.S):
        for line in part.splitlines():
            fields = line.rstrip("\\").strip().removesuffix("\\n").split()
            if len(fields) == 8 and fields[3] in ("enc", "dec", "mac"):
                found.append(" ".join(fields))
    return found


class Script:
    """The state of the lines of a script: what each label is, its key and its tag size."""

    def __init__(self):
        self.of = {}

    def begin(self, label, driver):
        tag = 32 if driver.startswith("authenc") else 16 if driver.startswith(("gcm", "rfc4106", "ccm")) else 0
        self.of[label] = [driver, b"", tag]


def of_make_vectors():
    """The requests of tools/make-vectors that a plain transform answers, with its answers."""
    made = f"{TOP}/tools/make-vectors"
    script, answers = (subprocess.run([sys.executable, made, word], capture_output=True, text=True, check=True).stdout.splitlines()
                       for word in ("script", "answers"))
    by_line = {int(line.split()[0]): line.split()[1:] for line in answers if line.split()[0].isdigit()}
    state, found = Script(), []
    for number, line in enumerate(script, 1):
        words, answer = line.split(), by_line.get(number, [])
        if len(words) < 2 or not answer:
            continue
        if words[0] == "alloc" and answer[0] == "ok":
            state.begin(words[1], answer[1])
        elif words[0] == "key" and answer[0] == "ok":
            state.of[words[1]][1] = "" if words[2] == "-" else words[2]
        elif words[0] == "authsize" and answer[0] == "ok":
            state.of[words[1]][2] = int(words[2])
        elif words[0] in ("enc", "dec", "mac") and words[1] in state.of:
            driver, key, tag = state.of[words[1]]
            want = {"ok": answer[-1], "EINVAL": "invalid", "EBADMSG": "bad-message"}.get(answer[0] if answer[0] == "ok" else answer[-1])
            if want is None or not re.fullmatch(r"[0-9a-f]+|-|invalid|bad-message", want) or "(" not in driver or driver.startswith(("pcrypt", "cryptd")):
                continue
            iv, aad, text = words[2:5] if words[0] != "mac" else ("-", "-", words[2])
            found.append(f"{driver} {key or '-'} {tag} {words[0]} {iv} {aad} {text.replace('|', '')} {want}")
    return found


def outside():
    """Rows of python's `cryptography` for each driver and key size, or None where it isn't installed."""
    try:
        from cryptography.hazmat.primitives.ciphers import Cipher, algorithms, modes
        from cryptography.hazmat.primitives.ciphers.aead import AESCCM, AESGCM
        from cryptography.hazmat.primitives.cmac import CMAC
    except ImportError:
        return None
    found = []

    def both(driver, key, tag, iv, aad, text, sealed):
        found.append(row(driver, key, tag, "enc", iv, aad, text, sealed))
        found.append(row(driver, key, tag, "dec", iv, aad, sealed, text))

    def sealed_by(mode, key, text):
        made = Cipher(algorithms.AES(key), mode).encryptor()
        return made.update(text) + made.finalize()

    def wrong(driver, key, tag, iv, aad, sealed):
        for at in (0, len(sealed) // 2, len(sealed) - 1):
            changed = bytearray(sealed)
            changed[at] ^= 1 << at % 8
            found.append(row(driver, key, tag, "dec", iv, aad, bytes(changed), "bad-message"))

    for size in (16, 24, 32):
        for n in LENGTHS:
            what = f"c library {size} {n}"
            key, iv, aad, text = draw(what + "k", size), draw(what + "i", 16), draw(what + "a", n % 61), draw(what + "t", n)
            mac_key = draw(what + "m", n % 90)
            blob = struct.pack("<HH", 8, 1) + struct.pack(">I", size) + mac_key + key
            salt = draw(what + "s", 4)
            for aes in AES:
                if n % 16 == 0:
                    both(f"cbc({aes})", key, 0, iv, b"", text, sealed_by(modes.CBC(iv), key, text))
                    inner = sealed_by(modes.CBC(iv), key, text)
                    full = hmac.new(mac_key, aad + inner, hashlib.sha256).digest()
                    for tag in (12, 16, 32):
                        both(f"authenc(hmac(sha256-generic),cbc({aes}))", blob, tag, iv, aad, text, inner + full[:tag])
                    wrong(f"authenc(hmac(sha256-generic),cbc({aes}))", blob, 32, iv, aad, inner + full)
                else:
                    found.append(row(f"cbc({aes})", key, 0, "enc", iv, b"", text, "invalid"))
                both(f"ctr({aes})", key, 0, iv, b"", text, sealed_by(modes.CTR(iv), key, text))
                counter = salt + iv[:8] + b"\0\0\0\1"
                both(f"rfc3686(ctr({aes}))", key + salt, 0, iv[:8], b"", text, sealed_by(modes.CTR(counter), key, text))
                inner = sealed_by(modes.CTR(iv), key, text)
                full = hmac.new(mac_key, aad + inner, hashlib.sha256).digest()
                both(f"authenc(hmac(sha256-generic),ctr({aes}))", blob, 32, iv, aad, text, inner + full)
                if size != 24 and n >= 16:
                    two = key + draw(what + "2", size)
                    both(f"xts({aes})", two, 0, iv, b"", text, sealed_by(modes.XTS(iv), two, text))
                for ghash in GHASH:
                    whole = AESGCM(key).encrypt(iv[:12], text, aad)
                    for tag in (4, 8, 12, 13, 14, 15, 16):
                        both(f"gcm_base(ctr({aes}),{ghash})", key, tag, iv[:12], aad, text, whole[:n + tag])
                    wrong(f"gcm_base(ctr({aes}),{ghash})", key, 16, iv[:12], aad, whole)
                    esp = draw(what + "e", 16)
                    whole = AESGCM(key).encrypt(salt + iv[:8], text, esp[:8])
                    both(f"rfc4106(gcm_base(ctr({aes}),{ghash}))", key + salt, 16, iv[:8], esp, text, whole)
                for q in range(2, 9):
                    first = bytes([q - 1]) + draw(what + f"n{q}", 15 - q) + bytes(q)
                    tag = (4, 6, 8, 10, 12, 14, 16)[q - 2]
                    whole = AESCCM(key, tag_length=tag).encrypt(first[1:16 - q], text, aad)
                    both(f"ccm({aes})", key, tag, first, aad, text, whole)
                made = CMAC(algorithms.AES(key))
                made.update(text)
                found.append(row(f"cmac({aes})", key, 0, "mac", b"", b"", text, made.finalize()))
            found.append(row("hmac(sha256-generic)", mac_key, 0, "mac", b"", b"", text, hmac.new(mac_key, text, hashlib.sha256).digest()))
    return found


def sets():
    """Each set of rows and its name."""
    return [("the rows of crates/mode_tests", of_mode_tests()), ("tools/make-vectors", of_make_vectors()),
            ("python's cryptography", outside())]
