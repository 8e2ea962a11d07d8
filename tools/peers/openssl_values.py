"""openssl's own commands: enc, dgst and mac, beside `cbc`, `ctr`, `aes`, `hmac` and `cmac` of the program."""
import subprocess

from common import draw
from peers import turned
from peers.script import Script

NEEDS = ["openssl"]
TURNS = turned.WITHOUT_TAGS
KEY_LENGTHS = [16, 24, 32]
BLOCK = 16
# of bytes, around blocks and up to what a line takes
SIZES = [0, 1, 15, 16, 17, 31, 32, 33, 64, 100, 255, 256, 257, 500, 1000, 1024, 1500, 4096, 5000, 10_000, 16_384, 20_000, 32_000]
LONG = 1_000_000
PIECE = 30_720
# counters whose low 32 and whose 128 bits carry
CARRYING = ["000102030405060708090a0bffffffff", "ffffffffffffffffffffffffffffffff", "00000000fffffffffffffffffffffffe"]


def openssl(words, given):
    return subprocess.run(["openssl", *words], input=given, stdout=subprocess.PIPE, check=True).stdout


def sealed_by_enc(mode, key, iv, text):
    """`openssl enc` without its padding."""
    more = ["-iv", iv.hex()] if iv else []
    return openssl(["enc", f"-aes-{8 * len(key)}-{mode}", "-K", key.hex(), *more, "-nopad"], text)


def hmac_by_dgst(key, text):
    return bytes.fromhex(openssl(["dgst", "-sha256", "-mac", "HMAC", "-macopt", f"hexkey:{key.hex()}"], text).decode().split()[-1])


def cmac_by_mac(key, text):
    words = ["mac", "-cipher", f"AES-{8 * len(key)}-CBC", "-macopt", f"hexkey:{key.hex()}"]
    return bytes.fromhex(openssl([*words, "-in", "-", "CMAC"], text).decode().strip())


def both_ways(script, label, iv, text, sealed, kind):
    script.enc(label, iv, b"", text, sealed, f"{kind} sealed")
    script.dec(label, iv, b"", sealed, text, f"{kind} opened")


def ciphers(share):
    """CBC and CTR of each key length and size, and CTR with counters that carry."""
    script = Script()
    script.register_fast_drivers()
    for length in KEY_LENGTHS:
        for mode in ("cbc", "ctr"):
            label, key = f"{mode}{length}", draw(f"{mode} key {length}", length)
            script.alloc(label, f"{mode}(aes)", key)
            for size in SIZES[::share]:
                text = draw(f"text {size}", size // BLOCK * BLOCK if mode == "cbc" else size)
                iv = draw(f"IV {mode} {length} {size}", BLOCK)
                both_ways(script, label, iv, text, sealed_by_enc(mode, key, iv, text), mode)
            for counter in CARRYING if mode == "ctr" else []:
                text, iv = draw(f"text {counter}", 100), bytes.fromhex(counter)
                both_ways(script, label, iv, text, sealed_by_enc("ctr", key, iv, text), "ctr")
    return script


def blocks():
    """ECB a block at a time."""
    script = Script()
    for length in KEY_LENGTHS:
        key, text = draw(f"ecb key {length}", length), draw(f"ecb text {length}", 10 * BLOCK)
        sealed = sealed_by_enc("ecb", key, None, text)
        for place in range(0, len(text), BLOCK):
            script.request(f"aes {key.hex()} {text[place:place + BLOCK].hex()}", "", sealed[place : place + BLOCK], "ecb sealed")
    return script


def added(counter, blocks_done):
    return ((int.from_bytes(counter, "big") + blocks_done) % 2**128).to_bytes(BLOCK, "big")


def long_texts(length):
    """A text of more than a line: CBC goes on with the last block of ciphertext, CTR with the counter plus the blocks done."""
    script = Script()
    script.register_fast_drivers()
    text = draw("long text", length // BLOCK * BLOCK)
    for length in KEY_LENGTHS:
        for mode in ("cbc", "ctr"):
            label, key = f"{mode}{length}", draw(f"long {mode} {length}", length)
            iv = draw(f"long IV {mode}", BLOCK)
            script.alloc(label, f"{mode}(aes)", key)
            sealed = sealed_by_enc(mode, key, iv, text)
            for place in range(0, len(text), PIECE):
                part = sealed[place : place + PIECE]
                both_ways(script, label, iv, text[place : place + PIECE], part, f"long {mode}")
                iv = part[-BLOCK:] if mode == "cbc" else added(iv, PIECE // BLOCK)
    return script


def macs(share):
    script = Script()
    for length in (1, 20, 32, 63, 64, 65, 131):
        label, key = f"h{length}", draw(f"hmac key {length}", length)
        script.alloc(label, "hmac(sha256)", key)
        for size in SIZES[::share]:
            text = draw(f"hmac text {size}", size)
            script.mac(label, text, hmac_by_dgst(key, text), "hmac")
    for length in KEY_LENGTHS:
        label, key = f"c{length}", draw(f"cmac key {length}", length)
        script.alloc(label, "cmac(aes)", key)
        for size in SIZES[::share]:
            text = draw(f"cmac text {size}", size)
            script.mac(label, text, cmac_by_mac(key, text), "cmac")
    return script


def check(program, share=1):
    """The lines of the report, by name."""
    scripts = {"enc": ciphers(share), "enc, a block at a time": blocks(), "dgst and mac": macs(share)}
    scripts["enc, 1 MB over lines"] = long_texts(LONG // share)
    return {name: program.run(name, script) for name, script in scripts.items()}
