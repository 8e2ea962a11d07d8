"""TLS: records between openssl and openssl or gnutls-cli, opened and sealed alike by the program."""
import tempfile

from common import draw
from peers import turned
from peers.packages import is_there
from peers.script import Outcome, Script, flipped
from peers.tls_epochs import epochs_of, is_as_sent, label_key, tag_of
from peers.tls_relay import FOLDER, converse, make_certificate
from peers.tls_suites import SUITES, Kind

NEEDS = ["openssl"]
ASKS_TOO = ["gnutls-cli"]
TURNS = turned.ALL
SIDES = ["client", "server"]
# bytes that are sent in records of 16 KB (in the first suite more), in small records, and the greatest small one
LONG, FILE, SHORT, FRAGMENT = 40_000, 200_000, 34_000, 512


def digits(what, length):
    """Text that no program takes for a command, ended by a line feed."""
    return bytes(48 + octet % 10 for octet in draw(what, length)) + b"\n"


def script_of(suite, epoch):
    """Each record opened, sealed, and refused with a changed bit of text or tag, and with the number of another record."""
    name = suite.kind.value if suite.kind is Kind.MAC_THEN_ENCRYPT else f"pcrypt({suite.kind.value})"
    script = Script()
    script.register_fast_drivers()
    script.alloc("t", name, label_key(suite, epoch.keys), tag_of(suite))
    for number, (part, text) in enumerate(zip(epoch.parts, epoch.texts)):
        script.dec("t", part.iv, part.aad, part.sealed, text)
        script.enc("t", part.iv, part.aad, text, part.sealed)
        if suite.kind is not Kind.MAC_THEN_ENCRYPT:
            script.dec("t", part.iv, part.aad, flipped(part.sealed, 7 * number % len(part.sealed)), "EBADMSG", "refused")
            if suite.version == "1.3":
                script.dec("t", flipped(part.iv, 8), part.aad, part.sealed, "EBADMSG", "refused")
            else:
                script.dec("t", part.iv, flipped(part.aad, 7), part.sealed, "EBADMSG", "refused")
    script.drain("t")
    return script


def macs_of(suite, epoch):
    """MAC-then-encrypt: the MAC of each opened text (RFC 5246, 6.2.3.1), for a second run."""
    script = Script()
    script.alloc("m", "hmac(sha256)", epoch.keys.mac_key)
    for number, (record, text) in enumerate(zip(epoch.records, epoch.texts)):
        unpadded = text[: -text[-1] - 1]
        inner, mac = unpadded[:-32], unpadded[-32:]
        covered = number.to_bytes(8, "big") + record.header[:3] + len(inner).to_bytes(2, "big") + inner
        script.mac("m", covered, mac, "MAC")
    return script


def judge(program, what, suite, talk):
    """Both directions of a conversation."""
    outcome = Outcome()
    for side in SIDES:
        epochs, left = epochs_of(program, suite, talk, side)
        is_right = not left and is_as_sent(suite, epochs, talk.said[side])
        outcome.note("directions as sent", is_right, f"{what}, {side}: {len(left)} records don't open")
        for epoch in epochs:
            outcome.add(program.run(f"{what}, {side}", script_of(suite, epoch)))
            if suite.kind is Kind.MAC_THEN_ENCRYPT:
                outcome.add(program.run(f"{what}, {side}", macs_of(suite, epoch)))
    return outcome


def small_turns(suite, length, updates):
    """Short records in both directions, and key updates of both sides between them."""
    turns = [("client", digits(f"{suite} client", length)), ("server", digits(f"{suite} server", length))]
    if updates and suite.version == "1.3":
        for number in range(2):
            turns += [("client", None), ("client", digits(f"{number}", 600)), ("server", None), ("server", digits(f"{number}", 700))]
    return turns


def long_turns(suite, length):
    return [("client", digits(f"{suite} file", length)), ("server", digits(f"{suite} answer", length // 6))]


def conversations(share):
    """What is said, by which client, in which suite; `share` takes every third suite, and of each a small conversation alone."""
    short = SHORT // share
    for suite in SUITES[:: 3 if share > 1 else 1]:
        long = FILE if suite is SUITES[0] else LONG
        yield "openssl, small records", suite, small_turns(suite, short, True), False, ["-max_send_frag", str(FRAGMENT)]
        if share > 1:
            continue
        yield "openssl, records of 16 KB", suite, long_turns(suite, long), False, []
        if suite.version == "1.3":
            padded = ["-record_padding", "256", "-max_send_frag", "1024"]
            yield "openssl, padded records", suite, small_turns(suite, short, False), False, padded
        if is_there("gnutls-cli"):
            yield "gnutls-cli", suite, long_turns(suite, long), True, []


def check(program, share=1):
    """The lines of the report, by name."""
    report = {}
    with tempfile.TemporaryDirectory(**FOLDER) as folder:
        make_certificate(folder)
        for name, suite, turns, is_gnutls, more in conversations(share):
            talk = converse(suite, folder, turns, is_gnutls, more)
            if suite.kind is Kind.MAC_THEN_ENCRYPT:
                name = f"{name}, MAC-then-encrypt"
            report.setdefault(name, Outcome()).add(judge(program, f"{suite}, {name}", suite, talk))
    return report
