"""ESP: packets that scapy sealed, opened and sealed alike by the program, and the program's opened by scapy."""
import json
import os
import subprocess

from common import draw
from peers import turned
from peers.esp_forms import HEADER_LENGTH, cut, forms, joined, key_of, name_of
from peers.packages import python_with_scapy
from peers.script import Outcome, Script, flipped, value_of

NEEDS = ["scapy", "openssl"]
TURNS = turned.ALL
PACKETS = 200
UNDER_OTHERS = 60
OPENED_BY_SCAPY = 10
GMAC_PACKETS = 34


def scapy(words, given=""):
    """The rows that the process with scapy prints."""
    here = os.path.join(os.path.dirname(os.path.realpath(__file__)), "esp_scapy.py")
    ran = subprocess.run([python_with_scapy(), here, *words], input=given, stdout=subprocess.PIPE, text=True, check=True)
    return [json.loads(line) for line in ran.stdout.splitlines()]


def packets_of_scapy(count, step):
    """For each step-th form, by its place, its packets: on the wire, and the text that they seal."""
    packets = {place: [] for place in range(0, len(forms()), step)}
    for row in scapy(["make", str(count), *map(str, packets)]):
        packets[row["form"]].append((bytes.fromhex(row["wire"]), bytes.fromhex(row["text"])))
    return packets


def tampered(form, part, number):
    """The same packet with a bit of its tag, ciphertext, header or IV changed, or shortened by a byte: IV, AAD, sealed."""
    iv, aad, sealed = part.iv, part.aad, part.sealed
    kind = number % 5
    if kind == 0:
        return iv, aad, flipped(sealed, len(sealed) - 1 - number % form.tag)
    if kind == 1:
        return iv, aad, flipped(sealed, number % (len(sealed) - form.tag))
    if kind == 2:
        # any byte of the index, the high half and the number
        return iv, flipped(aad, number % (HEADER_LENGTH if form.high is None else HEADER_LENGTH + 4)), sealed
    if kind == 3:
        place = 4 + number % 8 if form.cipher == "AES-CCM" else number % len(iv)
        wrong = flipped(iv, place)
        return wrong, (aad[: -len(iv)] + wrong if form.has_mac() else aad), sealed
    return iv, aad, sealed[:-1]


def add_packets(script, label, form, packets):
    """Opened, sealed and refused in turn, so that a refused one stands between others."""
    for number, (wire, text) in enumerate(packets):
        part = cut(form, wire)
        script.dec(label, part.iv, part.aad, part.sealed, text)
        script.enc(label, part.iv, part.aad, text, part.sealed)
        script.dec(label, *tampered(form, part, number), "EBADMSG", "refused")


def script_of(form, name, packets, fast):
    script = Script()
    if fast:
        script.register_fast_drivers()
    script.alloc("t", name, key_of(form), form.tag)
    add_packets(script, "t", form, packets)
    script.drain("t")
    return script


def mixed_tunnels(packets):
    """Three tunnels beside one another, each with a second key under way."""
    script = Script()
    places = {f"t{place}": place for place in (0, 5, 10)}
    labels = {label: forms()[place] for label, place in places.items()}
    for label, form in labels.items():
        script.alloc(label, f"pcrypt({name_of(form)})", key_of(form), form.tag)
    for number in range(40):
        for label, form in labels.items():
            wire, text = packets[places[label]][number]
            part = cut(form, wire)
            if number == 20:
                # what was handed in before keeps its key; under the other one the next packet doesn't open
                script.key(label, other_key(form))
                script.dec(label, part.iv, part.aad, part.sealed, "EBADMSG", "refused")
                script.key(label, key_of(form))
            script.dec(label, part.iv, part.aad, part.sealed, text)
    for label in labels:
        script.drain(label)
    return script


def other_key(form):
    """With another first byte of the cipher's key, or of the MAC key's last."""
    key = key_of(form)
    return flipped(key, len(key) - 1 - len(form.key()) if form.has_mac() else 0)


def gmac_of_openssl(key, iv, octets):
    words = ["openssl", "mac", "-cipher", f"AES-{8 * len(key)}-GCM", "-macopt", f"hexkey:{key.hex()}", "-macopt", f"hexiv:{iv.hex()}"]
    ran = subprocess.run([*words, "-in", "-", "GMAC"], input=octets, stdout=subprocess.PIPE, check=True)
    return bytes.fromhex(ran.stdout.decode().strip())


def gmac_packets(packets):
    """ESP with GMAC alone (RFC 4543, 3.3): header, IV and payload are associated bytes, and the texts of scapy's are the payloads."""
    script = Script()
    for place, length in enumerate((16, 24, 32)):
        label, key = f"g{place}", draw(f"GMAC key {length}", length + 4)
        script.alloc(label, "pcrypt(gcm(aes))", key[:length])
        for number, (wire, payload) in enumerate(packets[0][:GMAC_PACKETS]):
            iv = key[length:] + wire[HEADER_LENGTH : HEADER_LENGTH + 8]
            covered = wire[: HEADER_LENGTH + 8] + payload
            tag = gmac_of_openssl(key[:length], iv, covered)
            script.enc(label, iv, covered, b"", tag, "GMAC sealed")
            script.dec(label, iv, covered, tag, b"", "GMAC opened")
            script.dec(label, iv, flipped(covered, number % len(covered)), tag, "EBADMSG", "GMAC refused")
        script.drain(label)
    return script


def sealed_by_program(program, packets):
    """Has the program seal texts, and scapy open what it answers."""
    outcome, rows = Outcome(), []
    for place, some in packets.items():
        form, script = forms()[place], Script()
        script.alloc("t", name_of(form), key_of(form), form.tag)
        for wire, text in some[:OPENED_BY_SCAPY]:
            part = cut(form, wire)
            script.enc("t", part.iv, part.aad, text, b"")
        # the values are scapy's to judge
        for number, answer in enumerate(program.answers(script.text())[-OPENED_BY_SCAPY:]):
            wire = joined(some[number][0], value_of(answer) or b"", form)
            rows.append({"form": place, "number": number, "wire": wire.hex()})
    for row, is_open in zip(rows, scapy(["open"], "".join(f"{json.dumps(row)}\n" for row in rows))):
        outcome.note("opened by scapy", is_open, f"{forms()[row['form']]}, packet {row['number']}")
    return outcome


def check(program, share=1):
    """The lines of the report, by name; `share` takes every fifth form, and fewer packets."""
    packets = packets_of_scapy(max(40, PACKETS // share), 5 if share > 1 else 1)
    under = {"pcrypt(X)": Outcome(), "X": Outcome(), "cryptd(pcrypt(X))": Outcome()}
    for place, rows in packets.items():
        form = forms()[place]
        for shape, outcome in under.items():
            is_ordered = shape == "pcrypt(X)"
            some = rows if is_ordered else rows[:UNDER_OTHERS]
            script = script_of(form, shape.replace("X", name_of(form)), some, fast=is_ordered)
            outcome.add(program.run(f"{form} under {shape}", script))
    report = {f"{len(packets)} forms under {shape}": outcome for shape, outcome in under.items()}
    report["three tunnels mixed"] = program.run("three tunnels mixed", mixed_tunnels(packets))
    report["GMAC (RFC 4543)"] = program.run("GMAC", gmac_packets(packets))
    report["sealed by the program"] = sealed_by_program(program, packets)
    return report
