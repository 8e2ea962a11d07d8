"""Makes and opens packets of ESP by scapy alone. It runs in a process of its own, under a python3 that has scapy.

usage: esp_scapy.py make COUNT [FORMS]   writes a line of JSON for each packet: form, wire, text
       esp_scapy.py open                 reads lines of JSON with form, wire and packet, and writes whether scapy opens each
"""
import json
import os
import sys

sys.path.insert(0, os.path.dirname(os.path.dirname(os.path.realpath(__file__))))

from scapy.layers.inet import IP, TCP, UDP
from scapy.layers.inet6 import IPv6
from scapy.layers.ipsec import ESP, SecurityAssociation
from scapy.packet import Raw, raw

from common import draw
from peers.esp_forms import IV_LENGTHS, forms

# the index of the first form; each other has the next
SPI = 0x1001
SIZES = [0, 1, 2, 3, 15, 16, 17, 64, 100, 555, 1300, 1400]


def association(form, shape):
    """Shapes: 0 and 1 are transport, 2 and 3 tunnel; odd ones are IPv6."""
    tunnel = [None, None, IP(src="192.0.2.1", dst="192.0.2.2"), IPv6(src="2001:db8::1", dst="2001:db8::2")][shape]
    options = {"auth_algo": "SHA2-256-128", "auth_key": form.mac_key()} if form.has_mac() else {"crypt_icv_size": form.tag}
    if form.high is not None:
        options |= {"esn_en": True, "esn": form.high}
    if form.in_udp:
        options["nat_t_header"] = UDP(sport=4500, dport=4500)
    return SecurityAssociation(ESP, spi=SPI + forms().index(form), crypt_algo=form.cipher, crypt_key=form.key(), tunnel_header=tunnel, **options)


def packet(form, number):
    """A packet as a host sends it, the same in every run."""
    size = SIZES[number % len(SIZES)] + number // len(SIZES)
    head = IPv6(src="2001:db8::3", dst="2001:db8::4") if shape_of(form, number) % 2 else IP(src="198.51.100.3", dst="198.51.100.4")
    over = UDP(sport=1000 + number, dport=53) if number % 3 else TCP(sport=1000 + number, dport=443, seq=number)
    return head.__class__(raw(head / over / Raw(draw(f"{form}, packet {number}", size))))


def shape_of(form, number):
    # scapy 2.5 puts no UDP header in front of a packet of IPv6
    return number % 4 if not form.in_udp else number % 2 * 2


class Recorded:
    """A cipher of scapy's that keeps the text of the last packet as it stood before it was sealed."""

    def __init__(self, algorithm):
        self.algorithm, self.text = algorithm, b""

    def __getattr__(self, name):
        return getattr(self.algorithm, name)

    def encrypt(self, sa, esp, *rest, **options):
        self.text = esp.data_for_encryption()
        return self.algorithm.encrypt(sa, esp, *rest, **options)


def esp_of(sealed):
    """The bytes from the SPI on."""
    return raw(sealed[ESP])


def sealed_packets(place, form, count):
    for number in range(count):
        tunnel = association(form, shape_of(form, number))
        tunnel.crypt_algo = recorded = Recorded(tunnel.crypt_algo)
        iv = draw(f"{form}, IV {number}", IV_LENGTHS[form.cipher])
        sealed = tunnel.encrypt(packet(form, number), seq_num=number + 1, iv=iv)
        yield {"form": place, "number": number, "wire": esp_of(sealed).hex(), "text": recorded.text.hex()}


def opens(form, number, wire):
    """Whether scapy opens these bytes, in the place of its own, to the packet that was to be sealed."""
    tunnel = association(form, shape_of(form, number))
    given = packet(form, number)
    sealed = tunnel.encrypt(given.copy(), seq_num=number + 1, iv=bytes(IV_LENGTHS[form.cipher]))
    sealed[ESP].spi, sealed[ESP].seq = int.from_bytes(wire[:4], "big"), int.from_bytes(wire[4:8], "big")
    sealed[ESP].data = wire[8:]
    try:
        return raw(tunnel.decrypt(sealed)) == raw(given)
    except Exception:
        return False


def main():
    known = forms()
    if sys.argv[1] == "make":
        chosen = [int(word) for word in sys.argv[3:]] or range(len(known))
        for place in chosen:
            for row in sealed_packets(place, known[place], int(sys.argv[2])):
                print(json.dumps(row))
    else:
        for line in sys.stdin:
            row = json.loads(line)
            print(json.dumps(opens(known[row["form"]], row["number"], bytes.fromhex(row["wire"]))))


if __name__ == "__main__":
    main()
