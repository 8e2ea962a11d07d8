"""What several of the tools share: where the program is, the crates, and draws that are the same in every run."""
import hashlib
import os
import sys

TOP = os.path.dirname(os.path.dirname(os.path.realpath(__file__)))
PROGRAM = f"{TOP}/crates/crypto_script/out/crypto_script"


def need_program(tool, program):
    """Ends the tool where the program isn't there."""
    if not os.access(program, os.X_OK):
        sys.exit(f"{tool}: no program at {program}: run tools/build")


def crates():
    """The libraries that each crate names, the repository's and the kit's."""
    named = {}
    with open(f"{TOP}/crates.txt", encoding="utf-8") as lines:
        for line in lines:
            name, colon, libraries = line.partition("#")[0].partition(":")
            if colon:
                named[name.split()[0]] = libraries.split()
    return named


def below(name, named):
    """The repository's crates below one."""
    found = []
    for library in named[name]:
        if library in named:
            found += [library, *below(library, named)]
    return [*dict.fromkeys(found)]


def origin(word):
    """From which client's script a request is, and its line there: `L` of client 0, `K.L` of client K."""
    client, dot, line = word.rpartition(".")
    return (int(client) if dot else 0), int(line)


class SplitMix64:
    """The generator of Steele, Lea and Flood (2014)."""

    def __init__(self, seed):
        self.state = seed

    def draw(self):
        self.state = (self.state + 0x9E3779B97F4A7C15) % 2**64
        z = self.state
        z = (z ^ (z >> 30)) * 0xBF58476D1CE4E5B9 % 2**64
        z = (z ^ (z >> 27)) * 0x94D049BB133111EB % 2**64
        return z ^ (z >> 31)

    def draw_bytes(self, draws):
        """The high byte of each draw first."""
        return b"".join(self.draw().to_bytes(8, "big") for _ in range(draws))


def draw(what, length):
    """Bytes that look random, the same for the same text."""
    blocks = (hashlib.sha256(f"{what}, {n}".encode()).digest() for n in range(length // 32 + 1))
    return b"".join(blocks)[:length]
