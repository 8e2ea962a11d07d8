"""A script of the language, and beside each line what the program must answer to it."""
import contextlib
import subprocess
from collections import Counter
from dataclasses import dataclass, field

# seconds for a run of the program
PATIENCE = 600
# The drivers that take the least time; a script without them stands on the `-generic` ones.
FAST_DRIVERS = {"aes-lanes": 200, "ghash-table": 200}


def value_of(answer):
    """The bytes of an answer `N ok HEX` or `L done HEX`, or None."""
    words = answer.split()
    if len(words) != 3 or words[1] not in ("ok", "done"):
        return None
    try:
        return b"" if words[2] == "-" else bytes.fromhex(words[2])
    except ValueError:
        return None


def flipped(octets, place):
    """With the last bit of one byte changed."""
    return octets[:place] + bytes([octets[place] ^ 1]) + octets[place + 1 :]


def hexadecimal(octets):
    return octets.hex() or "-"


@dataclass
class Wanted:
    """An answer: its whole text, or its first words alone where a driver stands behind them; and what it is counted as."""

    text: str
    kind: str = ""
    is_front: bool = False

    def agrees(self, answer):
        return answer.startswith(self.text) if self.is_front else answer == self.text


@dataclass
class Script:
    """Lines and answers. Requests to a label under `pcrypt` or `cryptd` are told by the label's `drain`, in their order."""

    lines: list = field(default_factory=list)
    wanted: list = field(default_factory=list)
    owed: dict = field(default_factory=dict)

    def say(self, line, answer, is_front=False):
        self.lines.append(line)
        self.wanted.append(Wanted(f"{len(self.lines)} {answer}", is_front=is_front))

    def register_fast_drivers(self):
        for driver, priority in FAST_DRIVERS.items():
            self.say(f"register {driver} {priority}", "ok")

    def alloc(self, label, name, key, tag=None):
        self.say(f"alloc {label} {name}", "ok ", is_front=True)
        if name.startswith(("pcrypt(", "cryptd(")):
            self.owed[label] = []
        self.key(label, key)
        if tag is not None:
            self.say(f"authsize {label} {tag}", "ok")

    def key(self, label, key):
        self.say(f"key {label} {hexadecimal(key)}", "ok")

    def request(self, words, label, value, kind):
        """`value` is what the request must give: bytes, or the name of an error number."""
        self.lines.append(words)
        number = len(self.lines)
        failed = isinstance(value, str)
        if label in self.owed:
            self.wanted.append(Wanted(f"{number} EINPROGRESS"))
            self.owed[label].append(Wanted(f"{number} {f'fail {value}' if failed else f'done {hexadecimal(value)}'}", kind))
        else:
            self.wanted.append(Wanted(f"{number} {value if failed else f'ok {hexadecimal(value)}'}", kind))

    def enc(self, label, iv, aad, text, value, kind="sealed"):
        self.request(f"enc {label} {hexadecimal(iv)} {hexadecimal(aad)} {hexadecimal(text)}", label, value, kind)

    def dec(self, label, iv, aad, text, value, kind="opened"):
        self.request(f"dec {label} {hexadecimal(iv)} {hexadecimal(aad)} {hexadecimal(text)}", label, value, kind)

    def mac(self, label, text, value, kind="sealed"):
        self.request(f"mac {label} {hexadecimal(text)}", label, value, kind)

    def drain(self, label):
        told = self.owed.get(label, [])
        self.lines.append(f"drain {label}")
        self.wanted += told + [Wanted(f"{len(self.lines)} drained {len(told)}")]
        if label in self.owed:
            self.owed[label] = []

    def text(self):
        return "".join(f"{line}\n" for line in self.lines)


@dataclass
class Outcome:
    """How many answers of each kind agree, of how many, and the first that don't."""

    agreed: Counter = field(default_factory=Counter)
    total: Counter = field(default_factory=Counter)
    differences: list = field(default_factory=list)

    def add(self, other):
        self.agreed += other.agreed
        self.total += other.total
        self.differences += other.differences

    def note(self, kind, is_right, what=""):
        """A comparison that is no answer of a script."""
        self.total[kind] += 1
        self.agreed[kind] += is_right
        if not is_right:
            self.differences.append(f"{kind}: {what}")

    def counts(self):
        return ", ".join(f"{kind} {self.agreed[kind]}/{count}" for kind, count in self.total.items())


def shortened(answer):
    return answer if len(answer) <= 120 else f"{answer[:117]}..."


class Program:
    """The program under test. `turn` changes its answers, to see that a wrong program is found."""

    def __init__(self, path, turn=None):
        self.path, self.turn = path, turn

    def answers(self, text, workers=4):
        words = [self.path, "--workers", str(workers)]
        try:
            ran = subprocess.run(words, input=text.encode(), capture_output=True, timeout=PATIENCE)
        except subprocess.TimeoutExpired:
            return [f"no end within {PATIENCE} s"]
        answers = ran.stdout.decode().splitlines()
        if ran.returncode:
            answers.append(f"status {ran.returncode} {ran.stderr.decode().strip()}")
        return self.turn(answers) if self.turn else answers

    @contextlib.contextmanager
    def dialogue(self):
        """A function that gives the program a line and waits for its answer."""
        with subprocess.Popen([self.path, "--workers", "0"], stdin=subprocess.PIPE, stdout=subprocess.PIPE, text=True, bufsize=1) as run:

            def ask(line):
                run.stdin.write(f"{line}\n")
                answers = [run.stdout.readline().rstrip("\n")]
                return self.turn(answers)[0] if self.turn else answers[0]

            yield ask

    def run(self, what, script, workers=4):
        """Runs a script, and compares the answers with those that are wanted, place by place."""
        got = self.answers(script.text(), workers)
        outcome = Outcome()
        for place, wanted in enumerate(script.wanted):
            answer = got[place] if place < len(got) else "nothing"
            is_right = wanted.agrees(answer)
            if wanted.kind:
                outcome.total[wanted.kind] += 1
                outcome.agreed[wanted.kind] += is_right
            if not is_right:
                outcome.differences.append(f"{what}: wanted {shortened(wanted.text)}, answered {shortened(answer)}")
        if len(got) > len(script.wanted):
            outcome.differences.append(f"{what}: answered more: {shortened(got[len(script.wanted)])}")
        return outcome
