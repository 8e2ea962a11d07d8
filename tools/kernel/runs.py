"""Runs of the kernel's queues, of its cryptd and of its pcrypt, by our module, and the same as lines of the script."""
import dataclasses
import random

import forms
from case import shown
from forms import Form
from judge import AGREE, DIFFER

MASK = "/sys/kernel/pcrypt/{}/parallel_cpumask"
ONE_ORDER = "seals and opens of one pcrypt: each direction in order in the kernel, both in one order here"
ONE_QUEUE = "two transforms under cryptd: one queue of their processor in the kernel, as of one transform here"
EMPTY_MASK = "an empty mask: of one direction in the kernel, of the transform here"


@dataclasses.dataclass(frozen=True)
class Request:
    direction: str
    may_wait: bool
    iv: bytes = b""
    aad: bytes = b""
    text: bytes = b""

    def word(self):
        """As our module reads it."""
        return ":".join([self.direction[0] + "b" * self.may_wait, shown(self.iv), shown(self.aad), shown(self.text)])

    def line(self, label):
        words = f"{self.direction} {label} {shown(self.iv)} {shown(self.aad)} {shown(self.text)}"
        return words + " backlog" * self.may_wait


@dataclasses.dataclass(frozen=True)
class QueueRun:
    """Rounds on one queue: requests of which some may wait in the backlog, and then all are taken out."""

    bound: int
    rounds: tuple

    def asks(self):
        steps = "".join("".join("nb"[may_wait] for may_wait in requests) + "d" * len(requests) for requests in self.rounds)
        return [f"run queue {self.bound} {steps}"]

    def lines(self):
        lines = [(f"alloc q cryptd(hmac(sha256-generic)) {self.bound}", False), ("key q 00", False)]
        for requests in self.rounds:
            lines.append(("hold q", False))
            lines += [("mac q 00" + " backlog" * may_wait, True) for may_wait in requests]
            lines += [("go q", False), ("drain q", False)]
        return lines + [("free q", False)]

    def events(self, words):
        """What the kernel told, in the program's words."""
        return [word.replace(":taken", ":done") for word in words if word != "empty"]

    def told(self, words):
        """What the program told, without the values, which no queue of the kernel's has by itself."""
        return [word.split(":done")[0] + ":done" if ":done" in word else word for word in words]

    def judged(self, ours, kernel):
        return AGREE if self.told(ours) == self.events(kernel) else DIFFER


@dataclasses.dataclass(frozen=True)
class AeadRun:
    """Requests to a transform under cryptd, whose queue is held meanwhile, or under pcrypt, by masks of its two directions."""

    form: Form
    wrap: str
    key: bytes
    tag: int
    requests: tuple
    bound: int = 0
    masks: tuple = ("f", "f")
    # of the kernel, every other request is asked of a second transform
    is_shared: bool = False

    def asks(self):
        words = f"{self.wrap}({self.form.kernel}) {self.tag} {shown(self.key)} {self.how()}"
        asks = [f"run aead {words} {' '.join(request.word() for request in self.requests)}"]
        if self.bound:
            return asks
        return [f"put {MASK.format(name)} {mask}" for name, mask in zip(("pencrypt", "pdecrypt"), self.masks)] + asks

    def how(self):
        return "shared" if self.is_shared else "held" if self.bound else "free"

    def lines(self):
        name = f"{self.wrap}({self.form.over('aes-generic', 'ghash-generic')})"
        lines = [(f"alloc p {name} {self.bound or ''}".rstrip(), False)]
        lines += [(f"key p {shown(self.key)}", False), (f"authsize p {self.tag}", False)]
        lines += [("hold p", False)] * bool(self.bound)
        is_empty = False
        for request in self.requests:
            if self.is_masked(request.direction) != is_empty:
                is_empty = not is_empty
                lines.append(("mask p 0000" if is_empty else "mask p ffff", False))
            lines.append((request.line("p"), True))
        return lines + [("go p", False)] * bool(self.bound) + [("drain p", False), ("free p", False)]

    def is_masked(self, direction):
        return not self.bound and self.masks[direction == "dec"] == "0"

    def judged(self, ours, kernel):
        """Under cryptd all is one order. Under pcrypt each direction is, and of both together the program tells one."""
        if self.is_shared:
            return ONE_QUEUE if ours == kernel else DIFFER
        if ours == kernel:
            # the script emptied and filled its one mask, where the kernel has a mask of each direction
            return EMPTY_MASK if self.is_masked("enc") != self.is_masked("dec") else AGREE
        directions = {request.direction for request in self.requests}
        same = all(self.of(direction, ours) == self.of(direction, kernel) for direction in directions)
        if self.bound or len(directions) == 1 or not same or not is_in_order(ours):
            return DIFFER
        return ONE_ORDER

    def of(self, direction, words):
        """What was told of the requests of a direction."""
        numbers = {str(number) for number, request in enumerate(self.requests) if request.direction == direction}
        return [word for word in words if word.replace("=", ":").split(":")[0] in numbers]


def is_in_order(words):
    numbers = [int(word.split(":")[0]) for word in words if ":" in word]
    return numbers == sorted(numbers)


# ---- draws

BOTH = ("enc", "dec")


def queue_runs(seed, count):
    return [some_queue_run(random.Random(f"{seed} queue {number}")) for number in range(count)]


def some_queue_run(draw):
    bound = draw.randrange(1, 8)
    rounds = [tuple(draw.random() < 0.5 for _ in range(draw.randrange(1, 15))) for _ in range(draw.randrange(1, 4))]
    return QueueRun(bound, tuple(rounds))


def cryptd_runs(seed, bound, count):
    """Of the kernel, each tenth is shared out to two transforms."""
    runs = []
    for number in range(count):
        draw = random.Random(f"{seed} cryptd {bound} {number}")
        runs.append(some_run(draw, "cryptd", draw.randrange(1, 13), BOTH, bound=bound, is_shared=number % 10 == 9))
    return runs


# directions, and the masks of both: of all four processors, of one, of some, of none
PLANS = [(("enc",), ("f", "f")), (("dec",), ("f", "f")), (BOTH, ("f", "f")), (("enc",), ("1", "1")), (("dec",), ("6", "6")),
         (BOTH, ("c", "3")), (("enc",), ("0", "0")), (("dec",), ("0", "0")), (BOTH, ("0", "f")), (BOTH, ("f", "0"))]


def pcrypt_runs(seed, count):
    runs = []
    for number in range(count):
        directions, masks = PLANS[number % len(PLANS)]
        runs.append(some_run(random.Random(f"{seed} pcrypt {number}"), "pcrypt", 60, directions, masks=masks))
    return runs


def some_run(draw, wrap, count, directions, **more):
    form = draw.choice(forms.TAGGED)
    key = forms.good_key(draw, form)
    tag = draw.choice(form.plan().tags)
    requests = [some_request(draw, form, key, tag, draw.choice(directions), "bound" in more) for _ in range(count)]
    return AeadRun(form, wrap, key, tag, tuple(requests), **more)


def some_request(draw, form, key, tag, direction, may_wait):
    plan = form.plan()
    iv = draw.randbytes(plan.iv)
    if plan.word == "ccm":
        iv = bytes([draw.randrange(1, 8)]) + iv[1:]
    aad = draw.randbytes(draw.choice([16, 20, 20, 16, 8]))
    text = draw.randbytes(draw.choice([0, 16, 32, 33, 160, draw.randrange(400)]))
    if direction == "dec":
        try:
            text = plan.value(key, tag, "enc", iv, aad, text)
        except forms.settled.Refused:
            text += bytes(tag)
        if draw.random() < 0.2:
            text = text[:-1] + bytes([text[-1] ^ 1])
    return Request(direction, may_wait and draw.random() < 0.6, iv, aad, text)
