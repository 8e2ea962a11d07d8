"""One case: a transform with keys, tag sizes and a request, as lines of the script and as a line of the guest's list."""
import dataclasses

from forms import Form

# ---- how the kernel differs by choice; judge.py has the rule of each

REFUSED_KEY = "a refused key after a good one: no key is left in the kernel, here the earlier one stays"
MIDDLE_KEY = "XTS under 48 bytes of key: taken by the kernel, refused here"
CHAIN = "cryptd(pcrypt(X)): refused by the kernel, a chain here"
OTHER_TEXT = "a template's text that is neither name nor driver of what it makes: ENOENT of the kernel, found here"
REFUSED_NAME = "a name whose building fails: ENOENT of the kernel, its cause here"
TAKEN_NAME = "a MAC that is no HMAC, or a wrapper below the root: taken by the kernel, refused here"


@dataclasses.dataclass(frozen=True)
class Case:
    """`name` is asked for in the script, `asked` of the kernel. `cut` are the lengths of the text's parts."""

    form: Form
    name: str
    asked: str
    keys: tuple = ()
    tags: tuple = ()
    direction: str = "enc"
    iv: bytes = b""
    aad: bytes = b""
    text: bytes = b""
    cut: tuple = ()
    choice: str = ""
    # the key that holds, by which a refused one is judged
    held: bytes = b""
    # what the script answers to a name that is refused
    refusal: str = ""

    def lines(self):
        """Its lines of the script."""
        if self.form.word == "aes":
            return [f"aes {shown(self.keys[0])} {shown(self.text)}"]
        lines = [f"alloc t {self.name}"]
        lines += [f"key t {shown(key)}" for key in self.keys]
        lines += [f"authsize t {size}" for size in self.tags]
        bytes_before = "" if self.direction == "mac" else f"{shown(self.iv)} {shown(self.aad)} "
        return lines + [f"{self.direction} t {bytes_before}{self.cut_text()}", "drain t", "free t"]

    def ask(self):
        """Its line of the guest's list."""
        keys = ",".join(map(shown, self.keys)) or "none"
        tags = ",".join(map(str, self.tags)) or "none"
        words = [self.form.kind, self.asked, keys, tags, self.direction, shown(self.iv), shown(self.aad), self.cut_text()]
        return f"ask {' '.join(words)}"

    def cut_text(self):
        if not self.cut:
            return shown(self.text)
        parts, at = [], 0
        for length in self.cut:
            parts.append(self.text[at : at + length].hex())
            at += length
        return "|".join(parts)

    def has_equal_halves(self):
        """Whether both keys of an XTS are the same, which OpenSSL takes for a mistake."""
        return self.form.word == "xts" and any(key[: len(key) // 2] == key[len(key) // 2 :] != b"" for key in self.keys)

    def is_refused_by_length(self):
        """Whether the last key is shorter or longer than any of a cipher mode's: the kernel drops no key for that."""
        plan = self.form.plan()
        taken = [length for length in range(100) if plan.takes_key(bytes(length))]
        return self.form.kind == "skcipher" and not min(taken) <= len(self.keys[-1]) <= max(taken)

    def companion(self):
        """What the kernel is asked besides, where it differs by choice: the same transform, in a way that it takes."""
        if self.choice == REFUSED_KEY:
            return dataclasses.replace(self, keys=(self.held,))
        if self.choice in (CHAIN, OTHER_TEXT):
            return dataclasses.replace(self, asked=self.form.kernel)
        return None


def shown(data):
    return data.hex() or "-"


@dataclasses.dataclass(frozen=True)
class Answer:
    """What came of the name, of each key and tag size, and of the request: `ok`, digits, or an error number's name."""

    name: str
    keys: tuple = ()
    tags: tuple = ()
    value: str = ""


def kernel_answer(text):
    words = text.split(" ")
    if words[0] != "ok":
        return Answer(words[0])
    keys, tags = ("" if word == "none" else word for word in words[1:3])
    return Answer("ok", tuple(filter(None, keys.split(","))), tuple(filter(None, tags.split(","))), words[3])


def by_line(text):
    """The program's last answer of each line: a callback stands for the line that it is about."""
    answers = {}
    for line in text.splitlines():
        number, _, answer = line.partition(" ")
        if answer != "started":
            answers[number] = answer
    return answers


def program_answer(case, answers, first):
    """Of a case whose lines begin with this number."""

    def at(offset):
        return answers.get(str(first + offset), "nothing")

    if case.form.word == "aes":
        taken = at(0) != "EINVAL"
        return Answer("ok", ("ok" if taken else "EINVAL",), (), value_of(at(0)) if taken else "ENOKEY")
    if not at(0).startswith("ok "):
        return Answer(at(0))
    count, tags = len(case.keys), len(case.tags)
    keys = tuple(at(1 + key) for key in range(count))
    sizes = tuple(at(1 + count + size) for size in range(tags))
    if at(3 + count + tags) != "ok":
        return Answer("ok", keys, sizes, f"not freed: {at(3 + count + tags)}")
    return Answer("ok", keys, sizes, value_of(at(1 + count + tags)))


def value_of(answer):
    """The digits or the error number of an answer, be it at once or by a callback."""
    return answer.removeprefix("ok ").removeprefix("done ").removeprefix("fail ")
