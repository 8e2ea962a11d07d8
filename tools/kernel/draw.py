"""Random cases, the same for the same seed."""
import hmac as hmacs
import random

import forms
from case import CHAIN, MIDDLE_KEY, REFUSED_KEY, Case
from forms import settled


def some_cases(seed, count):
    return [some_case(random.Random(f"{seed} {number}")) for number in range(count)]


def some_case(draw):
    if draw.random() < 0.02:
        return some_block(draw)
    form = draw.choice(forms.FORMS)
    name, asked, choice = some_name(draw, form)
    keys, held, choice = some_keys(draw, form, choice)
    tags, tag = some_tags(draw, form)
    iv, aad = some_iv_for(draw, form), forms.some_aad(draw, form)
    direction = "mac" if form.kind == "hash" else draw.choice(["enc", "dec"])
    text = draw.randbytes(forms.some_length(draw, form))
    if direction == "dec" and form.kind == "aead" and held is not None:
        text = some_sealed(draw, form, held, tag, iv, aad, text)
    return Case(form, name, asked, keys, tags, direction, iv, aad, text, some_cut(draw, text), choice, held or b"")


def some_block(draw):
    key = forms.good_key(draw, forms.CIPHERS[0]) if draw.random() < 0.8 else forms.bad_key(draw, forms.BLOCK)
    return Case(forms.BLOCK, "aes", draw.choice(["ecb(aes)", "ecb(aes-generic)"]), (key,), text=draw.randbytes(16))


def some_name(draw, form):
    """What is asked for here and there. The kernel finds what is under a wrapper by its driver alone."""
    driver = form.over(draw.choice(forms.AES), draw.choice(forms.GHASH))
    name = draw.choice([form.name, driver])
    wrap = draw.choice(["", "", "", "cryptd", "cryptd", "pcrypt", "pcrypt", "chain" if draw.random() < 0.5 else ""])
    if wrap in ("pcrypt", "chain") and form.kind != "aead":
        wrap = "cryptd"
    if wrap == "chain":
        return f"cryptd(pcrypt({name}))", f"cryptd(pcrypt({form.kernel}))", CHAIN
    if wrap:
        return f"{wrap}({name})", f"{wrap}({form.kernel})", ""
    return name, draw.choice([form.name, form.kernel]), ""


def some_keys(draw, form, choice):
    """Keys that are set one after the other, which one holds, and the choice that shows."""
    good = forms.good_key(draw, form)
    what = draw.random()
    if what < 0.8 or form.word == "hmac":
        return (good,), good, choice
    if what < 0.83:
        return (), None, choice
    if what < 0.88:
        return (forms.bad_key(draw, form),), None, choice
    if what < 0.92:
        return (forms.bad_key(draw, form), good), good, choice
    if what < 0.95 or choice:
        return (forms.good_key(draw, form), good), good, choice
    if "xts(" in form.name and what < 0.97:
        middle = draw.randbytes(48)
        return (forms.blob(draw.randbytes(20), middle) if form.word == "authenc" else middle,), None, MIDDLE_KEY
    return (good, forms.bad_key(draw, form)), good, REFUSED_KEY


def some_tags(draw, form):
    """Tag sizes that are set one after the other, and the one that holds."""
    sizes = form.plan().tags
    if not sizes:
        return (), 0
    if draw.random() < 0.3:
        return (), sizes[0]
    count = draw.choice([1, 1, 1, 2])
    tags = tuple(draw.choice(sizes) if draw.random() < 0.85 else draw.randrange(36) for _ in range(count))
    return tags, ([sizes[0]] + [size for size in tags if size in sizes])[-1]


def some_iv_for(draw, form):
    return b"" if form.kind == "hash" else forms.some_iv(draw, form)


def some_sealed(draw, form, key, tag, iv, aad, text):
    """What opens to a text, or has a wrong bit, or is too short for its tag."""
    plan = form.plan()
    what = draw.random()
    if what < 0.05:
        return text[: draw.randrange(tag)]
    if not plan.takes(tag, "enc", iv, aad, text):
        return text + bytes(tag)
    try:
        sealed = plan.value(key, tag, "enc", iv, aad, text)
    except settled.Refused:
        sealed = text + bytes(tag)
        if form.word == "authenc":
            # no whole blocks, or too few bytes, under a tag that is right
            sealed = text + hmacs.digest(settled.keys_in(key)[0], aad + text, "sha256")[:tag]
    if what < 0.25 and sealed:
        at = draw.randrange(len(sealed)) if draw.random() < 0.5 else len(sealed) - 1 - draw.randrange(tag)
        sealed = sealed[:at] + bytes([sealed[at] ^ 1 << draw.randrange(8)]) + sealed[at + 1 :]
    return sealed


def some_cut(draw, text):
    """The lengths of a text's parts, or nothing where it is in one."""
    if len(text) < 2 or draw.random() < 0.6:
        return ()
    count = min(draw.choice([2, 2, 3, 3, 4, 7, 16]), len(text))
    cuts = [0, *sorted(draw.sample(range(1, len(text)), count - 1)), len(text)]
    return tuple(end - begin for begin, end in zip(cuts, cuts[1:]))
