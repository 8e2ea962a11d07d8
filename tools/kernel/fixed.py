"""Cases that stand in every list: names that one of both refuses, and texts that are neither name nor driver."""
import random

import forms
from case import OTHER_TEXT, REFUSED_NAME, TAKEN_NAME, Case

# by the type of AF_ALG, and what the script answers (docs/LANGUAGE.md, Algorithms and their names)
REFUSED = {
    ("skcipher", "ENOENT"): "des cbc(des) nothing(aes) pcrypt CBC(aes)",
    ("skcipher", "EINVAL"): """cbc(aes cbc() (aes) cbc((aes)) cbc(aes)) cbc(aes), cbc(aes,aes) cbc(sha256) ctr(ghash) xts(sha256)
        rfc3686(cbc(aes)) cbc(pcrypt) cryptd(aes) pcrypt(cbc(aes))""",
    ("hash", "EINVAL"): "hmac(aes) cmac(sha256) pcrypt(hmac(sha256))",
    ("aead", "ENOENT"): "authenc(hmac(sha256),cbc(des))",
    ("aead", "EINVAL"): """gcm(ghash) gcm_base(ctr(aes)) gcm_base(cbc(aes),ghash) gcm_base(ctr(aes),aes) ccm(sha256)
        rfc4106(cbc(aes)) rfc4106(gcm(aes),aes) authenc(hmac(sha256)) authenc(hmac(sha256),gcm(aes))
        authenc(cbc(aes),hmac(sha256))""",
}
GCM = "gcm_base(ctr(aes-generic),ghash-generic)"
TAKEN = {
    "skcipher": "rfc3686(cryptd(ctr(aes-generic)))",
    "aead": f"""authenc(cmac(aes),cbc(aes)) authenc(sha256,cbc(aes)) pcrypt(pcrypt({GCM})) rfc4106(cryptd({GCM}))
        authenc(hmac(sha256-generic),cryptd(cbc(aes-generic)))""",
}
# neither an algorithm's name nor a driver
MIXED = {
    "rfc3686": "rfc3686(ctr(aes-generic))",
    "gcm": "gcm_base(ctr(aes),ghash)",
    "rfc4106": "rfc4106(gcm_base(ctr(aes),ghash))",
}


def refused_names():
    cases = []
    for (kind, refusal), names in REFUSED.items():
        cases += [Case(form_of(kind), name, name, choice=REFUSED_NAME, refusal=refusal) for name in names.split()]
    for kind, names in TAKEN.items():
        cases += [Case(form_of(kind), name, name, choice=TAKEN_NAME, refusal="EINVAL") for name in names.split()]
    return cases


def form_of(kind):
    return next(form for form in forms.FORMS if form.kind == kind)


def other_texts(seed):
    """Texts of what both make: wrapped names in terms of algorithms, and names that mix both terms."""
    draw = random.Random(f"{seed} texts")
    cases = [some_request(draw, form, f"cryptd({form.name})") for form in forms.FORMS]
    cases += [some_request(draw, form, f"pcrypt({form.name})") for form in forms.TAGGED]
    cases += [some_request(draw, form, MIXED[form.word]) for form in forms.FORMS if form.word in MIXED]
    # some are the driver there
    return [case for case in cases if case.name != case.form.kernel]


def some_request(draw, form, text):
    iv = draw.randbytes(form.plan().iv)
    if form.word == "ccm":
        iv = b"\3" + iv[1:]
    aad = draw.randbytes(16) if form.kind == "aead" else b""
    direction = "mac" if form.kind == "hash" else "enc"
    key = forms.good_key(draw, form)
    return Case(form, text, text, (key,), (), direction, iv, aad, draw.randbytes(48), choice=OTHER_TEXT)

