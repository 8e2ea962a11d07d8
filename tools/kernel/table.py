"""The kernel's drivers and priorities beside those here."""
import forms

BASE = ["aes", "sha256", "ghash"]
# where the two give a driver another text
OTHER_DRIVERS = "drivers of xts, ccm, and what stands on them: other texts"


def asks():
    """Has the kernel build each form, and then each under a wrapper, whose making takes others off the list."""
    lines = [ask(form, form.name) for form in forms.FORMS] + ["rows"]
    for form in forms.FORMS:
        for wrap in wraps(form):
            lines += [ask(form, f"{wrap}({form.kernel})"), "rows"]
    return lines


def ask(form, name):
    return f"ask {form.kind} {name} none none {'mac' if form.kind == 'hash' else 'enc'} - - -"


def wraps(form):
    return ["pcrypt", "cryptd"] if form.kind == "aead" else ["cryptd"]


def script():
    """The same as a script: all plain ones first, so that names lead to them."""
    plain = [form.name for form in forms.FORMS]
    wrapped = [f"{wrap}({form.over('aes-generic', 'ghash-generic')})" for form in forms.FORMS for wrap in wraps(form)]
    return "\n".join(f"alloc t{number} {name}" for number, name in enumerate(plain + wrapped)) + "\nlist\n"


def kernel_rows(answers):
    """Priorities by name and driver, of all times that they were asked for."""
    rows = {}
    for answer in answers:
        for row in answer.split():
            if row.count(":") == 2:
                name, driver, priority = row.split(":")
                rows[name, driver] = priority
    return rows


def program_rows(text):
    lines = (line.split()[1:] for line in text.splitlines())
    return {(words[1], words[2]): words[3] for words in lines if words[:1] == ["alg"]}


def compared(kernel, ours):
    """Each name with the driver and the priority of both, and whether they are alike."""
    rows = [(name, f"{name}-generic", f"{name}-generic") for name in BASE]
    for form in forms.FORMS:
        here = form.over("aes-generic", "ghash-generic")
        rows.append((form.name, form.kernel, here))
        rows += [(form.name, f"{wrap}({form.kernel})", f"{wrap}({here})") for wrap in wraps(form)]
    for name, there, here in rows:
        yield name, there, kernel.get((name, there), "none"), here, ours.get((name, here), "none")


def print_table(kernel, ours):
    print("| name | driver in the kernel | priority | driver here | priority |\n|---|---|---|---|---|")
    for name, there, priority, here, own in compared(kernel, ours):
        print(f"| {name} | {there} | {priority} | {here if here != there else 'the same'} | {own} |")


def judged(kernel, ours):
    """Of each row whether it is the same, differs by its driver's text alone, or differs."""
    for _, there, priority, here, own in compared(kernel, ours):
        if priority == "none" or priority != own:
            yield "differ", f"{there} {priority}, here {here} {own}"
        else:
            yield ("agree" if here == there else OTHER_DRIVERS), here
