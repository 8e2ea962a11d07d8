"""Whether two answers agree, differ by choice, or differ. A choice has a rule that no wrong value passes."""
from case import CHAIN, MIDDLE_KEY, OTHER_TEXT, REFUSED_KEY, REFUSED_NAME, TAKEN_NAME

AGREE, DIFFER = "agree", "differ"
REFUSALS = ("ENOENT", "EINVAL", "ENAMETOOLONG")


def keeps_the_earlier_key(case, ours, kernel, companion):
    """Both refuse the key. The value is the kernel's under the earlier one alone, and there none is left, or that one."""
    refused = ours.keys == kernel.keys and ours.keys[-1] == "EINVAL" and ours.tags == kernel.tags
    kept = companion.keys == ("ok",) and ours.tags == companion.tags and ours.value == companion.value
    return refused and kept and kernel.value == (ours.value if case.is_refused_by_length() else "ENOKEY")


def takes_no_middle_key(case, ours, kernel, companion):
    return ours.keys == ("EINVAL",) and ours.value == "ENOKEY" and kernel.keys == ("ok",) and ours.tags == kernel.tags


def is_as_its_form(case, ours, kernel, companion):
    """The kernel refuses the text, and the whole answer is the kernel's for the driver that the text leads to here."""
    return kernel.name in REFUSALS and ours.name == "ok" and ours == companion


def is_refused_with_its_cause(case, ours, kernel, companion):
    return ours.name == case.refusal and kernel.name in REFUSALS


def is_refused_here(case, ours, kernel, companion):
    return ours.name == case.refusal and kernel.name == "ok"


RULES = {
    REFUSED_KEY: keeps_the_earlier_key,
    MIDDLE_KEY: takes_no_middle_key,
    CHAIN: is_as_its_form,
    OTHER_TEXT: is_as_its_form,
    REFUSED_NAME: is_refused_with_its_cause,
    TAKEN_NAME: is_refused_here,
}


def judged(case, ours, kernel, companion):
    """AGREE, the choice by which they differ, or DIFFER. A case of a choice must be as its rule says."""
    if not case.choice:
        return AGREE if ours == kernel else DIFFER
    if not RULES[case.choice](case, ours, kernel, companion):
        return DIFFER
    return AGREE if ours == kernel else case.choice
