"""The second program with one rule turned at a time: each must be found by what the kernel answers."""
import forms
import turned_rules
import turned_values

TURNS = turned_values.TURNS + turned_rules.TURNS


def name_of(change):
    return change.__name__.replace("_", " ")


def answers(change, text):
    """What the second program prints once this is changed, or as it is."""
    settled = forms.load_settled()
    if change:
        change(settled)
    script = settled.Script()
    for line in settled.lines_of(text):
        script.line(line)
    return script.end()
