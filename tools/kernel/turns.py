"""How rules of the second program, which tools/check-settled is, are turned one at a time."""


def into(turns):
    """What marks a function as one of these: a change to a copy of the second program."""

    def turn(change):
        turns.append(change)
        return change

    return turn


def around(of, name, wrap):
    """Has a function of the second program called by another one."""
    old = getattr(of, name)
    setattr(of, name, lambda *words: wrap(old, *words))


def change_value(settled, word, change):
    """Has the value of a transform of this word come of other words."""

    def value(old, plan, *words):
        return old(plan, *(change(*words) if plan.word == word else words))

    around(settled.Plan, "value", value)
