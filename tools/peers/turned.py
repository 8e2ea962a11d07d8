"""Changes of a program's answers, by which it is seen that a wrong program is found."""
from peers.script import value_of


def places_of_values(answers):
    return [place for place, answer in enumerate(answers) if value_of(answer)]


def with_other_byte(answers):
    """The last byte of the last value is another one."""
    places = places_of_values(answers)
    if places:
        answer = answers[places[-1]]
        answers[places[-1]] = answer[:-2] + f"{int(answer[-2:], 16) ^ 1:02x}"
    return answers


def in_other_order(answers):
    """The last two values are told in the other order."""
    places = places_of_values(answers)
    if len(places) > 1:
        first, second = places[-2:]
        answers[first], answers[second] = answers[second], answers[first]
    return answers


def accepting(answers):
    """A tag that is wrong is taken for right, and its text handed out."""
    return [answer.replace("fail EBADMSG", "done 00").replace(" EBADMSG", " ok 00") for answer in answers]


def refusing(answers):
    """The last value is refused."""
    places = places_of_values(answers)
    if places:
        number, word, _ = answers[places[-1]].split()
        answers[places[-1]] = f"{number} {'fail ' if word == 'done' else ''}EBADMSG"
    return answers


WITHOUT_TAGS = {"another byte": with_other_byte, "another order": in_other_order, "a value refused": refusing}
ALL = WITHOUT_TAGS | {"every tag accepted": accepting}
