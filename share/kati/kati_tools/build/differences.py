"""What differs between commands of make's and of kati's, told in a line for all commands that differ in the same."""
from typing import NamedTuple

# Lines, and letters of a text in one; and among how many commands the one is looked for that another goes with.
MOST, WIDTH, NEAR = 5, 72, 20


class Difference(NamedTuple):
    """The words that a command of make's has where one of kati's has others, and a command as an example; None where
    only the other has such a command."""

    makes: str
    katis: str
    example: str


def common(first, second):
    """How many words two lists have in common at their beginning."""
    return next((at for at, (one, other) in enumerate(zip(first, second)) if one != other),
                min(len(first), len(second)))


def middles(first, second):
    """The words of two lists between those that both have at their beginning and at their end."""
    start = common(first, second)
    end = common(first[start:][::-1], second[start:][::-1])
    return first[start:len(first) - end], second[start:len(second) - end]


def unlike(first, second):
    """How many of the words of two commands aren't in common, of as many; 1 where none is."""
    count = len(first) + len(second)
    return sum(map(len, middles(first, second))) / count


def paired(makes, katis):
    """The commands that go with each other, as those that are alike, and those that stand alone."""
    left = [line.split(" ") for line in katis]
    for make in makes:
        words = make.split(" ")
        best = min(left[:NEAR], key=lambda other: unlike(words, other), default=None)
        if best is None or unlike(words, best) > 0.7:
            yield Difference(make, None, make)
        else:
            left.remove(best)
            yield Difference(*map(" ".join, middles(words, best)), make)
    yield from (Difference(None, kati, kati) for kati in map(" ".join, left))


def shortened(text):
    """A text on a line, of which the middle is left out where it is long."""
    text = text.replace("\n", "\\n")
    half = (WIDTH - 4) // 2
    return text if len(text) <= WIDTH else f"{text[:half]} .. {text[-half:]}"


def told(difference, count):
    """The line for a difference that so many commands have."""
    times = f" ({count} times)" if count > 1 else ""
    if difference.katis is None:
        return f"make's alone{times}: {shortened(difference.makes)}"
    if difference.makes is None:
        return f"kati's alone{times}: {shortened(difference.katis)}"
    makes, katis = shortened(difference.makes), shortened(difference.katis)
    return f"make has [{makes}], kati [{katis}]{times}: {shortened(difference.example)}"


def lines(makes, katis):
    """A line for each difference, those that most commands have first, up to so many."""
    found = {}
    for one in paired(makes, katis):
        found.setdefault((one.makes, one.katis), []).append(one)
    ordered = sorted(found.values(), key=len, reverse=True)
    yield from (told(alike[0], len(alike)) for alike in ordered[:MOST])
    if len(ordered) > MOST:
        yield f"and {len(ordered) - MOST} other differences"
