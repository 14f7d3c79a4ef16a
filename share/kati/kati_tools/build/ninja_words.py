"""The words of ninja's command line: what it is to make, and how many commands it runs at once."""
import re

# Options with a word, joined to them or behind them; those by which ninja makes nothing, or by another file.
WITH_WORD, OTHERS = "Cfjkldtw", "Cfnth"
LONG_OTHERS = ("--help", "--version")


def options(words):
    """The options of a command line, each a letter or a long name with its word or None; and a target as an option of
    no letter."""
    left = list(words)
    while left:
        word = left.pop(0)
        if word == "--":
            yield from (("", target) for target in left)
            return
        if word.startswith("--") or not word.startswith("-") or word == "-":
            yield (word, None) if word.startswith("--") else ("", word)
            continue
        for at, letter in enumerate(word[1:], 2):
            if letter in WITH_WORD:
                yield letter, word[at:] or (left.pop(0) if left else None)
                break
            yield letter, None


def targets(words):
    """The targets that these words have ninja make, which are none where it is to make the defaults; None where it
    makes nothing by them, or by another file than its own."""
    found = list(options(words))
    if any(name in LONG_OTHERS or name and name in OTHERS or word == "list" for name, word in found):
        return None
    return [word for name, word in found if not name]


def jobs(words):
    """How many commands these words have ninja run at once, 0 for any number; None where they don't say it."""
    found = [word for name, word in options(words) if name == "j"]
    return int(found[-1]) if found and re.fullmatch("[0-9]+", found[-1] or "") else None
