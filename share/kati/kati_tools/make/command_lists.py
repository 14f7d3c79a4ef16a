"""Two lists of commands beside each other: which stand in one alone, and which differ in blanks alone."""
from collections import Counter

from .shell_reading import with_single_blanks


def alone(lines, others):
    """The lines that stand in the first list more often than in the second, in their order."""
    left, found = Counter(others), []
    for line in lines:
        if left[line]:
            left[line] -= 1
        else:
            found.append(line)
    return found


class Compared:
    """The commands of make and of kati: `makes` and `katis` are those of one alone, `count` how many kati has.

    `besides` has what make prints that is no command of the goals: how it makes what it includes, and messages. Such a
    line counts where kati has it too, since then the goals need it."""

    def __init__(self, by_make, besides, by_kati):
        makes, katis = alone(alone(by_make, by_kati), besides), alone(by_kati, by_make)
        blank_makes, blank_katis = ([with_single_blanks(line) for line in lines] for lines in (makes, katis))
        self.makes = self.among(makes, alone(blank_makes, blank_katis))
        self.katis = self.among(katis, alone(blank_katis, blank_makes))
        self.in_blanks = len(katis) - len(self.katis)
        self.count = len(by_kati)
        self.is_same = not self.makes and not self.katis

    @staticmethod
    def among(lines, wanted):
        """The lines of which these are the forms with single blanks, each as often."""
        left, found = Counter(wanted), []
        for line in reversed(lines):
            form = with_single_blanks(line)
            if left[form]:
                left[form] -= 1
                found.append(line)
        return found[::-1]
