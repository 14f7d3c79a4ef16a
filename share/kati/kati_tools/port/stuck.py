"""What ends a port without a makefile that kati takes."""
import re

from ..build import translating

# What make says where a file isn't there that a configure would write.
LACKS = re.compile(r"No rule to make target|No such file|No targets")


class Stuck(Exception):
    """Ends a port: nothing is known that mends what kati says."""

    # The program that has the fault.
    whose = "kati"

    def __init__(self, words, fault=None):
        super().__init__(words)
        self.fault = fault


class MakeFails(Stuck):
    """Ends a port: make itself has a fault, perhaps for want of what is to be run before."""

    whose = "make"

    def __init__(self, status, said):
        hint = translating.what_to_run() if LACKS.search(said) else None
        super().__init__(f"make itself ends with status {status}: {last_line(said)}"
                         + (f"\n{hint}, if that isn't done" if hint else ""))


class OtherShell(Stuck):
    """Ends a port: lines of recipes would run."""

    whose = "the port"


def last_line(text):
    """The last line of a text that isn't empty."""
    lines = [line for line in text.split("\n") if line.strip()]
    return lines[-1] if lines else ""
