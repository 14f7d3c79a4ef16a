"""`.DEFAULT_GOAL` with an empty value: for make the first target behind it is the goal then, for kati the first of
all."""
from .mender import Mender

NAME = ".DEFAULT_GOAL"


class DefaultGoal(Mender):
    """The goal that make takes where none is asked for, as far as kati would take another one."""

    def __init__(self, port):
        super().__init__(port)
        self.goal = None

    def lines(self):
        """The lines that assign it."""
        return [line for line in self.port.lines() if (line.assignment() or ("",))[0] == NAME]

    def texts(self):
        """It, and the values that lines give it."""
        found = [line.assignment()[2] for line in self.lines()]
        return [f"$({NAME})", *found] if found else []

    def begin(self):
        """Gives kati the goal, where the last of these values is empty."""
        read = [line.assignment()[2] for line in self.lines() if self.port.probes.read.is_read(line)]
        if read:
            goal, value = self.port.run.values([f"$({NAME})", read[-1]])
            self.goal = goal if goal and len(goal.split()) == 1 and not (value or "").strip() else None

    def end(self):
        """Counts what was done."""
        if self.goal:
            self.port.tell("default goal")

    def tail(self):
        """What kati gets at the end of the makefile."""
        goal = (self.goal or "").replace("$", "$$").replace("#", "\\#")
        return [f"{NAME} = {goal}"] if goal else []
