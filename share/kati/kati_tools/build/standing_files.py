"""The files that exist before a first build: which of them ninja rebuilds, and how many stay as they are.

A file is rebuilt by ninja's own rules: where one of its inputs is rebuilt or newer, where another output is absent, or
where ninja's log has no line for it and its statement wants one. A file that is made at each run, as by make, doesn't
count; what is made from it is rebuilt only if it changes then, which isn't known before."""
import os
from typing import NamedTuple

from . import top_file

MOST_NAMES = 10


class State(NamedTuple):
    """Whether ninja makes a file, and the file's time, 0 without a file; whether it has what hangs on it made each
    time."""
    is_made: bool
    time: int
    is_forced: bool = False


def time_of(name):
    """The time of a file; 0 where it isn't there."""
    try:
        return os.stat(name).st_mtime_ns
    except OSError:
        return 0


def in_order(graph, goals):
    """The statements that goals need, each behind those that it needs."""
    by_output = {top_file.plain_name(name): one for one in graph.statements for name in one.outputs}
    left = [(by_output.get(top_file.plain_name(name)), False) for name in reversed(goals)]
    seen, found = set(), []
    while left:
        one, is_behind = left.pop()
        if is_behind:
            found.append(one)
        elif one is not None and one.line not in seen:
            seen.add(one.line)
            left.append((one, True))
            left += [(by_output.get(top_file.plain_name(name)), False) for name in reversed(one.needs)]
    return found


class Standing:
    """The files that exist of what the goals of a `Graph` need, or else its default ones: `kept` is the number of those
    that stay, and `rebuilt` are the names of the others.
    `taken` has the lines of ninja's log by an output. What ninja has `built` itself doesn't count, nor the files of
    kati-build's own folder `own`."""

    def __init__(self, graph, goals, taken, built, own):
        self.graph, self.taken, self.built, self.own = graph, taken, built, own + os.sep
        self.states, self.kept, self.rebuilt = {}, 0, []
        # ninja makes includes first, whatever the goals need.
        includes = [name for one in graph.statements if self.is_include(one) for name in one.outputs]
        for one in in_order(graph, [*includes, *(goals or graph.goals)]):
            self.take(one)

    def is_include(self, one):
        """Whether a statement is an include's, which is a phony target made from its link."""
        return one.command is None and any(name.startswith(self.own) for name in one.counting[:1])

    def state(self, name):
        """The state of a file that a statement needs."""
        found = self.states.get(top_file.plain_name(name))
        return State(False, time_of(name)) if found is None else found

    def take(self, one):
        """Takes in a statement, behind those that it needs."""
        inputs = list(map(self.state, one.counting))
        newest = max((state.time for state in inputs), default=0)
        is_made = any(state.is_made for state in inputs)
        times = [time_of(name) for name in one.outputs]
        is_forced = any(state.is_forced for state in inputs)
        if one.command is None:
            is_forced = is_forced or not inputs and 0 in times
            states = [State(is_made, time or newest, is_forced) for time in times]
        else:
            is_made = is_made or 0 in times or min(times) < newest or self.wants_line(one, times)
            states = [State(is_made and (not is_forced or 0 in times), time) for time in times]
        self.states.update(zip(map(top_file.plain_name, one.outputs), states))
        name = one.counting[0] if self.is_include(one) else one.outputs[0]
        is_of_a_file = one.command is not None and not is_forced
        if (is_of_a_file or self.is_include(one)) and top_file.plain_name(name) not in self.built:
            self.count([name for name, time in zip(one.outputs, times) if time], is_made)

    def count(self, names, is_made):
        """Counts files that exist."""
        names = [name for name in names if not name.startswith(self.own)]
        if is_made:
            self.rebuilt += names
        else:
            self.kept += len(names)

    def wants_line(self, one, times):
        """Whether ninja makes a statement for what its log lacks, or by what header dependencies say."""
        variables = self.graph.variables[one.line]
        line = self.taken.get(top_file.plain_name(one.outputs[0]))
        if variables.get("depfile") and not variables.get("deps") and not os.path.exists(variables["depfile"]):
            return True
        if top_file.plain_name(one.outputs[0]) in self.built:
            return False
        if line is None:
            return not variables.get("generator") or "deps" in variables
        return any(not time or time > min(times) for time in map(time_of, line.headers or ()))

    def lines(self):
        """What to say of them, in lines."""
        if self.kept:
            yield f"files that exist and stay as they are: {self.kept}"
        if self.rebuilt:
            more = len(self.rebuilt) - MOST_NAMES
            names = ", ".join(self.rebuilt[:MOST_NAMES]) + (f" and {more} more" if more > 0 else "")
            yield f"files that exist and are rebuilt: {names}"
