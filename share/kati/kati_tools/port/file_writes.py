"""`$(file >NAME,TEXT)` in recipes: for kati the recipe's own shell writes the file.

make writes it where it expands the recipe, before the first line runs. So the text for the shell is put before all else
of its line. What isn't a line of a recipe, or stands within other functions than a loop, stays for make alone: kati
writes nothing there, and this is told."""
import re

from ..build import calls_of_recipes
from ..makefile import references, statements
from ..makefile.forms import refused_function
from ..makefile.syntax import Kind, joined
from . import frozen_values
from .make_probes import TARGET, is_in, is_numbered
from .mender import Mender

MARKS = re.compile(r"[\t @+-]*")


def written(call):
    """The parts of a call that writes: `>` or `>>`, the name, and the text, None where there is none; None of another
    call."""
    found = references.only(call.text())
    if found is None or found.function != "file":
        return None
    spans, whole = found.spans(), found.whole
    mark = re.match(r"[ \t]*(>>?)", whole[spans[0][0]:spans[0][1]])
    if mark is None:
        return None
    name = whole[spans[0][0] + mark.end():spans[0][1]].strip()
    return mark.group(1), name, whole[spans[1][0]:found.inside[1]] if spans[1:] else None


def for_shell(mark, name, text):
    """The text by which a shell writes it, of a form by which the name is found again."""
    prints = ":" if text is None else f"printf '%s\\n' '$(subst ','\\'',{joined(text)})'"
    return calls_of_recipes.WRITES.format(prints=prints, mark=mark, name=joined(name))


def is_loop_of(line, outer, call):
    """Whether a reference is a loop whose body is a call and nothing else."""
    found = references.only(line.text[slice(*outer)])
    body = found.arguments()[2:] if found is not None and found.function == "foreach" else []
    return len(body) == 1 and body[0].strip() == call.text()


def katis_text(call):
    """What kati has in the place of the outermost reference round a call; None where nothing is known."""
    line, parts = call.line, written(call)
    texts = [parts[1], parts[2] or ""]
    has_others = any(is_in(lambda one: refused_function(one) or is_numbered(one), text) for text in texts)
    if has_others or "'" in parts[1] or len(call.chain) > 2:
        return None
    katis = for_shell(*parts)
    if len(call.chain) == 1:
        return katis
    outer, (start, end) = call.chain[-1], call.chain[0]
    if not is_loop_of(line, outer, call):
        return None
    return joined(line.text[outer[0]:start]) + katis + joined(line.text[end:outer[1]])


def recipe_at(call):
    """Where the line of a recipe begins in which a call stands, in the line of the makefile; None of another call."""
    line = call.line
    if line.is_tab:
        return 0
    rule = statements.Rule(line.text) if line.kind is Kind.RULE and not line.is_body else None
    is_behind = rule is not None and rule.recipe is not None and rule.end < call.chain[-1][0]
    return rule.end + 1 if is_behind else None


def put_first(line, begin, span, reference, edits):
    """Has a reference stand where a recipe's line begins, behind what stood there, in the place of what stands at a
    place of it."""
    at = MARKS.match(line.text, begin).end()
    first = next((one for one in edits if one[0] == at), None)
    if span[0] == at:
        # What is behind it may have marks of its own, as in `$(file >x,y)@:`.
        marks = MARKS.match(line.text, span[1])
        edits[span] = marks.group().replace(" ", "").replace("\t", "") + reference
        if marks.group():
            edits[marks.span()] = ""
    elif first is None:
        edits[at, at] = reference
        edits[span] = ""
    else:
        edits[first] += reference
        edits[span] = ""


class FileWrites(Mender):
    """The calls of a port that write files; `left` are those that kati has nothing for."""

    def __init__(self, port):
        super().__init__(port)
        self.left = []

    def by_shell(self, call, edits):
        """Has the recipe's shell write the file of a call; answers whether it is such a call of a recipe's line."""
        if written(call) is None:
            return False
        begin = recipe_at(call)
        katis = None if begin is None else katis_text(call)
        if katis is None:
            self.left.append(call)
            return False
        span = call.chain[-1]
        makes = joined(call.line.text[slice(*span)])
        name = self.port.values.add(call.line, "file", makes, katis, frozen_values.FOR_SHELL, True)
        put_first(call.line, begin, span, f"$({name})", edits)
        self.port.freezer.handed.add(call)
        return True

    def differences(self):
        """A line for each call that make comes to in a recipe, and for which kati writes nothing."""
        for call in dict.fromkeys(self.left):
            if self.is_met(call):
                file = next(one.name for one in self.port.ported.values() if call.line in one.lines)
                place = f"{file}:{call.line.number}"
                yield f"{place}: {joined(call.text())} writes a file in a recipe of make's, and kati has none"

    def is_met(self, call):
        """Whether make comes to a call in a recipe."""
        told = self.port.probes.values.get(self.port.probes.numbers.get((call.line, *call.chain[0])), [])
        if recipe_at(call) is not None:
            return bool(told)
        return any(one.split("|", 1)[0].partition(TARGET)[2].strip("-") for one in told)
