"""`+=` to an empty value, or of an empty one: kati puts a blank there, and make doesn't, which counts within quotes and
in the environment."""
from ..make import command_lists, make_run
from ..makefile import statements, syntax
from . import append_probes, mending_exports, port_report, saving
from .append_probes import appended
from .mender import Mender

APPENDED = "KATI_APPENDED"


def parts(text):
    """The name of the macro and what is appended, of a line's text."""
    found = statements.assignment(statements.without_comment(syntax.joined(text)))
    return found.name, found.value


def for_deferred(text):
    """kati's lines for a deferred macro: a value takes the place of none."""
    name, value = parts(text)
    return "\n".join([f"ifdef {name}", f"{name} += {value}", "else", f"{name} = {value}", "endif"])


def for_immediate(text):
    """kati's lines for an immediate macro: of two values one that is empty doesn't count."""
    name, value = parts(text)
    return "\n".join([f"{APPENDED} := {value}", f"ifdef {name}", f"ifdef {APPENDED}", f"{name} += $({APPENDED})",
                      "endif", "else", f"{name} := $({APPENDED})", "endif"])


class Appends(Mender):
    """The lines that append, once kati takes the makefile and its commands aren't make's."""

    def __init__(self, port):
        super().__init__(port)
        self.is_settled = False

    def settle(self, translation):
        """Gives kati what makes no blank; answers whether that changes the makefile."""
        lines = [] if self.is_settled else [line for line in self.port.lines() if appended(line)]
        if not lines or not self.is_other(translation):
            return False
        self.is_settled, is_any = True, False
        for line, told in self.asked(lines):
            form = form_of(told)
            if form:
                line.wrap(form)
                is_any = True
        return is_any

    settle_beside = settle

    def is_other(self, translation):
        """Whether kati's commands aren't make's, or their environment isn't."""
        katis = port_report.commands_of(translation.statements)
        exports = self.port.mender(mending_exports.Exports)
        if command_lists.Compared(self.port.first.commands[1], [], katis).makes:
            return True
        return bool(exports.handed_otherwise(translation)) \
            or bool(exports.handed and exports.of_targets) and any(exports.differences(translation))

    def asked(self, lines):
        """Each line with what make told where it came by it: as it did with the values of calls, or now."""
        told = {line: self.port.probes.appends.known(line) for line in lines}
        left = [line for line in lines if told[line] is None]
        if left:
            told.update(self.asked_now(left))
        return told.items()

    def asked_now(self, lines):
        """The same of lines of which it hasn't told."""
        before = [line.before for line in lines]
        for number, line in enumerate(lines):
            mark = append_probes.probe(number, line, append_probes.expanded)
            line.before = "\n".join(filter(None, [line.before, mark]))
        saving.save(self.port)
        _, out, _ = self.port.run.ask(question="$(error asked)\n")
        for line, text in zip(lines, before):
            line.before = text
        saving.save(self.port)
        found = make_run.answered(out)
        return {line: found.get(number, []) for number, line in enumerate(lines)}


def form_of(told):
    """The function that makes kati's text of a line, by what make told of it; None where kati's own way does."""
    kinds = {tuple(one.split("|")) for one in told}
    flavors = {flavor for flavor, _, _ in kinds}
    if flavors == {"simple"} and any("" in kind for kind in kinds):
        return for_immediate
    return for_deferred if flavors == {"recursive"} and any(not old for _, old, _ in kinds) else None
