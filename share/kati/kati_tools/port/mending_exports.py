"""Exported variables: make is asked which its commands have, and the shell of kati's commands gets those they lack."""
from ..makefile import references, statements
from ..make import command_environment, exported_names, target_environment
from . import exports_of_all, frozen_values, inner_makes, shared_includes, target_macros
from .mender import Mender
from ..make.command_environment import NAME, OWN

QUOTED = "\\\"$`"
# A value of several lines, which Ninja can't have in a command, is printed by the shell.
LINES = """\
define KATI_NEWLINE


endef
KATI_LINES = $(subst $(KATI_NEWLINE),\\n,$(subst ',\\0047,$(subst `,\\0140,$(subst $$,\\0044,$(subst ",\\0042,\
$(subst \\,\\\\,$(1)))))))"""
QUOTING = "KATI_QUOTED = $(subst `,\\`,$(subst $$,\\$$,$(subst \",\\\",$(subst \\,\\\\,$(1)))))"


def export(line):
    """A line that begins with `export` or `unexport`: for make alone but for what it assigns."""
    if line.first_word() == "export" and line.assignment():
        line.wrap(statements.without_modifiers)
    else:
        line.wrap()


class Exports(Mender):
    """What make's commands have in their environment, and how far kati's have it.

    `wanted` are the names that kati's commands are to have, `handed` those that they get at the end of the makefile,
    and `frozen` those of them which get make's value, since kati's own is another one."""

    def __init__(self, port):
        super().__init__(port)
        self.added, self.wanted, self.handed, self.frozen = None, [], [], {}
        # Those that may have another value for another target, which are compared target by target, and what make told
        # of each of its commands; and macros of the command line, which are told alone.
        self.of_targets, self.by_target, self.of_words = set(), None, []
        # Those that something asks for, where all are exported; and all those that kati's commands are to have then.
        self.named, self.asked = set(), set()

    def look(self):
        """Asks make. Where all variables are exported, kati's commands are to have all that fits in them, or those that
        lines name or something asks for."""
        lines, read = list(self.port.lines()), set(self.port.ported)
        self.added = self.port.run.added_to_environment(self.may_hang_on_option())
        texts = exported_names.named(lines)
        told = self.port.run.values([one for one in texts if "$" in one])
        named = [name for text in [*(one for one in texts if "$" not in one), *told] for name in (text or "").split()]
        targets = set()
        if self.added.is_of_all:
            self.named = exported_names.asked_for(lines, self.port.copy.files(), read)
            own = exports_of_all.all_of_one_line(self.added, exported_names.given_by(self.port.run.macros))
            targets = exports_of_all.of_targets(lines)
            self.asked = self.named.union(own, targets)
            self.named.update(named)
        self.wanted, self.of_words = exported_names.chosen(
            self.added, named, self.port.run.macros, lambda: self.asked,
            lambda: exported_names.asked_for(
                lines, exported_names.run_by(self.port.first.commands[1], self.port.copy.files(),
                                             self.port.asked.for_build), read))
        self.of_targets = exported_names.of_targets(
            self.added, [*self.wanted, *self.of_words], self.port.run.macros, lines, lambda: self.asked)
        if self.of_targets:
            self.by_target = self.port.run.environments(self.port.first.shell)
            self.asked -= targets - self.named - exports_of_all.exported_by(self.by_target)

    def may_hang_on_option(self):
        """Whether the environment may be another one where make has the option by which it tells its database: by a
        makefile that looks for it, or that isn't known."""
        known = {*self.port.ported, *self.port.first.hidden, frozen_values.NAME}
        lines = (line for file in self.port.ported.values() for line in file.lines)
        return not self.port.first.read <= known or any(map(exported_names.may_hang_on_option, lines))

    def begin(self):
        """Gives kati the folder that make runs in, which goes with the tree."""
        if self.added.is_of_all and "CURDIR" in self.wanted and self.added.values["CURDIR"]:
            self.port.for_kati.of_the_run.setdefault("CURDIR", self.added.values["CURDIR"])

    def lessen(self):
        """Hands on no more than what something asks for; answers whether that changes the makefile."""
        others = [name for name in self.handed if name not in self.named]
        self.asked &= self.named
        self.of_targets &= self.named
        self.wanted = [name for name in self.wanted if name in self.named]
        self.handed = [name for name in self.handed if name in self.named]
        self.frozen = {name: macro for name, macro in self.frozen.items() if name in self.named}
        return bool(others) and self.added.is_of_all

    def settle(self, translation):
        """Hands on what kati's commands lack; answers whether that changes the makefile."""
        lacking = self.lacking(translation)
        new = [name for name in lacking if name not in self.handed]
        others = [name for name in lacking if name in self.handed and name not in self.frozen
                  and self.is_one_value(name)]
        self.handed = sorted([*self.handed, *new])
        self.freeze(others)
        return bool(new or others)

    def lacking(self, translation):
        """The names that kati's commands lack, or have with another value."""
        katis = command_environment.of_commands(commands_of(translation)) if self.wanted else ()
        found = command_environment.lacking(self.added, self.wanted, katis, self.of_targets) if self.wanted else ()
        return [name for name in found if not unfit(self.added.all[name])]

    def settle_beside(self, translation):
        """Hands on what kati's commands lack whatever else is mended."""
        new = set(self.lacking(translation)).difference(self.handed)
        self.handed = sorted([*self.handed, *new])
        return bool(new)

    def is_one_value(self, name):
        """Whether a variable has for all targets one value, which a line can have."""
        return "\n" not in (self.added.values[name] or "\n") and name not in self.of_targets

    def freeze(self, names):
        """Gives kati make's value of these variables."""
        line = self.port.ported[self.port.makefile].lines[0]
        for name in names:
            value = self.added.values[name]
            self.frozen[name] = self.port.values.add(line, name, f"$({name})", value, f"$({name})")

    def begin_as(self, before):
        """Hands on what a port for other goals did, as far as make's commands have it."""
        self.handed = [name for name in before["handed"] if name in self.wanted and not unfit(self.added.all[name])]
        self.freeze([name for name in before["frozen"] if name in self.handed and self.is_one_value(name)])

    def found(self):
        """What kati's commands got, and what of it with make's value."""
        return {"handed": self.handed, "frozen": list(self.frozen)} if self.handed else None

    def handed_otherwise(self, translation):
        """The names that kati's commands get with another value than make's have."""
        katis = command_environment.of_commands(commands_of(translation))
        return command_environment.lacking(self.added, self.handed, katis, self.of_targets)

    def compared_by_target(self, translation):
        """The comparison of what may be another value for another target."""
        run = self.port.run
        given = run.environment()
        return target_environment.ByTarget(self.by_target, lambda: run.environments(self.port.first.shell),
                                           translation.statements, given)

    def differences(self, translation):
        """The lines that say where make's commands and kati's have another environment, and whether blanks are others
        in a value for a target."""
        katis = command_environment.of_commands(commands_of(translation))
        names = [*self.wanted, *self.of_words]
        found = list(command_environment.differences(self.added, names, katis, self.of_targets))
        if self.added.is_of_all and katis:
            known = {*names, *exported_names.given_by(self.port.run.macros)}
            found += exports_of_all.not_handed(self.added, known)
        if not self.of_targets or not self.added.is_known:
            return found, False
        compared = self.compared_by_target(translation)
        return [*found, *compared.differences(self.of_targets)], compared.has_other_blanks(self.of_targets)

    def of_needed_targets(self):
        """The target-specific macros that kati gets."""
        return [one for one in self.port.mender(target_macros.TargetMacros).all if one.names]

    def for_targets(self):
        """The target-specific macros that are exported for their targets, as those that the environment has anyhow."""
        exported = self.asked.union(self.port.run.environment()) - OWN
        return [one for one in self.of_needed_targets() if NAME.fullmatch(one.macro)
                and ("export" in one.words or one.macro in exported)]

    def deferred(self):
        """The variables that have another value for another target that is made."""
        macros = [one.macro for one in self.of_needed_targets()]
        hanging = exported_names.hanging_on(macros, list(self.port.lines()))
        return {name for name in self.handed if self.added.values[name] is None}.union(hanging)

    def word(self, name, deferred):
        """The words before the shell that hand on a variable, quoted where its value needs it, or may need it."""
        value, macro = self.added.values.get(name), self.frozen.get(name, name)
        if "\n" in self.added.all.get(name, ""):
            return f"{name}=\"$$(printf %b '$(call KATI_LINES,$({macro}))')\" "
        is_plain = value is not None and not set(value) & set(QUOTED) and name not in deferred
        return f'{name}="$({macro})" ' if is_plain else f'{name}="$(call KATI_QUOTED,$({macro}))" '

    def words(self, deferred):
        """The same for all, those that targets alone have too."""
        found = [self.word(name, deferred) for name in self.handed]
        own = [one for one in self.for_targets() if one.macro not in self.handed]
        for name in dict.fromkeys(one.macro for one in own):
            lines = [one for one in own if one.macro == name]
            targets = " ".join(f"$({one.names['TARGETS']})" for one in lines)
            is_of_all = any(one.reach is None for one in lines)
            word = self.word(name, deferred)
            found.append(word if is_of_all else f"$(if $(filter {targets},$@),{word})")
        return found

    def tail(self):
        """What kati gets at the end of the makefile: a shell with these variables. Where a value hangs on the target,
        it is deferred."""
        deferred = self.deferred()
        inner = self.port.mender(inner_makes.InnerMakes)
        words = [*self.words(deferred), *inner.words()]
        if not words:
            return []
        keep_shell(self.port)
        is_deferred = bool(self.for_targets() or inner.words()) or not deferred.isdisjoint(self.handed)
        is_named = any(one.katis == frozen_values.KATIS_SHELL for one in self.port.values.all)
        quoting = [text for macro, text in (("KATI_QUOTED", QUOTING), ("KATI_LINES", LINES))
                   if any(macro in word for word in words)]
        kept = ["KATI_SHELL := $(SHELL)"] if is_named or is_deferred else []
        shell = f"SHELL = {''.join(words)}$(KATI_SHELL)" if is_deferred else f"SHELL := {''.join(words)}$(SHELL)"
        return [*quoting, *inner.lines(), *kept, shell]


def unfit(value):
    """Whether a shell can't be given a value: Ninja has no command with a carriage return, and what a shell prints
    ends with no newline."""
    return "\r" in value or value.endswith("\n")


def commands_of(translation):
    """kati's commands."""
    return [one.command for one in translation.statements if one.command is not None]


def keep_shell(port):
    """Gives references to SHELL the shell alone."""
    heads = [line for file in port.ported.values() for line in shared_includes.heads(file)]
    for line in [line for line in port.lines() if "SHELL" in line.text and line not in heads]:
        for found in references.references(line.text[:line.expanded_length()]):
            is_meant = found.name == "SHELL" and found.substitution is None
            if not is_meant or any(start <= found.start < end for start, end in line.edits):
                continue
            name = port.values.add(line, "SHELL", "$(SHELL)", frozen_values.KATIS_SHELL, "the shell itself", True)
            line.edits[found.start, found.end] = f"$({name})"
