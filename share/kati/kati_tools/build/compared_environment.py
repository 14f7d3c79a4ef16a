"""The environment of make's commands and of kati's, as kati-compare compares them."""
from ..base import words
from ..makefile import includes
from ..make import command_environment, exported_names, make_commands, target_environment


class ComparedEnvironment:
    """Where the commands of make and of kati have another environment: `lines` say so, and `has_other_blanks` whether
    values for a target have other blanks."""

    def __init__(self, asking, asked, statements, listing):
        self.asking, self.statements, self.listed = asking, statements, listing.names
        self.goals = words.goals_of(asked.words)
        self.macros = [] if asked.words_for_kati else words.macros_of(asked.words)
        self.read = includes.asked([asking.makefile], listing.names)
        self.added = asking.added_to_environment(self.goals, self.macros)
        self.commands = [one.command for one in statements if one.command is not None]
        self.lines, self.has_other_blanks = [], False
        self.compare(exported_names.texts_of(self.read))

    def compare(self, texts):
        """Compares, by the texts of the makefiles that are read."""
        added, katis = self.added, command_environment.of_commands(self.commands)
        may_export = any(map(exported_names.may_export, texts.values()))
        if added.is_known and not (added.values or added.is_of_all or any(katis) or may_export):
            return
        lines = exported_names.lines_of(texts)

        def ask(names=self.listed):
            return exported_names.asked_for(lines, names, self.read)

        wanted, of_words = exported_names.chosen(added, exported_names.named(lines), self.macros, ask,
                                                 lambda: ask(exported_names.run_by(self.commands, self.listed)))
        names = [*wanted, *of_words]
        of_targets = exported_names.of_targets(added, names, self.macros, lines, ask) if added.is_known else set()
        self.lines += command_environment.differences(added, names, katis, of_targets)
        if of_targets:
            self.compare_by_target(of_targets)

    def compare_by_target(self, names):
        """Compares variables target by target."""
        def ask():
            return self.asking.environments(self.goals, self.macros)

        given = make_commands.environment()
        compared = target_environment.ByTarget(ask(), ask, self.statements, given)
        self.lines += compared.differences(names)
        self.has_other_blanks = compared.has_other_blanks(names)
