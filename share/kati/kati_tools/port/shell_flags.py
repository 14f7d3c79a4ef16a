"""The shell and the flags by which make runs commands, which may be others than kati has: for `.POSIX` make hands -e to
the shell, and has other macros by itself."""
from ..make import command_environment, make_run
from ..makefile import ported_text, quick_looks
from .mender import Mender

# What make has by itself, as kati-build --builtin has it, and has otherwise for `.POSIX`.
OF_POSIX = {"ARFLAGS": "rv", "CC": "cc", "CFLAGS": "", "FC": "f77", "FFLAGS": ""}
QUESTIONS = [f"$(origin {name}):$(value {name})" for name in OF_POSIX]


def assigned(name, value):
    """A line that gives a macro a value."""
    return f"{name} = {value.replace('#', chr(92) + '#')}"


class ShellFlags(Mender):
    """make's shell with its flags, and the flags that kati gets at the end of the makefile where it has others."""

    def __init__(self, port):
        super().__init__(port)
        self.shell, self.flags, self.given, self.macros = "/bin/sh", "-c", None, {}

    def texts(self):
        """What `.POSIX` may give other values."""
        return QUESTIONS if self.is_posix() else []

    def is_posix(self):
        """Whether a makefile may have `.POSIX`."""
        return any(quick_looks.may_be_posix(file.before) for file in self.port.ported.values())

    def look(self):
        """Asks make, where the makefiles have what may give it others."""
        texts = [file.before for file in self.port.ported.values()]
        if any(map(quick_looks.may_have_another_shell, texts)):
            told = self.own_shell()
            self.shell, self.flags = (text or before for text, before in zip(told, (self.shell, self.flags)))
        if self.is_posix():
            told = [(one or ":").split(":", 1) for one in self.port.run.values(QUESTIONS)]
            self.macros = {name: value for (name, usual), (origin, value) in zip(OF_POSIX.items(), told)
                           if origin == "default" and value != usual}

    def own_shell(self):
        """make's shell and flags, as make told them when it made includes, else as it tells them now."""
        told = list(self.port.run.own_shell.values())
        return told if len(told) == len(make_run.OWN_SHELL) else self.port.run.values_with_own_shell(make_run.OWN_SHELL)

    def begin_as(self, before):
        """Gives kati make's flags, as a port for other goals had to."""
        self.given = self.flags or None

    def found(self):
        """Whether kati had others."""
        return True if self.given is not None else None

    def katis(self, translation):
        """The shells of kati's commands, with their flags."""
        return command_environment.shells_of(one.command for one in translation.statements if one.command is not None)

    def settle(self, translation):
        """Gives kati make's flags where it has others; answers whether that changes the makefile."""
        wanted = f"{self.shell} {self.flags}"
        if self.given is not None or not self.flags or all(one == wanted for one in self.katis(translation)):
            return False
        self.given = self.flags
        return True

    def differences(self, translation):
        """The lines that say that kati's commands are run by another shell, or by other flags."""
        wanted = f"{self.shell} {self.flags}"
        return [f"make runs commands by {wanted}, kati by {one}" for one in self.katis(translation) if one != wanted]

    def head(self):
        """What kati gets at the beginning of the makefile: what make has by itself."""
        lines = [assigned(name, value) for name, value in self.macros.items()]
        return [ported_text.KATIS_ALONE, *lines, "endif"] if lines else []

    def tail(self):
        """What kati gets at the end of the makefile."""
        return [] if self.given is None else [assigned(".SHELLFLAGS", self.given)]
