"""Replaces proofs by calls of tactics, many at a time, and puts back what the check refuses."""
import re
import subprocess

from . import candidates, proof_files

ERROR = re.compile(r"^\./(proofs/\S+?\.antt):(\d+):\d+: error: (.*)$", re.MULTILINE)
COMMON = "use Rattle.std.proofs.Common.{"
ANSWERS = "Answers.antt"


class Target:
    """A proof that may become shorter: its lines, and what is tried in their place. `text` is None for what stands
    there."""

    def __init__(self, start, end, left, calls):
        self.start, self.end, self.left, self.calls = start, end, left, calls
        self.text, self.is_open = None, False

    @property
    def gain(self):
        return self.end - self.start - 1

    def tries(self):
        """Tries the next call, if there is one."""
        self.is_open = bool(self.calls)
        self.text = f"{self.left} = {self.calls.pop(0)}" if self.calls else None

    def puts_back(self):
        self.text, self.is_open = None, False


class ProofFile:
    """A proof file with its targets."""

    def __init__(self, path, words):
        self.path, self.text = path, path.read_text(encoding="utf-8")
        self.lines = self.text.split("\n")
        self.places, self.targets = [], []
        modules, before = proof_files.imports(self.text), {}
        self.imports = set(modules)
        for one in proof_files.declarations(self.lines):
            if words.is_statement(one.statement):
                self.targets += filter(None, (self.target(one, *lines, {**modules, **before}, words)
                                              for lines in one.equations))
            before[one.name] = ""

    def target(self, declaration, start, end, scope, words):
        """The target of an equation, if that takes several lines."""
        both = proof_files.sides("\n".join(self.lines[start:end]))
        if end - start < 2 or both is None:
            return None
        return Target(start, end, both[0], candidates.calls(declaration.name, *both, scope, words))

    def write(self):
        """Writes the file as it is tried, with the names that the calls take from the standard library."""
        shown, place, self.places = [], 0, []
        by_start = {target.start: target for target in self.targets if target.text is not None}
        while place < len(self.lines):
            target = by_start.get(place)
            if target is not None:
                self.places.append((len(shown) + 1, target))
            shown.append(self.lines[place] if target is None else target.text)
            place = place + 1 if target is None else target.end
        tried = " ".join(target.text for target in by_start.values())
        wanted = [name for name in ("arith", "rules") if re.search(rf"\b{name}\b", tried) and name not in self.imports]
        self.path.write_text("\n".join(self.imported(shown, wanted)), encoding="utf-8")

    def imported(self, shown, wanted):
        """The lines with more names brought from the standard library."""
        if not wanted:
            return shown
        for place, line in enumerate(shown):
            if line.startswith(COMMON):
                shown[place] = COMMON + ", ".join(wanted) + ", " + line[len(COMMON):]
                return shown
        self.places = [(line + 1, target) for line, target in self.places]
        return [COMMON + ", ".join(wanted) + "}"] + shown

    def target_at(self, line):
        return next((target for place, target in self.places if place == line), None)


class Rounds:
    """The rounds of one crate; `tell` is called with a line on each."""

    def __init__(self, crate, files, command, tell):
        self.crate, self.command, self.tell = crate, command, tell
        self.files = {str(file.path.relative_to(crate)): file for file in files}
        self.targets = [target for file in files for target in file.targets]

    def run(self):
        """Tries all calls, and answers whether the check passes at the end."""
        while any(target.calls for target in self.targets if target.text is None):
            for target in self.targets:
                if target.text is None:
                    target.tries()
            while any(target.is_open for target in self.targets):
                if not self.round():
                    break
        for _ in self.targets:
            refused, _, passes = self.check()
            if passes or not refused:
                return passes
            for target in refused:
                target.puts_back()
        return not self.targets

    def round(self):
        """Checks all once. What was refused is put back, what hangs on it stays open, and the others are done. Answers
        whether anything became known."""
        refused, waiting, passes = self.check()
        done = [target for file in self.files.values() for target in file.targets
                if target.is_open and target not in refused and (passes or file not in waiting)]
        for target in refused:
            target.puts_back()
        for target in done:
            target.is_open = False
        self.tell(f"{len(refused)} refused, {len(done)} done, {self.gained()} lines fewer")
        if not refused and not done:
            for target in self.targets:
                if target.is_open:
                    target.puts_back()
        return bool(refused or done)

    def check(self):
        """One check: the targets that it refuses, the files of which something wasn't checked, and whether it
        passes."""
        for file in self.files.values():
            file.write()
        ran = subprocess.run(self.command, cwd=self.crate, stdout=subprocess.PIPE, stderr=subprocess.STDOUT, text=True,
                             check=False)
        refused, waiting = [], set()
        for name, line, message in ERROR.findall(ran.stdout):
            file = self.files.get(name)
            target = None if file is None or "not checked" in message else file.target_at(int(line))
            if target is not None:
                refused.append(target)
            elif file is not None:
                waiting.add(file)
        return refused, waiting, ran.returncode == 0

    def gained(self):
        return sum(target.gain for target in self.targets if target.text is not None and not target.is_open)
