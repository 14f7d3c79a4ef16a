"""The trial of a crate's wrong bodies, in rounds: each applies some to a copy of the repository and checks that."""
import shutil
import subprocess
import tempfile
from pathlib import Path

from . import edits, reports

REFUSED, LET_THROUGH, NO_REFUSAL, NO_EVIDENCE = "refused", "let through", "no refusal", "no evidence"
# So often an edit comes again that couldn't be judged beside others.
MOST_ROUNDS = 3


def dependencies(root, crate):
    """The crate and the libraries of the repository below it."""
    rows = [line.split("#")[0] for line in (root / "crates.txt").read_text(encoding="utf-8").splitlines()]
    uses = {row.split(":")[0].split()[0]: row.split(":")[1].split() for row in rows if ":" in row}
    wanted, found = [crate], []
    while wanted:
        name = wanted.pop()
        if name in uses and name not in found:
            found.append(name)
            wanted += uses[name]
    return found


def copy_repository(root, crate, folder):
    """Copies the repository into the folder, with the kept work of the crate and of those below it."""
    listed = subprocess.run(["git", "ls-files", "-z", "-co", "--exclude-standard"], cwd=root, stdout=subprocess.PIPE,
                            check=True)
    for name in listed.stdout.decode().split("\0"):
        if name and (root / name).is_file():
            (folder / name).parent.mkdir(parents=True, exist_ok=True)
            shutil.copy2(root / name, folder / name)
    for name in dependencies(root, crate):
        kept = root / "crates" / name / "out"
        if kept.is_dir():
            shutil.copytree(kept, folder / "crates" / name / "out", symlinks=True)


class Trial:
    """The wrong bodies of one crate; `tell` is called with each as soon as it is known what came of it.

    In a cycle of functions the blame goes to each of them, so an edit of such a function is tried alone. Of a function
    that is proved by hand, or by lemmas that its attribute names, any other shape of the body may be refused. An edit
    that changes the shape counts as refused only where a control, which has that shape and means the same, is let
    through."""

    def __init__(self, root, crate, tried, jobs, tell):
        self.root, self.crate, self.tried, self.jobs, self.tell = root, crate, tried, jobs, tell
        self.rounds, self.waiting = 0, list(tried)
        # Edits that are refused unless their controls are, too, by their controls.
        self.by_control = {}
        # The edits of the last round without a verdict: one of them is the trouble.
        self.suspects = []

    def run(self):
        """Tries all; answers itself."""
        with tempfile.TemporaryDirectory(prefix="wrong_bodies_") as name:
            self.folder = Path(name) / "crates" / self.crate
            copy_repository(self.root, self.crate, Path(name))
            while self.waiting:
                self.round()
        return self

    def count(self, outcome):
        """How many came to this."""
        return sum(edit.outcome == outcome for edit in self.tried)

    def text(self, file):
        return (self.folder / file).read_text(encoding="utf-8")

    def write(self, file, text):
        (self.folder / file).write_text(text, encoding="utf-8")

    def end(self, edit, outcome, why):
        """It is known what came of an edit, or of a control, and then of the edit that waits for it."""
        edit.ends(outcome, why)
        self.waiting.remove(edit)
        control, edit = edit, self.by_control.pop(id(edit), edit)
        if edit is not control:
            is_like = control.owners == edit.owners
            what = f"its control: {outcome}" if is_like else "its control changes another function"
            is_fine = is_like and outcome == LET_THROUGH
            edit.ends(*((REFUSED, edit.why) if is_fine else (NO_EVIDENCE, f"{what}; {edit.why}")))
        self.tell(edit)

    def refused(self, edit, why, paths):
        """An edit is refused: that counts, unless a control has to be asked."""
        how = self.how_proved(edit, paths)
        if id(edit) in self.by_control or edit.keeps_shape() or how is None:
            self.end(edit, REFUSED, why)
        elif edit.control is None:
            self.end(edit, NO_EVIDENCE, f"{how}, and no control is beside it; {why}")
        else:
            edit.why = why
            self.waiting[self.waiting.index(edit)] = edit.control
            self.by_control[id(edit.control)] = edit

    def how_proved(self, edit, paths):
        """How the functions are proved whose proof may fit one shape alone; None where no other shape is refused."""
        if any(reports.is_by_hand(self.folder, path) for path in paths):
            return "proved by hand"
        return "proved by named lemmas" if edit.has_named_lemmas else None

    def candidates(self):
        """The edits that a round may take: the half of those among which one is the trouble, else all that wait."""
        suspects = [edit for edit in self.suspects if edit in self.waiting]
        return suspects[:(len(suspects) + 1) // 2] or list(self.waiting)

    def round(self):
        """Applies as many edits as lie in different functions, checks, and judges them."""
        originals, chosen, taken = {}, [], set()
        for edit in self.candidates():
            before = self.text(edit.file)
            after = edit.applied(before)
            if after is None:
                if edit.file not in originals:
                    self.end(edit, NO_REFUSAL, "an old text doesn't stand once")
                continue
            owners = {(edit.file, name) for name in edit.owners}
            is_alone = edit.is_in_cycle or None in edit.owners
            if is_alone and chosen or owners & taken:
                continue
            originals.setdefault(edit.file, before)
            self.write(edit.file, after)
            chosen.append(edit)
            taken |= owners
            if is_alone:
                break
        if chosen:
            self.judge(chosen, reports.check(self.folder, self.jobs))
        for file, text in originals.items():
            self.write(file, text)

    def judge(self, chosen, report):
        """Judges the edits of a round by its report."""
        self.rounds += 1
        if not report.judged:
            self.drop_what_does_not_compile(chosen, report)
            return
        for edit in chosen:
            edit.rounds += 1
            self.judge_one(edit, report, len(chosen) == 1)

    def drop_what_does_not_compile(self, chosen, report):
        """Without a verdict, the edits at the places that the check names are the trouble; where it names none, one
        that was alone. Else the next rounds look for the trouble."""
        blamed = [edit for edit in chosen if any(self.covers(edit, *place) for place in report.compile_errors())]
        for edit in blamed:
            self.end(edit, NO_REFUSAL, "doesn't compile")
        if not blamed and len(chosen) == 1:
            self.end(chosen[0], NO_REFUSAL, "the check gave no verdict")
        elif not blamed:
            self.suspects = chosen

    def covers(self, edit, file, line):
        """Whether a place lies in a function that the edit changes."""
        text = self.text(edit.file)
        spans = [edits.span(text, name) for name in edit.owners if name is not None]
        return file == edit.file and any(first <= line <= last for first, last in spans)

    def judge_one(self, edit, report, is_alone):
        """Judges an edit: it is known what came of it, or it comes again."""
        if None in edit.owners:
            blamed = report.blamed()
            self.end(edit, *((REFUSED, f"blames {blamed[0]}") if blamed else (LET_THROUGH, "")))
            return
        text, module = self.text(edit.file), edits.module_of(self.crate, edit.file)
        paths = [report.path_of(module, name) for name in edit.owners]
        reasons = (report.blames(path, edit.file, *edits.span(text, name)) for name, path in zip(edit.owners, paths))
        why = next(filter(None, reasons), None)
        states = [report.states.get(path, "") for path in paths]
        if why:
            self.refused(edit, why, paths)
        elif any(report.misses_only_a_name(path) for path in paths):
            self.end(edit, NO_REFUSAL, "a proof only misses a name")
        elif is_alone or all(state == "proved" for state in states) or edit.rounds > MOST_ROUNDS:
            self.end(edit, LET_THROUGH, "; ".join(state[:80] for state in states))
