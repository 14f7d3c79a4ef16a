"""The file of what came of each crate's wrong bodies, which scripts/wrong_bodies.py --record writes."""
from . import trials

OUTCOMES = (trials.REFUSED, trials.NO_EVIDENCE, trials.LET_THROUGH, trials.NO_REFUSAL)
HEAD = f"""\
# What came of each crate's wrong bodies, by scripts/wrong_bodies.py --record: how many there are, and how many were
# {', '.join(OUTCOMES)}; the rounds that it took. Below a crate stand those that weren't refused.
"""


def rows_of(text):
    """The lines of each crate in such a file."""
    found = {}
    for line in text.splitlines():
        if line.startswith("    "):
            found[list(found)[-1]].append(line)
        elif line and not line.startswith("#"):
            found[line.split()[0]] = [line]
    return found


def row_of(trial):
    """The lines of a crate that was tried."""
    counts = " ".join(str(trial.count(outcome)) for outcome in OUTCOMES)
    others = sorted((edit.name, edit.outcome, edit.why) for edit in trial.tried if edit.outcome != trials.REFUSED)
    return [f"{trial.crate} {len(trial.tried)} {counts} {trial.rounds}",
            *(f"    {name}: {outcome} ({why})" for name, outcome, why in others)]


def record(path, trial):
    """Puts the lines of a crate into the file in the place of those that it has."""
    rows = rows_of(path.read_text(encoding="utf-8")) if path.exists() else {}
    rows[trial.crate] = row_of(trial)
    path.write_text(HEAD + "".join(f"{line}\n" for crate in sorted(rows) for line in rows[crate]), encoding="utf-8")
