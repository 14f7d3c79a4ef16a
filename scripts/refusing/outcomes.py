"""What a run of kati may do if one of its calls was refused.

The rules are those of the exit statuses in docs/LANGUAGE.md, and of `run` and `whole` in docs/PROOFS.md:

- Out of memory: status 4. Standard output is empty, standard error has only the line of the status. If the file of
  `--check` was being read, the messages come before the line.
- A file that cannot be read: status 3, and the same with the line that names the file.
- Standard output fails: status 3. It has a prefix of its text; standard error has all of its text and then the line.
- Standard error fails: status 3. It has a prefix of its text and then the line; standard output is empty.
- If the line about a failure, or the message about wrong arguments (status 64), cannot be written, the status stays.
- A read or write of fewer bytes than asked for is no failure. A write that takes nothing is one.
"""
from collections import namedtuple

NO_MEMORY = b"kati: no memory\n"
CANNOT_WRITE = b"kati: cannot write\n"
OUT, ERR = 1, 2

# A status, and what both outputs received; None for an output that isn't seen.
Outcome = namedtuple("Outcome", "status out err")


def checks(words, own):
    """Whether a run reads a file to be checked, as its last: a makefile's fault comes before that."""
    return own.status in (0, 1) and any(word == b"--check" or word.startswith(b"--check=") for word in words)


def after_growth(words, own, own_record, record):
    """A growth was refused: out of memory, or it wasn't needed."""
    checked = checks(words, own)
    allowed = [own]
    if not (checked and record.opens_before == own_record.opens):
        allowed.append(Outcome(4, b"", NO_MEMORY))
    if checked:
        allowed.append(Outcome(4, b"", own.err + NO_MEMORY))
    return allowed


def after_read(words, own, own_record, record):
    """A read failed."""
    at_check = checks(words, own) and record.opens_before == own_record.opens
    line = b"kati: cannot read " + record.name + b"\n"
    return [Outcome(3, b"", (own.err if at_check else b"") + line)]


def after_err(own, taken):
    """The error output failed after so many bytes."""
    text = own.err or b""
    if own.status == 64:
        return Outcome(64, b"", text[:taken])
    if own.status == 3 and taken >= len(text) - len(CANNOT_WRITE):
        return Outcome(3, own.out, text[:taken])
    return Outcome(3, b"", text[:taken] + CANNOT_WRITE)


def after_write(own, record):
    """A write failed or took nothing."""
    if record.descriptor == ERR:
        return [after_err(own, record.taken_err)]
    if record.descriptor == OUT and own.status == 0:
        return [Outcome(3, own.out[:record.taken_out], own.err + CANNOT_WRITE)]
    return [own] if record.descriptor == OUT and own.status == 3 else []


def allowed_outcomes(words, refusal, own, own_record, record):
    """The outcomes that a run may have, of which this call was refused; `own` is that of a run with none refused."""
    if refusal.way == "one":
        return [own]
    if refusal.call == "growth":
        allowed = after_growth(words, own, own_record, record)
    elif refusal.call == "read":
        allowed = after_read(words, own, own_record, record)
    else:
        allowed = after_write(own, record)
    return [as_seen(outcome, own) for outcome in allowed]


def as_seen(outcome, own):
    """The outcome without the outputs that aren't seen."""
    return Outcome(outcome.status, None if own.out is None else outcome.out, None if own.err is None else outcome.err)
