"""How many words each document has, and how many it may have, for scripts/check_docs.py.

A word is what stands between blanks and has a letter or a digit. Words of code blocks and of generated documents are
not counted."""
import re
from typing import NamedTuple

FENCE = "```"
INDENTED = re.compile(r" {4}|\t")
WORD = re.compile(r"[^\W_]")


class Limit(NamedTuple):
    """The most words of a document, without its part `apart`."""
    words: int
    apart: str = ""


LIMITS = {
    "README.md": Limit(700),
    "CHANGELOG.md": Limit(250),
    "CONTRIBUTING.md": Limit(350),
    "SECURITY.md": Limit(600),
    "docs/BENCHMARKS.md": Limit(1500),
    "docs/DECISIONS.md": Limit(3000, apart="## Tools"),
    "docs/DESIGN.md": Limit(4000),
    "docs/DEVELOPING.md": Limit(2800),
    "docs/LANGUAGE.md": Limit(6000),
    "docs/PROOFS.md": Limit(4500),
    "docs/PROVING.md": Limit(3800),
}
# These have no limit: scripts write the first four, and the tools of the next two are being replaced.
UNLIMITED = ("docs/QUICK.md", "docs/TESTS.md", "docs/TRICKS.md", "docs/TRUSTED.md", "docs/PORTING.md",
             "docs/USING.md", "example/README.md")


def prose(text):
    """The lines of a document that are in no code block."""
    fenced = indented = False
    before = ""
    for line in text.splitlines():
        is_fence = line.lstrip().startswith(FENCE)
        fenced ^= is_fence
        indented = bool(INDENTED.match(line)) and (indented or not before.strip())
        before = line
        if not (fenced or is_fence or indented):
            yield line


def without(text, heading):
    """A document without the part under a heading, up to the next heading of that level."""
    level = heading.split(" ")[0]
    return re.sub(rf"^{re.escape(heading)}\n.*?(?=^{level} |\Z)", "", text, flags=re.MULTILINE | re.DOTALL)


def words_of(text):
    """How many words a document has."""
    return sum(bool(WORD.search(word)) for line in prose(text) for word in line.split())


def counted(text, limit):
    """How many words of a document count for its limit."""
    return words_of(without(text, limit.apart) if limit.apart else text)


def troubles(texts):
    """What is wrong with the sizes, a line each. `texts` has the document of each name."""
    for name, text in texts.items():
        limit = LIMITS.get(name)
        if limit is None and name not in UNLIMITED:
            yield f"{name} has no limit in scripts/document_sizes.py"
        if limit and counted(text, limit) > limit.words:
            yield f"{name} has {counted(text, limit):,} words, and may have {limit.words:,}"
    yield from (f"{name} has a limit, and does not exist" for name in LIMITS if name not in texts)
