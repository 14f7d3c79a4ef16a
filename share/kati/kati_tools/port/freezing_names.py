"""Names with wildcards, which are for kati the names that they fit."""
import re

from ..makefile import statements, syntax
from . import freezing, frozen_values

WILD = re.compile(r"[*?\[]")
# What a shell is to read, as `sed 's/[ /]/-/g'` between backquotes, is no pattern of files.
OF_THE_SHELL = frozenset("'\"`")


def computed_words(line):
    """The words of a rule line that come to other words, and stand in it as they are."""
    return [word for word in statements.Rule(line.joined).words() if "$" in word and word in line.text]


def freeze_words(port, line, name):
    """Replaces the words of a rule line that come to a name with a wildcard by what the names fit: as make told it
    there, or else as they come to it behind the makefile."""
    if line.is_body:
        return False
    words, before = computed_words(line), len(line.edits)
    freeze_told(port, line)
    if len(line.edits) > before:
        return True
    for word, names in zip(words, port.run.values(words)):
        if name in map(plain_name, (names or "").split()):
            freeze_names(port, line, word, names)
    return len(line.edits) > before


def freeze_told(port, line):
    """Replaces all words of a rule line of which make told that they come to names with wildcards there."""
    for start, end in port.probes.words.get(line, []):
        told = port.probes.told(line, (start, end))
        if len(told) == 1 and WILD.search(told[0]) and "$" not in told[0]:
            freeze_names(port, line, line.text[start:end], told[0])


def freeze_names(port, line, word, names):
    """Replaces a word of a rule line that comes to these names by what they fit."""
    freeze_word(port, line, word, f"{frozen_values.NAMES}{names}", frozen_values.with_fitting(names))


def freeze_word(port, line, word, source, value):
    """Replaces a word of a line by a macro that is this value for kati, from this source."""
    place = line.text.index(word), line.text.index(word) + len(word)
    if place not in line.edits:
        line.edits[place] = f"$({port.values.add(line, 'names', word, value, source)})"
        port.tell("frozen", "names with wildcards")


def plain_name(name):
    """A name as kati has it, without `./` before it."""
    return re.sub(r"^(\./+)+(?=.)", "", name)


def freeze_name(port, line, name):
    """Replaces a name with a wildcard in a line by a macro; answers whether it stands there, as a pattern of files."""
    place = syntax.place_of(line, name)
    if place is None or place in line.edits or not OF_THE_SHELL.isdisjoint(name):
        return False
    names = port.fitting.get(name) or port.run.value(f"$(wildcard {name})") or ""
    macro = port.values.add(line, freezing.wanted_name(line, ""), name, names, f"$(wildcard {name})")
    line.edits[place] = f"$({macro})"
    port.tell("frozen", "names with wildcards")
    return True


def freeze_includes(port, lines):
    """Replaces the words of include lines that come to names with wildcards by what the names fit, which may be
    nothing; answers whether there are any."""
    words = [(line, word) for line in lines for word in line.says.names if word in line.text]
    told = zip(words, port.run.values([word for _, word in words]))
    meant = [(line, word, f"$(wildcard {' '.join(names.split())})") for (line, word), names in told
             if names and all(map(WILD.search, names.split()))]
    before = [len(line.edits) for line in lines]
    for (line, word, source), value in zip(meant, port.run.values([source for _, _, source in meant])):
        freeze_word(port, line, word, source, value or "")
    return before != [len(line.edits) for line in lines]
