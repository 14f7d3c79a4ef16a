"""Proof files as declarations: what each states, and its equations."""
import re

# Lines at the margin that are no part of a declaration of something proved.
OTHERS = re.compile(r"^(?:pub )?(?:use|mod|module|record|data|abbrev|unfoldable|mutual|infix|ruleset|syntax|pattern)"
                    r"\b|^--")
STATED = re.compile(r"^(?P<pub>pub )?(?P<name>[^\s:(){}]+) :(?:\s|$)")
MODULE = re.compile(r"^(?:pub )?module\b")
USE = re.compile(r"^use ([^\s{]+)\.\{([^}]*)\}", re.MULTILINE)
OPENING, CLOSING = "({[", ")}]"


class Declaration:
    """A name with what it states; `equations` are the ranges of lines that prove it."""

    def __init__(self, name, is_public, start, statement):
        self.name, self.is_public, self.start, self.statement = name, is_public, start, statement
        self.equations = []


def margin(line):
    """How far a line is set in."""
    return len(line) - len(line.lstrip(" "))


def belongs(line, inset):
    """Whether a line goes on what began with that margin."""
    return bool(line.strip()) and (margin(line) > inset or line.strip()[0] in CLOSING)


def end_of(lines, start):
    """The line after what begins at a line; a `where` goes on after empty lines."""
    inset, end, has_where = margin(lines[start]), start + 1, False
    while True:
        while end < len(lines) and belongs(lines[end], inset):
            end += 1
        has_where = has_where or any(re.search(r"(?:^|\s)where$", line) for line in lines[start:end])
        after = end
        while after < len(lines) and not lines[after].strip():
            after += 1
        if not has_where or after in (end, len(lines)) or margin(lines[after]) <= inset:
            return end
        end = after


def declarations(lines):
    """The declarations of a proof file, those within a module among them."""
    found, by_place, place = [], {}, 0
    while place < len(lines):
        text, inset = lines[place].strip(), margin(lines[place])
        if MODULE.match(text):
            while place < len(lines) and not lines[place].rstrip().endswith("where"):
                place += 1
            place += 1
            continue
        if not text:
            place += 1
            continue
        end = place + 1 if text.startswith("--") else end_of(lines, place)
        stated = None if OTHERS.match(text) else STATED.match(text)
        if stated:
            one = Declaration(stated["name"], stated["pub"] is not None, place, " ".join(lines[place:end]))
            found.append(one)
            by_place[one.name, inset] = one
        elif (text.split()[0], inset) in by_place:
            by_place[text.split()[0], inset].equations.append((place, end))
        place = end
    return found


def cut(text, sign):
    """What stands before and after the first such sign outside of brackets; None where there is none."""
    depth = 0
    for place, byte in enumerate(text):
        if byte in OPENING:
            depth += 1
        elif byte in CLOSING:
            depth -= 1
        elif depth == 0 and text.startswith(sign, place):
            return text[:place], text[place + len(sign):]
    return None


def sides(text):
    """The left and the right side of an equation; None where the left one isn't on one line."""
    found = cut(text.replace("=\n", "= \n", 1), " = ")
    return None if found is None or "\n" in found[0] else found


def result(statement):
    """What a statement ends with, after its last arrow."""
    left = cut(" ".join(statement.split()), " : ")
    text = left[1] if left else statement
    while (parts := cut(text, "→")) is not None:
        text = parts[1]
    return text.strip()


def imports(text):
    """The names that a file's `use` lines bring, each with its module."""
    return {item.strip().split(" as ")[-1]: module for module, items in USE.findall(text)
            for item in items.split(",") if item.strip()}


def names_in(text):
    """The words of a term, each once."""
    return list(dict.fromkeys(word.strip(".") for word in re.split(r"[\s(){},;]+", text) if word.strip(".")))
