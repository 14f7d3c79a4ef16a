"""Lemmas of the product's crates that no proof of their code needs, for scripts/check_docs.py: what only a law needs
is in a crate of laws. The lemmas of the laws on limits are an exception."""
import re
from typing import Dict, FrozenSet, List, NamedTuple, Tuple

HELPERS = re.compile(r"k\w+_(?:tests|doubles|laws)|kt_testing|kati_cases")
# Laws beside the code: levels may grow and the result stays.
LIMIT_LAWS = {"one_deeper", "limit_cuts"}
# The files of a function's proof.
PROOFS = {"Answers", "Invariants", "Proof"}
IMPORTED = re.compile(r"^(?:[a-z]+ )*use Rattle\.([^\s{]+)\.\{(.*)\};?$", re.MULTILINE)
ALIAS = re.compile(r"^(?:[a-z]+ )*use Rattle\.([\w.]+)\.(\w+)(?: as (\S+))?$", re.MULTILINE)
CITED = re.compile(r"\b(crate|k(?:t|ati)(?:_\w+)?)::(proofs(?:::\w+)*)::([^\s,()\]:]+)")
PASSED = re.compile(r"(?:[a-z]+ )*(?:use|mod) \S")
DECLARED = re.compile(r"((?:(?:unfoldable|abbrev|opaque|pub|record|data|ruleset) )*)(\S+)( :)?")
CONSTRUCTOR = re.compile(r" +(?:pub )?([^\s(]+)(?: \(.*?\))* :", re.MULTILINE)
BLOCK = re.compile(r" *(?:unfoldable )?(module|mutual)\b")
WORD = re.compile(r"[^\s(){}\[\],;λ]+")


class Declaration(NamedTuple):
    """What a module declares in one piece: the names, and all words of it."""
    names: Tuple[str, ...]
    words: FrozenSet[str]


class Module(NamedTuple):
    """A module of definitions or lemmas; `imports` has the module and the name behind each name that it imports."""
    imports: Dict[str, Tuple[str, str]]
    declarations: List[Declaration]


def words_of(text):
    """The words of a text, also those before a dot; comments aside."""
    found = set(WORD.findall(re.sub(r"(^|\s)--.*", "", text)))
    return found | {word.split(".")[0] for word in found}


def imports_of(text):
    """What each imported name, or short name of a module, stands for."""
    found = {}
    for module, names in IMPORTED.findall(text):
        for name in names.split(", "):
            first, _, last = name.partition(" as ")
            found[last or first] = module, first
    for module, name, short in ALIAS.findall(text):
        found.setdefault(short or name, (module, name))
    return found


def pieces_of(text):
    """The declarations of a module as texts, each with its keywords and name; one in a `module` or `mutual` block
    stands with the block's head."""
    heads, pieces, is_head = [], [], False
    for line in text.splitlines():
        if not line.strip() or line.lstrip().startswith("--") or PASSED.match(line):
            continue
        indent = len(line) - len(line.lstrip())
        heads = [head for head in heads if head[0] < indent or is_head]
        if is_head:
            heads[-1][1] += "\n" + line
        elif indent == 2 * len(heads) and BLOCK.match(line):
            heads.append([indent, line])
        elif indent == 2 * len(heads) and is_declared(line):
            keywords, name, _ = DECLARED.match(line.strip()).groups()
            pieces.append([keywords, name, "\n".join(head for _, head in heads) + "\n" + line])
        elif pieces:
            pieces[-1][2] += "\n" + line
        is_head = bool(heads) and "module" in heads[-1][1] and not heads[-1][1].rstrip().endswith(" where")
    return pieces


def is_declared(line):
    """Whether a line begins a declaration, and no clause of one."""
    keywords, name, is_typed = DECLARED.match(line.strip()).groups()
    return bool(keywords or is_typed) and name not in ("unfolding", "where")


def module_of(text):
    """A module by its text."""
    found = []
    for keywords, name, piece in pieces_of(text):
        names = [name] + (CONSTRUCTOR.findall(piece) if "data" in keywords else [])
        found.append(Declaration(tuple(names), frozenset(words_of(piece))))
    return Module(imports_of(text), found)


def is_of_product(crate):
    return not HELPERS.fullmatch(crate)


class Proofs:
    """The lemmas and definitions of the product, and which needs which."""

    def __init__(self, root):
        self.root, self.modules, self.rooted = root, {}, set()
        paths = [path for folder in ("proofs", "specs") for path in sorted(root.glob(f"crates/*/{folder}/**/*.antt"))]
        for path in paths:
            parts = path.relative_to(root / "crates").with_suffix("").parts
            if is_of_product(parts[0]):
                self.modules[".".join(parts)] = module_of(path.read_text(encoding="utf-8"))
        self.places = {(module, name): number for module, one in self.modules.items()
                       for number, declared in enumerate(one.declarations) for name in declared.names}

    def place(self, module, name, most=8):
        """The module and the number of the declaration that a name stands for, seen from a module; None elsewhere."""
        if (module, name) in self.places:
            return module, self.places[module, name]
        if module not in self.modules:
            # A type's constructors are imported from the type.
            above, _, kind = module.rpartition(".")
            return (above, self.places[above, kind]) if (above, kind) in self.places else None
        behind = self.modules[module].imports.get(name)
        return self.place(*behind, most - 1) if behind and most else None

    def needs(self, module, words):
        """The declarations that a text with these words needs, in a module. An operator counts as needed."""
        one = self.modules[module]
        names = [name for name in one.imports if name in words or "◌" in name]
        names += [name for declared in one.declarations for name in declared.names if name in words or "◌" in name]
        return {place for place in (self.place(module, name) for name in names) if place}

    def roots(self):
        """What proofs of code and attributes name."""
        found = set()
        for module, one in self.modules.items():
            parts = module.split(".")
            is_law = parts[1:3] == ["proofs", "laws"] and parts[3] not in LIMIT_LAWS
            if parts[1] == "proofs" and parts[-1] in PROOFS and not is_law:
                found |= {self.place(*behind) for behind in one.imports.values()}
        for path in sorted(self.root.glob("crates/*/src/**/*.rt")):
            crate = path.relative_to(self.root / "crates").parts[0]
            for owner, module, name in CITED.findall(path.read_text(encoding="utf-8")) if is_of_product(crate) else []:
                found.add(self.place((crate if owner == "crate" else owner) + "." + module.replace("::", "."), name))
        return found - {None}

    def needed(self):
        """All that the roots need."""
        found, left = self.roots(), []
        left += found
        while left:
            module, number = left.pop()
            more = self.needs(module, self.modules[module].declarations[number].words) - found
            found |= more
            left += more
        return found


def unneeded(root):
    """The lemmas of the product that no proof of its code needs, a line each."""
    proofs = Proofs(root)
    needed = proofs.needed()
    for module, one in proofs.modules.items():
        crate, folder, *names = module.split(".")
        if folder == "proofs" and names[-1] not in PROOFS:
            for number, declared in enumerate(one.declarations):
                if (module, number) not in needed:
                    yield f"{crate}: {declared.names[0]} in proofs/{'/'.join(names)}.antt"
