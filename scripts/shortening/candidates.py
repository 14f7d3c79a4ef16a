"""What may replace a proof: one call of a tactic, with the lemmas that the proof names."""
import re

from . import proof_files

# Types of values: what is declared to give one is a definition, whose text isn't only a proof.
VALUES = {"List", "Option", "Bor", "Vec", "Type", "Text", "Bool", "ℕ", "Unit", "Result"}
RECORD = re.compile(r"^\s*(?:pub )?(?:record|data) ([^\s:(){}]+) : Type", re.MULTILINE)
DEFINED = re.compile(r"^\s*(?:abbrev |unfoldable |pub |pattern )*([^\s:(){}]+) :(?:\s|$)", re.MULTILINE)
RELATION = re.compile(r"[≡≤<¬⊥≢↔≥]")
# Words of terms that are no lemmas.
WORDS = {"sym", "ap", "subst", "refl", "rw", "rules", "arith", "cc", "search", "omega", "grind", "simp", "first_of",
         "in", "let", "if", "then", "else", "elim", "record", "where", "tt", "suc", "zero", "true", "false", "inl",
         "inr"}
ENDS = re.compile(r"\s(?:[∙≡]|in|then|else|at)\s")
LONGEST = 160


def texts_below(folders, part):
    """The proof files of folders that lie in a folder of this name."""
    return [path.read_text(encoding="utf-8", errors="replace") for folder in folders for path in folder.rglob("*.antt")
            if part in path.parts and "out" not in path.parts]


class Words:
    """What is known of names: which are types of values, and which are definitions."""

    def __init__(self, folders):
        texts = texts_below(folders, "specs")
        self.values = VALUES | {name for text in texts for name in RECORD.findall(text)}
        self.defined = {name for text in texts for name in DEFINED.findall(text)}

    def is_statement(self, statement):
        """Whether a declaration says something, so that any proof of it will do."""
        ending = proof_files.result(statement)
        head = re.match(r"\(?([^\s(){}]+)", ending)
        if RELATION.search(ending) or (head and head[1].startswith("goal.")):
            return True
        return bool(head) and head[1][0].isupper() and head[1] not in self.values and " " in ending

    def is_lemma(self, name, module):
        """Whether a name in scope is that of a lemma."""
        if "◌" in name or name in WORDS or not re.match(r"[A-Za-z⊎≢]", name):
            return False
        if name[0].isupper() and not re.search(r"[-_]", name):
            return False
        return ".specs." not in module and not (module.endswith(".Common") and name in self.defined)


def application(text, start):
    """The application of a name that begins at a place, on one line; None where it holds a λ or is long."""
    depth, end = 0, start
    while end < len(text):
        byte = text[end]
        if byte in proof_files.OPENING:
            depth += 1
        elif byte in proof_files.CLOSING:
            depth -= 1
        if depth < 0 or (depth == 0 and (byte in ",;=" or ENDS.match(text, end))):
            break
        end += 1
    found = " ".join(text[start:end].split())
    return found if "λ" not in found and len(found) < LONGEST else None


def recursions(name, left, right, scope):
    """The calls of a proof to itself whose arguments stand on its left side."""
    known = set(proof_files.names_in(left)) | scope
    found = []
    for match in re.finditer(rf"(?<![^\s(]){re.escape(name)}(?=[\s)])", right):
        call = application(right, match.start())
        if call and call not in found and all(word in known or not word[0].isalpha()
                                              for word in proof_files.names_in(call)):
            found.append(call)
    return found


def calls(name, left, right, scope, words):
    """The tactics to try, the first one first; `scope` has the module of each name, or an empty text."""
    cited = [word for word in proof_files.names_in(right)
             if word in scope and word != name and words.is_lemma(word, scope[word])]
    cited += recursions(name, left, right, set(scope))
    return [f"grind ({', '.join(['arith'] + cited)})" if cited else "grind arith",
            f"search ({', '.join(['rules'] + cited)})" if cited else "search rules"]
