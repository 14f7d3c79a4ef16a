"""What a check of a crate says: of each function whether it is proved, and whom it blames."""
import re
import subprocess

ONLY_A_NAME = re.compile(r"has no field|can be named from here|is not in scope|no such name|is unknown")
STATE = re.compile(r"(?:fn|impl|struct|enum) (\S+): (.*)")
NOTE = re.compile(r"(?:note: |error: )?(?:\./)?(src/\S+?\.rt):(\d+):\d+: (.*)")
ANSWER = re.compile(r"\./proofs/(\S+)/\w+\.antt:\d+:\d+: error: (.*)")


class Report:
    """What a check said."""

    def __init__(self, output):
        lines = [re.sub(r"^so far: ", "", line) for line in output.splitlines()]
        self.judged = any(line.startswith("logic=") for line in lines)
        self.states = dict(match.groups() for match in map(STATE.match, lines) if match)
        notes = [match.groups() for match in map(NOTE.match, lines) if match]
        self.notes = [(name, int(line), words) for name, line, words in notes]
        self.answers = [match.groups() for match in map(ANSWER.match, lines) if match]

    def path_of(self, module, name):
        """The path of a function that stands in this module's file: a method goes by the module of its type."""
        here = module + "::" + name
        others = [path for path in self.states if path.endswith("::" + name)]
        return others[0] if here not in self.states and len(others) == 1 else here

    def blames(self, path, file, first, last):
        """Why the function didn't meet its own contract, or None."""
        state = self.states.get(path, "")
        if "did not prove" in state:
            return "goal " + state.split("did not prove ")[1].split(";")[0]
        for name, line, words in self.notes:
            if name == file and first <= line <= last and "not proved" in words:
                return f"goal at line {line}"
        found = self.answers_of(folder_of(path))
        if found and not all(ONLY_A_NAME.search(words) for words in found):
            return "answer: " + found[0][:60]
        if any(self.blames_closure(path, name, state) for name, state in self.states.items()):
            return "goal of a closure"
        return None

    @staticmethod
    def blames_closure(path, name, state):
        """Whether a state is that of a closure of the function, with a goal of its own."""
        module, _, function = path.rpartition("::")
        return name.startswith(module + "::fn::" + function + "::") and "did not prove" in state

    def misses_only_a_name(self, path):
        """Whether nothing but names that went away is wrong with a function's answers."""
        found = self.answers_of(folder_of(path))
        return bool(found) and all(ONLY_A_NAME.search(words) for words in found)

    def answers_of(self, folder):
        """What is wrong with a function's answers: in a cycle they stand in one folder, and a goal's name begins with
        the function's."""
        parent, _, name = folder.rpartition("/")
        return [words for where, words in self.answers
                if where == folder or where.startswith(parent + "/+") and words.startswith("`" + name + "-")]

    def compile_errors(self):
        """The places that keep the crate from being checked."""
        return [(name, line) for name, line, words in self.notes
                if "error" in words or not words.startswith("it is not")]

    def blamed(self):
        """Whatever is blamed for a goal or an answer."""
        found = [path for path, state in self.states.items() if "did not prove" in state]
        return found + [where for where, words in self.answers if not ONLY_A_NAME.search(words)]


def folder_of(path):
    """The folder of a function's answers below `proofs`."""
    return "/".join(path.split("::")[1:])


def is_by_hand(crate, path):
    """Whether answers of a function, or what its loops keep, are written by hand, in the folder `crate`: then any other
    shape of its body, also one that means the same, may be refused."""
    folder = crate / "proofs" / folder_of(path)
    if any(folder.glob("*.antt")):
        return True
    # Of a cycle all stands in one folder. That a call goes down is asked of every body.
    answer = re.compile(rf"^(?:[a-z]+ )*(?:invariant-)?{re.escape(folder.name)}-", re.MULTILINE)
    return any(answer.search(one.read_text(encoding="utf-8")) for one in folder.parent.glob("+*/*.antt"))


def check(crate, jobs):
    """The report of a check in the folder of a crate."""
    ran = subprocess.run(["rt", "check", "--jobs", str(jobs)], cwd=crate, stdin=subprocess.DEVNULL,
                         stdout=subprocess.PIPE, stderr=subprocess.PIPE)
    return Report((ran.stdout + ran.stderr).decode("utf-8", "replace"))
