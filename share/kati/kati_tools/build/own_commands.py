"""Whether what an include says may change the command that makes it: a look at the texts of makefiles, which spares
kati a run where it can't.

It answers yes rather than no. An include of plain assignments changes nothing but what hangs on its macros: these are
followed from line to line, as far as lines are assignments; where another line has one of them that may have a say in
that command, the answer is yes."""
from ..makefile import quick_looks, statements, syntax
from ..makefile.syntax import Kind

# Macros that have a say in each command, though no recipe names them.
OF_ALL_COMMANDS = {"SHELL", "MAKE", "MAKEFLAGS", "MFLAGS", "MAKEFILES", "VPATH", "GPATH"}
ALL_NAMES = ".VARIABLES"
PASSED_OVER = (Kind.BLANK, Kind.ENDEF)
CONDITIONS = [[word] for word in statements.CONDITIONS]


def assigned(text):
    """The macros that a makefile assigns, where it does nothing else; else None."""
    found = set()
    for kind, says in map(syntax.statement, quick_looks.without_continuations(text).split("\n")):
        is_plain = kind is Kind.ASSIGNMENT and not says.words and "$" not in says.name
        if not is_plain and kind is not Kind.BLANK:
            return None
        found.update([says.name] if is_plain else [])
    return found


class Makefiles:
    """The lines of makefiles, each with the name of the `define` that it stands in, and whether it is of a rule for an
    include, whose own text isn't among them."""

    def __init__(self, texts, include):
        self.lines, self.has_recipe = [], False
        for text in texts:
            self.add(quick_looks.without_continuations(text).split("\n"), include)
        self.text = "\n".join(line for line, _, _ in self.lines)

    def add(self, lines, include):
        """Adds a makefile's lines."""
        definition, is_own = None, False
        for line in lines:
            # A conditional may stand within a recipe.
            if line[:1] not in ("", "\t", "#") and line.split()[:1] not in CONDITIONS:
                kind, says = syntax.statement(line) if "def" in line or include in line else (None, None)
                definition = says.name if kind is Kind.DEFINE else None if kind is Kind.ENDEF else definition
                is_own = kind is Kind.RULE and include in says.targets
                self.has_recipe |= is_own and says.recipe is not None
            self.has_recipe |= is_own and line.startswith("\t")
            self.lines.append((line, definition, is_own and not line.startswith("#")))

    def with_names(self, names):
        """The lines that have one of these names."""
        form = quick_looks.form_of(names)
        return [one for one in self.lines if form.search(one[0])]


def taken(line, definition):
    """The macros to which a line, which has a macro, gives a value by that; None where it may do anything else that has
    a say in another target's command. kati, which has taken the makefiles, takes no `eval` in recipes."""
    if definition is not None:
        return {definition} if "$" not in definition else None
    kind, says = syntax.statement(line.lstrip("\t "))
    if kind is Kind.ASSIGNMENT:
        return {says.name} if "$" not in says.name else None
    if kind is Kind.TARGET_ASSIGNMENT:
        return {says.specific.name}
    is_of_recipe = line.startswith("\t") and kind is not Kind.CONDITION
    is_plain_rule = kind is Kind.RULE and not {"$", "%"}.intersection(" ".join(says.targets))
    return set() if is_of_recipe or is_plain_rule or kind in PASSED_OVER else None


def may_hang_on_itself(text, include, texts):
    """Whether another text of an include may change the command that makes it, by the texts of all other makefiles."""
    names, made = assigned(text), Makefiles(texts, include)
    if names is None or not made.has_recipe:
        return True
    computed = set(quick_looks.beginnings_of_computed(made.text))
    left = set(names)
    while left:
        new = set()
        for line, definition, is_own in made.with_names(left):
            found = None if is_own else taken(line, definition)
            if found is None:
                return True
            new |= found
        left = new - names
        names |= left
    is_asked = ALL_NAMES in made.text or any(name.startswith(begin) for begin in computed for name in names)
    return is_asked or not OF_ALL_COMMANDS.isdisjoint(names) or any(name.startswith(".") for name in names)
