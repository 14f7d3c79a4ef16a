"""What to do about each form that kati refuses or takes otherwise than make."""

NO_FAULT = "no fault"

ADVICE = {
    "shell": "run it before kati and pass the value: kati-port --macros prints it as a word for kati",
    "wildcard": "write the names out, or pass them: kati-port --macros prints them as a word for kati",
    "elsewhere": "assign its value to a macro, use that here, and pass it: NAME=VALUE",
    "in recipe": "let the recipe's shell do it: $$(command); or assign the value to a macro and pass it",
    "function": "write its result out, or pass it: NAME=VALUE",
    "call": "call the function itself: $(NAME ..)",
    "!=": "assign the value by = and pass it: NAME=VALUE; != stays a fault",
    "export": "set it in the recipe that needs it: NAME=$(NAME) command",
    "override": "assign it by =; a NAME=VALUE of the command line wins over it",
    "undefine": "assign nothing to it",
    "private": "use a macro of another name",
    "vpath": "write the folder before the name: %.o: src/%.c",
    "load": "there is nothing in its place",
    "eval in recipe": "move it out of the recipe",
    "name": "write the names out, or pass them: kati \"SRC=$(echo *.c)\"",
    "dependencies": "leave it out; kati-build --deps reads what the compiler writes by -MMD",
    "members": "kati takes it as several names; make the archive from its objects by one rule: lib.a: a.o b.o",
    "archive": "make the archive from its objects by one rule: lib.a: a.o b.o",
    ".ONESHELL": "continue the lines of the recipe by backslashes",
    ".SECONDEXPANSION": "use a static pattern rule, or write a rule for each target by eval",
    ".DEFAULT": "write the rules out",
    ".IGNORE": "put - before the recipe lines",
    ".WAIT": "use order-only prerequisites: a: | b",
    ".EXPORT_ALL_VARIABLES": "set what commands need in the recipes: NAME=$(NAME) command",
    "specific": "use a macro for each target, as $(CFLAGS_$@) in the recipe",
    "tab": "indent it by spaces",
    "behind references": "make takes it, as no rule is open there, and kati ignores it: indent it by spaces",
    "tab condition": "indent it, its else and its endif by spaces, or put them at the line's beginning",
    "recipe comment": "kati joins the lines, so the rest is in the comment as well; put it on a line of its own",
    "recipe condition": "make hands such lines to the shell as well; put them at the line's beginning",
    "blank": "put a blank after it",
    "separator": "a rule has a colon; a macro's name is one word",
    "absent": "make the file first, or write -include",
    "made include": "make makes it where it is absent or out of date, and reads it then; kati-build does, kati doesn't",
    "group": "give it a recipe; use : for double colons and pattern rules",
    "mixed colons": "use one of : and ::",
    "escaped percent": "take another name: \\% isn't taken",
    "double": "make runs it each time; write .PHONY for that",
    "suffix order": "make tries it behind all pattern rules, and kati in its place; keep one of the two",
    "suffix prerequisites": "it is an explicit rule; write a pattern rule: %.o: %.c header.h",
    "built-in rule": "write the rule, as %.o: %.c, or build with kati-build --builtin",
    "built-in macro": "assign it, pass it, or build with kati-build --builtin",
    "of make": "it is empty unless it is assigned",
    "inner make": "it runs make, not kati, as one command that knows no macro of the command line",
    "environment": "pass it: NAME=VALUE; kati takes nothing from the environment",
    "VPATH": "it has no effect; write the folder before the name: %.o: src/%.c",
    ".RECIPEPREFIX": "it has no effect; begin recipe lines with a tab",
    "$?": "it is $^ here: only ninja knows what is newer",
    "$%": "it is empty: archive members aren't taken",
    ".NOTPARALLEL": "kati-build --port keeps it; build by ninja -j1, or write the order as prerequisites",
    "library": "it is a plain name here; write the library's path, or move it into the recipe",
}

KINDS = {
    "E04": ["absent"],
    "E05": ["blank", "separator"],
    "E06": ["tab", "tab condition"],
    "E16": ["shell", "wildcard", "elsewhere", "in recipe", "function", "call"],
    "E17": ["!=", "export", "override", "undefine", "private", "vpath", "load"],
    "E20": ["name", "dependencies", "archive", "escaped percent"],
    "E22": [".ONESHELL", ".SECONDEXPANSION", ".DEFAULT", ".IGNORE", ".WAIT", ".EXPORT_ALL_VARIABLES"],
    "E23": ["specific"],
    "E24": ["mixed colons"],
    "E32": ["eval in recipe"],
    "E35": ["group"],
}
NUMBERS = {kind: number for number, kinds in KINDS.items() for kind in kinds}


class Finding:
    """A form that stands in the way, and where; `is_idle` says that kati doesn't take the branch that it is in."""

    def __init__(self, file, number, form, kind):
        self.file, self.number, self.form, self.kind = file, number, " ".join(form.split()), kind
        self.is_idle = False

    def fault(self):
        """The number of the fault, or the words for none."""
        return NUMBERS.get(self.kind, NO_FAULT)

    def told(self):
        """The line that tells of it."""
        form = self.form if len(self.form) <= 60 else self.form[:57] + "..."
        idle = ", not taken" if self.is_idle else ""
        return f"{self.file}:{self.number}: {form} [{self.fault()}{idle}] {ADVICE[self.kind]}"
