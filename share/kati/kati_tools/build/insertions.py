"""kati's text with the lines that kati-build adds to the blocks of statements: where header dependencies are, that
a file counts only where it changed, that one without inputs is made once, what includes want that rules make, and
pools."""
from . import always_run, ninja_text, without_inputs
from ..base.programs import bytes_of


class Content:
    """A translation's text with these lines, as bytes. `is_katis` says that there are none, so that it is kati's own,
    which isn't read here. `asked` are the bytes of which `kati --check` is asked: `data` without what stands in the
    place of lines of kati's for `statements` of includes, and without `pools`, which it refuses. `included` are
    patterns of what make includes. `hanging` is what hangs on targets that are made at each run."""

    def __init__(self, translation, has_headers, statements=None, included=(), pools=None):
        self.hanging, self.doubts = always_run.Hanging(translation), []
        added = self.hanging.lines()
        add(added, without_inputs.lines(translation))
        if has_headers:
            # What it takes time to load is loaded only where it is needed.
            from . import header_dependencies
            headers = header_dependencies.Dependencies(translation.statements, included, translation.asked or ())
            add(added, headers.lines())
            self.doubts = headers.doubts
        if statements:
            add(added, statements.added)
        self.is_katis = not (added or statements or pools)
        self.asked = self.data = None if self.is_katis else bytes_of(ninja_text.with_lines(translation.text, added))
        if statements or pools:
            add(added, pools.lines if pools else {})
            replaced = statements.replaced if statements else {}
            self.data = bytes_of(ninja_text.with_lines(translation.text, added, replaced))


def add(added, lines):
    """Adds lines, by the numbers of those before them, to others; each once in a place."""
    for number, more in lines.items():
        added[number] = list(dict.fromkeys([*added.get(number, []), *more]))
