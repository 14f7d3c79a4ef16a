"""Where python3 is a shim of pyenv's, the tools have the user's PATH, as the user's make and ninja."""
import os
import sys
import unittest

from support import TOOLS, Tree, needs

from kati_tools.base import shims

# What pyenv does: its program has put its own folders before PATH, and then that of the version.
SHIM = """\
#!/bin/sh
export PYENV_ROOT="{root}" _PYENV_INSTALL_PREFIX="{root}"
for plugin in "{root}"/plugins/*/bin; do PATH="$plugin:$PATH"; done
export PATH="{root}/versions/3/bin:{root}/libexec:$PATH"
exec "{root}/versions/3/bin/python3" "$@"
"""


class Paths(unittest.TestCase):
    """What of a PATH is the user's own."""

    def test_what_pyenv_puts_before_it(self):
        own = "/p/versions/3/bin:/p/libexec:/p/plugins/a/bin:/p/plugins/b/bin"
        for path, wanted in ((f"{own}:/p/shims:/bin", "/p/shims:/bin"), ("/p/libexec:/bin", "/bin"),
                             (f"{own}:{own}:/bin", f"{own}:/bin"),
                             ("/p/versions/3/bin:/bin", "/p/versions/3/bin:/bin"),
                             ("/x/bin:/p/libexec:/bin", "/x/bin:/p/libexec:/bin"),
                             ("/p/plugins/a/bin:/bin", "/p/plugins/a/bin:/bin"), ("", "")):
            self.assertEqual(shims.without_shims(path, ["/p"]), wanted)


@needs("kati", "kati-asked", "make", "ninja")
class Shims(Tree):
    """A port of a makefile that has PATH in its commands."""

    def test_the_commands_are_those_of_make_and_ninja(self):
        root = self.top.parent / "pyenv"
        for name in ("libexec", "plugins/a/bin", "plugins/b/bin", "versions/3/bin", "shims"):
            (root / name).mkdir(parents=True)
        # No link: Python looks beside what it is a link to for its modules, and is named by that.
        self.program("pyenv/versions/3/bin/python3", f'exec {sys.executable} "$@"')
        self.program("pyenv/shims/python3", SHIM.format(root=root))
        path = f"{root}/shims:{os.environ['PATH']}"
        self.put("Makefile", "export PATH := $(CURDIR)/bin:$(PATH)\nout: a.c\n\techo \"$$PATH\" > $@\n")
        self.put("a.c", "")
        self.assertEqual(self.run_in("make", "-s", PATH=path).status, 0)
        wanted = self.read("out")
        self.assertEqual(wanted, f"{self.top}/bin:{path}\n")
        (self.top / "out").unlink()
        build = ("python3", TOOLS / "kati-build", "--port")
        self.assertEqual(self.run_in(*build, PATH=path).status, 0)
        self.assertEqual(self.read("out"), wanted)
        self.touch("Makefile")
        ran = self.run_in("ninja", PATH=path)
        self.assertNotIn("$PATH", ran.all)
        self.assertIn("no work to do", ran.out)


if __name__ == "__main__":
    unittest.main()
