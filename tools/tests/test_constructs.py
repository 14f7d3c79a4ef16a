"""The table of what mends each construct is the one that docs/PORTING.md has, and nothing else mends any."""
import re
import unittest

from support import TOP

from kati_tools.port import constructs, mender

TABLE = re.compile(r"^\| Construct \| What becomes of it \|\n\|---\|---\|\n((?:\|.*\|\n)+)", re.MULTILINE)


def rows_of(text):
    """The first cells of the rows of a document's table of constructs."""
    return [row.split(" | ")[0][len("| "):] for row in TABLE.search(text).group(1).splitlines()]


class Constructs(unittest.TestCase):
    """The two tables."""

    def test_rows_are_those_of_porting(self):
        rows = rows_of((TOP / "docs/PORTING.md").read_text())
        self.assertEqual(sorted(rows), sorted(one.row for one in constructs.CONSTRUCTS))
        self.assertEqual(len(rows), len(set(rows)))

    def test_each_row_has_what_mends_it(self):
        for one in constructs.CONSTRUCTS:
            with self.subTest(one.row):
                self.assertTrue(one.faults or one.other or one.when_read or one.at_first or one.mender)

    def test_each_mender_has_a_row(self):
        self.assertEqual(set(mender.Mender.__subclasses__()), set(constructs.MENDERS))
        self.assertLessEqual(set(constructs.AT_THE_END), set(constructs.MENDERS))

    def test_what_kati_gets_at_the_end_comes_from_a_place_that_is_known(self):
        giving = {one for one in constructs.MENDERS if one.tail is not mender.Mender.tail
                  or one.head is not mender.Mender.head}
        self.assertEqual(giving, set(constructs.AT_THE_END))


if __name__ == "__main__":
    unittest.main()
