"""Audits of sites that are spoiled as numbers draw it. What the program lists of each has to be the list that is made
in Python by the rules of docs/FORMATS.md and docs/SITES.md."""

import re
import unittest

import test_spoiled_sites as spoiled
from audited_sites import FRAMES, findings
from drawn_sites import Spoiling
from fixtures import SHOWN, difference, remove_site, tests_of
from test_audit import text_of

DRAWN = 500

# Each line that an audit of the program may have is that of some drawn site, and some sites have none.
LINES = [
    "copy A closed",
    "copy B closed",
    "also damaged",
    "copies differ",
    "copy A row",
    "copy B row",
    r"row slot \d",
    r"cartridge \d+ twice",
    r"frame \d+ gone",
    r"frame \d+ twice",
    "torn track",
    "staged differs",
    "^$",
]


class SpoiledTest(spoiled.SiteOfCase):
    """A test of sites that are spoiled as numbers draw it."""

    def spoil(self, spoiling, lines):
        """Makes the site before it is spoiled, and does these lines to it."""
        remove_site(self.folder)
        self.site.mkdir()
        for name, content in spoiling.site.files.items():
            (self.site / name).write_bytes(content)
        for line in lines:
            self.change(*line.split(" "))

    def due(self, spoiling):
        return findings(self.site, FRAMES if spoiling.frames is None else spoiling.frames)


@tests_of([(f"site {number:03}", number) for number in range(DRAWN)])
class DrawnSites(SpoiledTest):
    """Spoiled sites, each by its number."""

    def fault(self, spoiling, lines):
        """What is wrong with the audit after these lines; none where it is the list."""
        self.spoil(spoiling, lines)
        return difference(text_of(self.due(spoiling)), self.told("audit", *spoiling.words()))

    def check(self, number):
        spoiling = Spoiling(number)
        found, lines = self.fault(spoiling, spoiling.lines), spoiling.lines
        if found:
            for line in spoiling.lines:
                fewer = [other for other in lines if other != line]
                lines = fewer if self.fault(spoiling, fewer) else lines
            asked = " ".join(["audit", *spoiling.words()])
            shown = "\n".join(line[:SHOWN] for line in lines)
            self.fail(f"site {number}, {asked}: {found}. These lines alone make it differ too:\n{shown}")


class Lines(SpoiledTest):
    """What the drawn sites show."""

    def test_each_line_is_drawn(self):
        missing = set(LINES)
        for number in range(DRAWN):
            if not missing:
                break
            spoiling = Spoiling(number)
            self.spoil(spoiling, spoiling.lines)
            listed = "\n".join(self.due(spoiling))
            missing -= {line for line in missing if re.search(line, listed)}
        self.assertEqual(missing, set())


if __name__ == "__main__":
    unittest.main()
