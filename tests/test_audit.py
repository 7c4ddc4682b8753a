"""The program's audit of sites in files: all that is wrong with them, beside what a look and a run refuse; its words,
and what it tells where a read or the output fails. It changes nothing."""

import re
import shutil
import unittest

import test_spoiled_sites as spoiled
from audited_sites import FRAMES, findings as listed
from fixtures import CASES, EXAMPLES, SiteTest, tests_of

TITLE = "MSS AUDIT 1\n"
REFUSED = "restart refused "
COPIES = r"volume \d+ cop(?:y [AB] (?:closed|also damaged)|ies differ) "  # what a restart doesn't refuse
SOUND = CASES / "spoiled/frame_gone.site"  # of two volumes, before it is spoiled
BLOCK = spoiled.BLOCK

# Bytes that are put into the table, by copy, block and place; words behind `audit`; and the findings that are due.
FRAME_7 = [(0, 12), (1, 15)]  # page 0 of volume 0, page 3 of volume 1
THREE_PAGES = [(0, 12), (0, 62), (1, 15)]
FOUND = [
    ("a sound site", [], "", []),
    (
        "copy B closed beside a frame of two pages",
        [(copy, *page, "07") for copy in "ab" for page in FRAME_7] + [("b", 0, 0, "00")],
        "--frames 8",
        ["volume 0 copy B closed", "frame 7 twice volume 0 page 0 volume 1 page 3"],
    ),
    (
        "a frame of three pages",
        [(copy, *page, "07") for copy in "ab" for page in THREE_PAGES],
        "",
        ["frame 7 twice volume 0 page 0 volume 0 page 50", "frame 7 twice volume 0 page 0 volume 1 page 3"],
    ),
    ("copy A closed", [("a", 1, 0, "00")], "", ["volume 1 copy A closed"]),
    (
        "a slot of copy B that says what the body of copy A does",
        [("a", 0, 12, "07"), ("b", 0, 512, "C101000007000000")],
        "--frames 8",
        [],
    ),
    (
        "copy A that spells no row, and copy B closed",
        [("a", 0, 64, "09"), ("b", 0, 0, "00")],
        "",
        ["volume 0 copy A row state 0 value 9"],
    ),
    ("copies that differ", [("b", 0, 12, "07")], "", ["volume 0 copies differ place 12 values 255 7"]),
    ("a copy that spells no row", [("b", 0, 64, "09")], "", ["volume 0 copy B also damaged state 0 value 9"]),
    (
        "two cartridges, of one volume and of two",
        [(copy, 0, 10, "0000") for copy in "ab"] + [(copy, 1, 8, "0000") for copy in "ab"],
        "",
        [
            "cartridge 0 twice volume 0 half 1 volume 0 half 2",
            "cartridge 0 twice volume 0 half 1 volume 1 half 1",
        ],
    ),
    (
        "a cartridge of three halves, and a frame that isn't there",
        [(copy, block, 11, "00") for copy in "ab" for block in (0, 1)] + [(copy, 1, 12, "08") for copy in "ab"],
        "--frames 8",
        [
            "cartridge 0 twice volume 0 half 1 volume 0 half 2",
            "cartridge 0 twice volume 0 half 1 volume 1 half 2",
            "frame 8 gone",
        ],
    ),
    ("a frame that isn't there", [(copy, 0, 12, "08") for copy in "ab"], "--frames=8 --", ["frame 8 gone"]),
    ("as many frames as it wants", [(copy, 0, 12, "08") for copy in "ab"], "--frames 9", []),
    ("all frames", [(copy, 0, 12, "C7") for copy in "ab"], "--", []),
    ("all frames but one", [(copy, 0, 12, "C7") for copy in "ab"], "--frames 199", ["frame 199 gone"]),
]

# Words that are no command.
NO_WORDS = [
    "audit x",
    "audit audit",
    "audit -- --",
    "audit --frames",
    "audit --frames=",
    "audit --frames 0",
    "audit --frames 201",
    "audit --frames +1",
    "audit --frames 000000000000000000001",
    "audit --frames 1 --frames=1",
    "audit --order 1",
    "audit --copy 0",
    "show --frames 1",
    "serial --frames 1",
    "policy lru --frames 1",
    "--frames 1 audit",
]


def text_of(findings):
    """A whole audit, with its status."""
    lines = [f"finding {number} {finding}\n" for number, finding in enumerate(findings, 1)]
    return "".join([TITLE, *lines, "END\nstatus 0"])


def findings_of(told):
    """What the lines of an audit say behind their numbers."""
    return [line.split(" ", 2)[2] for line in told.splitlines() if line.startswith("finding ")]


@tests_of(FOUND)
class Found(spoiled.SiteOfCase):
    """All that is wrong with a site of two volumes."""

    def check(self, puts, words, findings):
        self.begin(SOUND)
        for copy, block, place, given in puts:
            self.change("put", f"table_{copy}", block, place, given)
        before = self.contents()
        frames = re.search(r"\d+", words)
        self.assertEqual(listed(self.site, int(frames[0]) if frames else FRAMES), findings, "the list in Python")
        self.assert_told(text_of(findings), self.told("audit", *words.split()))
        self.assertTrue(self.contents() == before, "an audit wrote")


@tests_of([(path.stem, path) for path in spoiled.SITES])
class SpoiledSites(spoiled.SiteOfCase):
    """The first finding for which a restart refuses a site is the one that a look and a run tell."""

    def check(self, path):
        self.begin(path)
        self.go_on()

    def compare(self, due):
        before = self.contents()
        words = [] if due.command == "show" else ["--frames", str(self.case.frames)]
        told = self.told("audit", *words)
        found = findings_of(told)
        self.assert_told(text_of(found), told)
        self.assertEqual(found, listed(self.site, self.case.frames if words else FRAMES))
        refusals = [finding for finding in found if not re.match(COPIES, f"{finding} ")]
        refused = [line.removeprefix(REFUSED) for line in due.lines if line.startswith(REFUSED)]
        self.assertEqual(refusals[:1], refused)
        self.assertTrue(self.contents() == before, "an audit wrote")
        super().compare(due)


@tests_of([(f"{number:02} {words}", words) for number, words in enumerate(NO_WORDS, 1)])
class RefusedWords(SiteTest):
    """Words that are no command: nothing is touched."""

    def check(self, words):
        self.assert_told("words refused\nstatus 1", self.told(*words.split()))
        self.assertFalse(self.site.exists(), "a folder was made")


class Calls(SiteTest):
    """Sites that a run left, that aren't there, or that can't be read."""

    def setUp(self):
        super().setUp()
        self.told("serial", text=(EXAMPLES / "first.job").read_bytes())

    def test_what_a_run_left(self):
        self.assert_told(text_of([]), self.told("audit"))

    def test_no_site(self):
        shutil.rmtree(self.site)
        self.assert_told(text_of([]), self.told("audit"))
        self.assertFalse(self.site.exists(), "an audit made a folder")

    def test_a_table_that_is_unread(self):
        for name in ("table_a", "table_b"):
            with self.subTest(name):
                kept = (self.site / name).rename(self.site / "kept")
                (self.site / name).mkdir()
                self.assert_told(f"{TITLE}STOPPED 1\nstatus 5", self.told("audit"))
                (self.site / name).rmdir()
                kept.rename(self.site / name)
        self.assert_told(text_of([]), self.told("audit"))

    def test_a_full_device(self):
        with open("/dev/full", "wb") as full:
            self.assertEqual(self.ran("audit", stdout=full).returncode, 7)


if __name__ == "__main__":
    unittest.main()
