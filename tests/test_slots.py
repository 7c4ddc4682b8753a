"""Changes of the table's rows, by the bytes that docs/FORMATS.md gives them: each appends a slot to both copies, and a copy
of which all slots are in use is written whole. A run that is killed within that leaves a site that shows the same."""

import re
import signal
import unittest

from fixtures import CASES, EXAMPLES, PROGRAM, SiteTest, remove_site, run
from test_stops import may_trace

BLOCK, SLOTS_AT, SLOTS, SLOT = 16_384, 512, 1_984, 8
OPEN = b"\xc1"
FRAME_OF_PAGE_0 = 12
FIRST = (EXAMPLES / "first.job").read_bytes()
VOLUME_ALONE = b"mss 1 frames 1 recorders 1\nvolume 0 VOL001\ndone\n"

# What the first job does to its volume's row: page 0 gets frame 0, and cylinder 5 is staged and then changed.
ASSIGNED, STAGED, CHANGED = (bytes.fromhex(body) for body in ("01000000000000", "03000500000000", "04000500000000"))
FREED = bytes.fromhex("02000000000000")
CHANGE = re.compile(r"^change \d+ volume (\d+) (assign|free|staged|changed|destaged) (.*)$", re.M)
SPELLED = {
    "assign": lambda page, frame: bytes([1, 0, page, frame, 0, 0, 0]),
    "free": lambda page, frame: bytes([2, 0, page, 0, 0, 0, 0]),
    "staged": lambda cylinder: bytes([3, *divmod(cylinder, 256), 0, 0, 0, 0]),
    "changed": lambda cylinder: bytes([4, *divmod(cylinder, 256), 0, 0, 0, 0]),
    "destaged": lambda cylinder: bytes([5, *divmod(cylinder, 256), 0, 0, 0, 0]),
}
# A change appends by two writes to each copy, and writes a full copy by four. A cylinder is copied by 19 writes, and a
# record that is the first of its track is written by two.
APPENDING, WHOLE, CYLINDER, RECORD = 2 * 2, 2 * 4, 19, 2


def slots_of(block):
    """The bodies of the slots in use."""
    bodies = []
    for at in range(SLOTS_AT, len(block), SLOT):
        if block[at : at + 1] != OPEN:
            break
        bodies.append(block[at + 1 : at + SLOT])
    return bodies


class Slots(SiteTest):
    """The slots of a row after runs."""

    def rows(self):
        """The two copies of the row of volume 0."""
        return [(self.site / name).read_bytes()[:BLOCK] for name in ("table_a", "table_b")]

    def fill(self):
        """Makes a site with a volume in no frame, whose row has no slot free in either copy."""
        remove_site(self.folder)
        self.assertEqual(self.ran("serial", text=VOLUME_ALONE).returncode, 0)
        bodies = SLOTS // 2 * (OPEN + ASSIGNED + OPEN + FREED)
        for name, row in zip(("table_a", "table_b"), self.rows(), strict=True):
            (self.site / name).write_bytes(row[:SLOTS_AT] + bodies)

    def traced(self, *options):
        """A run of the first job under strace, with the lines of its writes."""
        tracing = ["strace", "--quiet=all", "--output=calls", "--trace=pwrite64", *options]
        ran = run([*tracing, PROGRAM, "serial"], self.folder, FIRST)
        return ran, (self.site.parent / "calls").read_text()

    def test_changes_append_slots(self):
        self.assertEqual(self.ran("serial", text=FIRST).returncode, 0)
        for row in self.rows():
            self.assertEqual(slots_of(row), [ASSIGNED, STAGED, CHANGED])
            self.assertEqual(row[FRAME_OF_PAGE_0], 0xFF, "the frame in the body")

    def test_each_change_has_its_slot(self):
        """Those of two jobs, of which the second one frees pages that the first one wrote, as their reports list them."""
        due = {}
        for path in (CASES / "cartridges.job", CASES / "left/cartridges.job"):
            self.assertEqual(self.ran("serial", text=path.read_bytes()).returncode, 0)
            for volume, change, rest in CHANGE.findall(path.with_suffix(".report").read_text()):
                due.setdefault(int(volume), []).append(SPELLED[change](*(int(word) for word in re.findall(r"\d+", rest))))
        for name in ("table_a", "table_b"):
            table = (self.site / name).read_bytes()
            for volume, slots in due.items():
                self.assertEqual(slots_of(table[BLOCK * volume : BLOCK * (volume + 1)]), slots, f"{name}, volume {volume}")

    def test_a_full_row_is_written_whole(self):
        self.fill()
        self.assertEqual(self.ran("serial", text=FIRST).returncode, 0)
        for row in self.rows():
            self.assertEqual(slots_of(row), [STAGED, CHANGED])
            self.assertEqual(row[FRAME_OF_PAGE_0], 0, "the frame in the body")

    def test_the_last_slot(self):
        """Copy B has two slots free, and copy A none: it is written whole two changes later."""
        self.fill()
        (self.site / "table_b").write_bytes(self.rows()[1][: BLOCK - 2 * SLOT])
        self.assertEqual(self.ran("serial", text=FIRST).returncode, 0)
        a, b = self.rows()
        self.assertEqual(slots_of(a), [STAGED, CHANGED])
        self.assertEqual((slots_of(b), b[FRAME_OF_PAGE_0]), ([], 0))

    @unittest.skipUnless(may_trace(), "this machine has no strace, or may not trace")
    def test_kills_within_the_writing_of_a_full_row(self):
        self.fill()
        shown = self.told("show")
        ran, calls = self.traced()
        self.assertEqual(ran.returncode, 0)
        self.assertEqual(len(calls.splitlines()), WHOLE + CYLINDER + 2 * APPENDING + RECORD)
        for number in range(1, WHOLE + 1):
            self.fill()
            ran, _ = self.traced(f"--inject=pwrite64:signal=KILL:when={number}")
            self.assertEqual(ran.returncode, -signal.SIGKILL, f"killed at write {number}")
            self.assert_told(shown, self.told("show"), f"killed at write {number}")
            self.assertEqual(self.ran("serial", text=FIRST).returncode, 0, f"killed at write {number}, then run again")
