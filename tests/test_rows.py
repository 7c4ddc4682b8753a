"""Rows of the table that are spelled by hand, as docs/FORMATS.md says, and what the program finds there: each byte
that is FF, two copies in each pair of forms, slots of each kind, and blocks of tracks in each state of their
cylinder.

What a row tells of a page and of a cylinder shows where the program looks: a frame that isn't there is told as gone,
and a torn block is found where the cylinder's state leads, on the cartridge or in the frame."""

import unittest

from fixtures import SiteTest, tests_of
from audited_sites import (
    BLOCK, CYLINDERS_OF_CARTRIDGE, CYLINDERS_OF_PAGE, FRAMES_AT, FRAMES_OF_DISK, HEADS, MADE_AT, SLOTS_AT, STATES_AT,
)  # fmt: skip
from test_spoiled_sites import spelled_row

TITLE, LISTING = "MSS AUDIT 1\n", "MSS VOLUMES 1\n"
TABLE = ("table_a", "table_b")
VOLUME = "volume 0 VOL001"

# The first record of a torn block would end behind it. C2 is no open gate.
TORN = [(129, "C1"), (262, "FFFF")]
BLANK = [(129, "C2"), (262, "FFFF")]

# What is found of a row by hand where a place has FF. Without its gate there is no row. Page 0 loses its frame, which
# cylinder 0 stands in, and page 50 that of cylinder 403.
SPOILED_BYTES = [
    (1, 1, "version value 255"),
    *((place, place, f"serial {place - 2} value 255") for place in range(2, 8)),
    (8, 8, "first value 65282"),
    (9, 9, None),
    (10, 10, "second value 65535"),
    (11, 11, None),
    (12, 12, "state 0 value 3"),
    (13, 61, None),
    (62, 62, "state 403 value 2"),
    (63, 63, "mark value 255"),
    *((place, place, f"state {place - 64} value 255") for place in range(64, 468)),
    *((place, place, f"spare {place - 467} value 255") for place in range(468, 511)),
    (511, 511, None),
]

# A version and a byte in the place of the mark, and what is found of that row.
VERSIONS = [
    (0, 0, "version value 0"),
    (1, 0, None),
    (1, 1, "spare 0 value 1"),
    (2, 0, None),
    (2, 1, None),
    (2, 2, "mark value 2"),
    (3, 0, "version value 3"),
]

# What copy A of a row is, and what copy B, and what is told: the copy that counts, none, or why the site is refused.
# Each failed read is counted, and of the 31 volumes before this one a copy is read in vain as well.
BAD_A, BAD_B = ("volume 31 copy {} row version value 9".format(copy) for copy in "AB")
UNREAD = "volume 31 unread fault 32"
PAIRS = [
    ("row", "row", "A"),
    ("row", "damaged", "A"),
    ("row", "never", "A"),
    ("row", "closed", "A"),
    ("row", "unread", "A"),
    ("damaged", "row", BAD_A),
    ("damaged", "damaged", BAD_A),
    ("damaged", "never", BAD_A),
    ("damaged", "closed", BAD_A),
    ("damaged", "unread", BAD_A),
    ("never", "row", "B"),
    ("never", "damaged", BAD_B),
    ("never", "never", None),
    ("never", "closed", None),
    ("never", "unread", None),
    ("closed", "row", "B"),
    ("closed", "damaged", BAD_B),
    ("closed", "never", None),
    ("closed", "closed", None),
    ("closed", "unread", UNREAD),
    ("unread", "row", "B"),
    ("unread", "damaged", BAD_B),
    ("unread", "never", None),
    ("unread", "closed", UNREAD),
    ("unread", "unread", "volume 0 unread fault 2"),
]

# Slots behind the body of a new row, and which of them is at fault: by the bytes that spell no change, or by a change
# that isn't allowed behind those before it. The last has two such slots.
ASSIGN_0, FREE_0, STAGE_0, CHANGE_0, DESTAGE_0 = (
    "C101000007000000", "C102000000000000", "C103000000000000", "C104000000000000", "C105000000000000",
)  # fmt: skip
ASSIGN_1, AGAIN = "C101000107000000", "C101000008000000"
PROTECT, UNPROTECT = "C106000100000000", "C106000000000000"
BAD_SLOTS = [
    (["C100000000000000"], 0, 0),
    ([UNPROTECT], 0, 6),
    ([PROTECT, PROTECT], 1, 6),
    (["C106000200000000"], 0, 6),
    (["C106010000000000"], 0, 6),
    (["C106000101000000"], 0, 6),
    (["C107000000000000"], 0, 7),
    (["C101003307000000"], 0, 1),
    (["C101010007000000"], 0, 1),
    (["C1010000C8000000"], 0, 1),
    (["C1010000FF000000"], 0, 1),
    (["C101000007010000"], 0, 1),
    (["C101000007000100"], 0, 1),
    (["C101000007000001"], 0, 1),
    ([ASSIGN_0, "C102000007000000"], 1, 2),
    (["C101003207000000", "C103019400000000"], 1, 3),
    ([FREE_0], 0, 2),
    ([STAGE_0], 0, 3),
    ([CHANGE_0], 0, 4),
    ([DESTAGE_0], 0, 5),
    ([ASSIGN_0, AGAIN], 1, 1),
    ([ASSIGN_0, ASSIGN_1], 1, 1),
    ([ASSIGN_0, STAGE_0, CHANGE_0, FREE_0], 3, 2),
    ([ASSIGN_0, DESTAGE_0, "C107000000000000"], 1, 5),
]

# What may follow a row without frames, with one for page 0, with cylinder 0 staged, with it changed, and destaged.
CHANGES = {
    "assign": ASSIGN_0,
    "other": ASSIGN_1,
    "free": FREE_0,
    "stage": STAGE_0,
    "change": CHANGE_0,
    "destage": DESTAGE_0,
    "protect": PROTECT,
    "unprotect": UNPROTECT,
}
ALLOWED = [
    ([], ["assign", "other", "protect"]),
    ([ASSIGN_0], ["free", "stage", "protect"]),
    ([ASSIGN_0, STAGE_0], ["free", "change", "protect"]),
    ([ASSIGN_0, STAGE_0, CHANGE_0], ["destage", "protect"]),
    ([ASSIGN_0, STAGE_0, CHANGE_0, DESTAGE_0], ["free", "change", "protect"]),
    ([PROTECT], ["assign", "other", "unprotect"]),
]

# Slots, and then the frame of page 0 and the state of cylinder 0.
KINDS = [
    ([], None, 0),
    ([ASSIGN_0], 7, 0),
    ([ASSIGN_0, STAGE_0], 7, 2),
    ([ASSIGN_0, STAGE_0, CHANGE_0], 7, 4),
    ([ASSIGN_0, STAGE_0, CHANGE_0, DESTAGE_0], 7, 3),
    ([ASSIGN_0, STAGE_0, FREE_0], None, 0),
    ([ASSIGN_0, FREE_0, AGAIN], 8, 0),
]

# A volume's life in changes of page 50 and cylinder 403, and the state of that behind each.
LIFE = [
    ("C1010032C7000000", 0),
    ("C103019300000000", 2),
    ("C102003200000000", 0),
    ("C1010032C7000000", 0),
    ("C103019300000000", 2),
    ("C104019300000000", 4),
    ("C105019300000000", 3),
    ("C104019300000000", 4),
    ("C105019300000000", 3),
    ("C102003200000000", 1),
    ("C1010032C7000000", 1),
    ("C103019300000000", 3),
]

# What is found where a torn block is on the cartridge, and where one is in the frame, by the state of the cylinder.
BY_STATE = [
    (None, None),
    ("torn track", None),
    (None, "staged differs"),
    ("torn track", "staged differs"),
    (None, "torn track"),
]

# Cylinder 0 is in a state, its block on a unit has bytes put, and that is found.
LAST = [(16_383, "31")]
TRACKS = [
    (0, "cartridge_0", TORN, None),
    (1, "cartridge_0", TORN, "torn track"),
    (1, "staging_0", TORN, None),
    (2, "staging_0", TORN, "staged differs"),
    (2, "staging_0", LAST, None),
    (2, "staging_0", BLANK, None),
    (3, "cartridge_0", TORN, "torn track"),
    (3, "cartridge_0", BLANK, "staged differs"),
    (3, "staging_0", LAST, "staged differs"),
    (4, "cartridge_0", TORN, None),
    (4, "staging_0", TORN, "torn track"),
]

# The lengths of a first record's data, and what is found: 16,120 bytes end the block, and 13,030 cost 13,165.
TOO_LONG = ["FFFF", "3EF9", "3EF8", "32E7"]
LENGTHS = [*((length, "torn track") for length in TOO_LONG), ("32E6", None)]

# The first bytes of blocks that another machine wrote, which has 98 open gates and no byte of a count: how many gates
# are open of track 0 of cylinder 0 in its frame, on the cartridge, and of track 0 of cylinder 2 there. A block whose
# gates are shut is blank, and one with 97 open gates has as many empty records, which cost 13,095. With 98 they cost
# 13,230.
FRONT = (0, 100 * "FF")
STAGED_0, TORN_0 = "staged differs volume 0 cylinder 0", "torn track volume 0 cylinder 0"
TORN_2 = "torn track volume 0 cylinder 2"
FRONTS = [
    (FRONT, 0, 0, 0, None),
    (FRONT, 97, 97, 97, None),
    (FRONT, 97, 97, 98, f"{TORN_2} head 0"),
    (FRONT, 97, 0, 98, f"{STAGED_0} head 0"),
    (FRONT, 0, 97, 0, f"{STAGED_0} head 0"),
    ((0, 99 * "FF"), 0, 0, 0, f"{STAGED_0} head 0"),
    (FRONT, 98, 98, 0, f"{TORN_0} head 0"),
    (FRONT, 97, 98, 0, f"{TORN_0} head 0"),
]

# The frame of page 50, and what a run with eight frames tells.
FRAMES = [(0, None), (7, None), (8, "frame 8 gone"), (199, "frame 199 gone"), (200, "volume 0 copy A row page 50 value 200")]


def row_by_hand(first_page, last_page, version=2, mark=0):
    """Volume VOL001 on the cartridges 258 and 2,047, open and made. Pages 0 and 50 have these frames. Cylinder 0 is staged,
    cylinder 1 changed, cylinder 2 on its cartridge, cylinder 403 staged blank."""
    row = bytearray(512)
    row[:12] = b"\xc1\x00VOL001\x01\x02\x07\xff"
    row[1], row[63] = version, mark
    row[12:63] = 51 * b"\xff"
    row[12], row[62] = first_page, last_page
    row[64:67] = bytes([3, 4, 1])
    row[467] = 2
    row[511] = 0x4D
    return bytes(row)


def copy_of(kind, serial):
    """A copy of the row of a new volume, with what a test has done to it."""
    row = bytearray(spelled_row(serial, 1, 100))
    if kind == "damaged":
        row[1] = 9
    if kind == "closed":
        row[0] = 0xC0
    if kind == "never":
        row[0] = row[511] = 0
    return bytes(row)


def listed_with(is_marked):
    """How VOL001 is listed."""
    return f"{VOLUME} readonly" if is_marked else VOLUME


def is_marked_by(slots):
    """Whether slots make a volume read-only that wasn't."""
    return [slot for slot in slots if slot in (PROTECT, UNPROTECT)][-1:] == [PROTECT]


class RowTest(SiteTest):
    """A test of a site whose files it writes."""

    def setUp(self):
        super().setUp()
        self.site.mkdir()

    def put(self, name, block, place, given):
        path = self.site / name
        path.touch()
        with path.open("r+b") as file:
            file.seek(BLOCK * block + place)
            file.write(given)

    def put_all(self, name, block, puts):
        for place, digits in puts:
            self.put(name, block, place, bytes.fromhex(digits))

    def put_row(self, row, slots=()):
        """Volume 0 in both copies, with slots behind its body."""
        for name in TABLE:
            (self.site / name).write_bytes(row.ljust(SLOTS_AT, b"\0") + bytes.fromhex("".join(slots)))

    def assert_found(self, finding, *words):
        """That an audit finds this alone, or nothing."""
        lines = f"finding 1 {finding}\n" if finding else ""
        self.assert_told(f"{TITLE}{lines}END\nstatus 0", self.told("audit", *words), finding)

    def assert_shown(self, finding, listed=VOLUME):
        """That a look refuses the site by this, or lists this volume, or none."""
        lines = f"{listed}\n" if listed else ""
        listing = f"{LISTING}{lines}END\nstatus 0"
        due = f"restart refused {finding}\nstatus 4" if finding else listing
        self.assert_told(due, self.told("show"), finding)


class Rows(RowTest):
    """Rows by hand."""

    def test_each_byte_that_is_ff(self):
        self.put_row(row_by_hand(6, 5))
        self.assert_shown(None)
        self.spoil(0, 0, None, listed="")
        for first, last, fault in SPOILED_BYTES:
            self.spoil(first, last, fault and f"volume 0 copy A row {fault}")

    def spoil(self, first, last, finding, **listed):
        row = row_by_hand(6, 5)
        (self.site / "table_b").unlink(missing_ok=True)
        for place in range(first, last + 1):
            (self.site / "table_a").write_bytes(row[:place] + b"\xff" + row[place + 1 :])
            self.assert_shown(finding, **listed)

    def test_versions_and_marks(self):
        for version, mark, fault in VERSIONS:
            self.put_row(row_by_hand(6, 5, version, mark), [ASSIGN_1])
            self.assert_shown(fault and f"volume 0 copy A row {fault}", listed_with(mark))

    def test_a_row_by_hand(self):
        row = row_by_hand(7, 199)
        for cylinder, state in ((0, 3), (1, 4), (2, 1), (3, 0), (403, 2)):
            cartridge, page = (258, 0) if cylinder < CYLINDERS_OF_CARTRIDGE else (2_047, 50)
            self.find_state(row, [], cylinder, state, cartridge, (7, 199)[page == 50])
        self.put_row(row)
        lines = [f"finding {at} frame {frame} gone\n" for at, frame in enumerate((7, 199), 1)]
        self.assert_told("".join([TITLE, *lines, "END\nstatus 0"]), self.told("audit", "--frames", "7"))

    def test_frames_below_the_configured_number(self):
        for frame, finding in FRAMES:
            self.put_row(row_by_hand(6, frame))
            told = self.told("serial", text=f"mss 1 frames 8 recorders 1\n{VOLUME}\ndone\n")
            report = f"MSS REPORT 1\n{VOLUME}\nEND\nstatus 0"
            self.assert_told(f"restart refused {finding}\nstatus 4" if finding else report, told, f"frame {frame}")

    def test_slots_at_fault(self):
        for slots, number, kind in BAD_SLOTS:
            self.put_row(spelled_row("VOL001", 0, 1), slots)
            self.assert_shown(f"volume 0 copy A row slot {number} value {kind}")

    def test_changes_that_may_follow(self):
        for slots, allowed in ALLOWED:
            for name, change in CHANGES.items():
                self.put_row(spelled_row("VOL001", 0, 1), [*slots, change])
                fault = f"volume 0 copy A row slot {len(slots)} value {int(change[2:4])}"
                listed = listed_with(is_marked_by([*slots, change]))
                self.assert_shown(None if name in allowed else fault, listed)

    def test_a_row_by_its_slots(self):
        for slots, frame, state in KINDS:
            self.find_state(spelled_row("VOL001", 0, 1), slots, 0, state, 0, 7 if frame is None else frame)
            self.put_row(spelled_row("VOL001", 0, 1), slots)
            self.assert_found(frame and f"frame {frame} gone", "--frames", str(frame or 1))

    def test_a_page_is_staged_written_and_freed(self):
        slots = []
        for slot, state in LIFE:
            slots.append(slot)
            self.find_state(spelled_row("VOL001", 0, 1), slots, 403, state, 1, 199)

    def find_state(self, row, slots, cylinder, state, cartridge, frame):
        """Looks for the state of a cylinder by a torn block where it may lie."""
        disk, at = divmod(frame, FRAMES_OF_DISK)
        places = [
            (f"cartridge_{cartridge}", cylinder % CYLINDERS_OF_CARTRIDGE),
            (f"staging_{disk}", at * CYLINDERS_OF_PAGE + cylinder % CYLINDERS_OF_PAGE),
        ]
        for (name, place), fault in zip(places, BY_STATE[state], strict=True):
            self.put_row(row, slots)
            self.put_all(name, place * HEADS, TORN)
            self.assert_found(fault and f"{fault} volume 0 cylinder {cylinder} head 0")
            (self.site / name).unlink()


@tests_of([(f"{a} and {b}", a, b, due) for a, b, due in PAIRS])
class Pairs(RowTest):
    """Two copies of the row of volume 31."""

    def check(self, a, b, due):
        self.put(TABLE[0], 31, 0, copy_of(a, "VOLUMA"))
        self.put(TABLE[1], 31, 0, copy_of(b, "VOLUMB"))
        before = self.copies()
        for name, kind in zip(TABLE, (a, b), strict=True):
            if kind == "unread":
                (self.site / name).unlink()
                (self.site / name).mkdir()
        listed = f"volume 31 VOLUM{due}" if due in ("A", "B") else ""
        self.assert_shown(None if listed else due, listed=listed)
        if "unread" not in (a, b):
            ran = self.ran("serial", text="mss 1 frames 8 recorders 1\ndone\n")
            self.assertEqual(ran.returncode, 0 if listed or not due else 4)
            row = spelled_row(f"VOLUM{due}", 1, 100)[:MADE_AT]
            self.assertEqual(self.copies(), [row, row] if listed else before, "the copies behind a run")

    def copies(self):
        """The gates and bodies of both copies."""
        return [(self.site / name).read_bytes()[31 * BLOCK : 31 * BLOCK + MADE_AT] for name in TABLE]


class Tracks(RowTest):
    """Blocks of tracks."""

    def test_blocks_in_each_state(self):
        for state, name, puts, fault in TRACKS:
            row = bytearray(spelled_row("VOL001", 0, 1))
            row[FRAMES_AT], row[STATES_AT] = 0, state
            self.put_row(bytes(row))
            self.put_all(name, 0, puts)
            self.assert_shown(fault and f"{fault} volume 0 cylinder 0 head 0")
            (self.site / name).unlink()

    def test_the_length_of_a_record(self):
        for length, fault in LENGTHS:
            row = bytearray(spelled_row("VOL001", 0, 1))
            row[STATES_AT] = 1
            self.put_row(bytes(row))
            self.put_all("cartridge_0", 0, [(129, "C1"), (262, length)])
            record = f"track 0 0\nrecord 0000000000 - {int(length, 16) * '00'}"
            self.assert_shown(fault and f"{fault} volume 0 cylinder 0 head 0", f"{VOLUME}\n{record}")

    def test_a_record_made_by_hand(self):
        """Of cylinder 5, head 3: no key, three bytes of data."""
        row = bytearray(spelled_row("VOL001", 0, 1))
        row[STATES_AT + 5] = 1
        self.put_row(bytes(row))
        self.put_all("cartridge_0", 5 * HEADS + 3, [(129, "C1"), (256, "0005000301000003414243")])
        self.assert_shown(None, f"{VOLUME}\ntrack 5 3\nrecord 0005000301 - 414243")

    def test_a_changed_track_is_read_in_its_frame(self):
        """The last track of page 0, in the last frame of all."""
        row = bytearray(spelled_row("VOL001", 0, 1))
        row[FRAMES_AT], row[STATES_AT + 7] = 199, 4
        self.put_row(bytes(row))
        self.put_all("staging_3", 7_599, [(129, "C1"), (256, "0007001201000003414243")])
        words = ["ccw 07 000000070012", "ccw 31 0007001201", "tic 1", "ccw 06"]
        lines = ["mss 1 frames 200 recorders 1", VOLUME, "host 1", "mount VOL001", "program", *words, "end", "done", ""]
        told = self.told("serial", text="\n".join(lines))
        self.assertIn("host 1 ccw 06 status 0C data 414243\n", told)
        self.assertNotIn("change", told)

    def test_blocks_of_which_the_front_was_written(self):
        self.put_row(row_by_hand(6, 5))
        places = (("staging_0", 912), ("cartridge_258", 0), ("cartridge_258", 38))
        for front, *gates, finding in FRONTS:
            for number, (name, block) in enumerate(places):
                mine = front if number == 0 else FRONT
                self.put_all(name, block, [(0, 256 * "00"), (mine[0], mine[1]), (129, gates[number] * "C1")])
            self.assert_front(finding, gates)

    def assert_front(self, finding, gates):
        if finding:
            self.assert_shown(finding)
        else:
            first = self.told("show").splitlines()[:2]
            self.assertEqual(first, [LISTING.strip(), VOLUME], f"{gates} open gates")

    def test_a_cartridge_that_is_unread(self):
        row = bytearray(spelled_row("VOL001", 0, 1))
        row[STATES_AT] = 1
        self.put_row(bytes(row))
        (self.site / "cartridge_0").mkdir()
        self.assert_shown("stopped fault 1")


if __name__ == "__main__":
    unittest.main()
