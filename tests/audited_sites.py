"""What is wrong with the files of a site, as an audit has to list it.

It is written from docs/FORMATS.md and docs/SITES.md alone, and shares nothing with the program.
"""

from dataclasses import dataclass
from itertools import count
from pathlib import Path

from formats.plain import CAPACITY, CYLINDERS, HEADS, Record

BLOCK = 16_384
OPEN = 0xC1

# The table: places of a row, and what it may name.
VOLUMES, PAGES, CYLINDERS_OF_PAGE = 32, 51, 8
VERSION_AT, SERIAL_AT, CARTRIDGES_AT, FRAMES_AT, MARK_AT, STATES_AT, SPARES_AT = 1, 2, (8, 10), 12, 63, 64, 468
MADE_AT, SLOTS_AT, SLOT, SLOTS = 511, 512, 8, 1_984
OLD_VERSION, VERSION, CARTRIDGES, FRAMES, NO_FRAME = 1, 2, 2_048, 200, 0xFF
IN_SERIALS = frozenset(b"ABCDEFGHIJKLMNOPQRSTUVWXYZ0123456789")

# The states of a cylinder, and the kinds of a slot.
BLANK, TAPED, STAGED_BLANK, STAGED, FRAMED = range(5)
ASSIGN, FREE, STAGE, CHANGE, DESTAGE, PROTECT = range(1, 7)
STATE_AFTER = {
    (STAGE, BLANK): STAGED_BLANK,
    (STAGE, TAPED): STAGED,
    (CHANGE, STAGED_BLANK): FRAMED,
    (CHANGE, STAGED): FRAMED,
    (DESTAGE, FRAMED): STAGED,
}
STATE_WITHOUT_FRAME = {STAGED_BLANK: BLANK, STAGED: TAPED}

# Where tracks lie.
CYLINDERS_OF_CARTRIDGE, FRAMES_OF_DISK = 202, 50
GATES_AT, RECORDS_AT, COUNT = 128, 256, 8


class Site:
    """The blocks of a site's files. What isn't there reads as zeros."""

    def __init__(self, folder):
        self.folder = Path(folder)

    def block(self, name, number):
        path = self.folder / name
        if not path.exists():
            return bytes(BLOCK)
        with path.open("rb") as file:
            file.seek(number * BLOCK)
            return file.read(BLOCK).ljust(BLOCK, b"\0")


class Row:
    """A volume's row, as its block would begin if it were written whole."""

    def __init__(self, block):
        self.whole = bytearray(block[:MADE_AT])
        self.whole[VERSION_AT] = VERSION

    def frame(self, page):
        """The frame of a page; none where it has none."""
        number = self.whole[FRAMES_AT + page]
        return None if number == NO_FRAME else number

    def frames(self):
        return [self.frame(page) for page in range(PAGES)]

    def state(self, cylinder):
        return self.whole[STATES_AT + cylinder]

    def cartridge(self, half):
        """That of the first or the second half."""
        at = CARTRIDGES_AT[half - 1]
        return int.from_bytes(self.whole[at : at + 2], "big")

    def place_on_cartridge(self, cylinder, head):
        half, at = divmod(cylinder, CYLINDERS_OF_CARTRIDGE)
        return f"cartridge_{self.cartridge(half + 1)}", at * HEADS + head

    def place_in_frame(self, cylinder, head):
        """Where a track lies whose page has a frame."""
        disk, frame = divmod(self.frame(cylinder // CYLINDERS_OF_PAGE), FRAMES_OF_DISK)
        at = frame * CYLINDERS_OF_PAGE + cylinder % CYLINDERS_OF_PAGE
        return f"staging_{disk}", at * HEADS + head

    def take(self, slot):
        """Makes the change that a slot spells. Says whether it spells one that is allowed."""
        kind, number, frame = slot[1], int.from_bytes(slot[2:4], "big"), slot[4]
        if any(slot[5:]) or (kind != ASSIGN and frame):
            return False
        if kind == ASSIGN:
            return number < PAGES and frame < FRAMES and self.assign(number, frame)
        if kind == FREE:
            return number < PAGES and self.free(number)
        if kind == PROTECT:
            return number in (0, 1) and self.protect(number)
        return number < CYLINDERS and self.step(kind, number)

    def assign(self, page, frame):
        if self.frame(page) is not None or frame in self.frames():
            return False
        self.whole[FRAMES_AT + page] = frame
        return True

    def free(self, page):
        first = page * CYLINDERS_OF_PAGE
        cylinders = range(first, min(first + CYLINDERS_OF_PAGE, CYLINDERS))
        states = [self.state(cylinder) for cylinder in cylinders]
        if self.frame(page) is None or FRAMED in states:
            return False
        for cylinder, state in zip(cylinders, states, strict=True):
            self.whole[STATES_AT + cylinder] = STATE_WITHOUT_FRAME.get(state, state)
        self.whole[FRAMES_AT + page] = NO_FRAME
        return True

    def protect(self, mark):
        if self.whole[MARK_AT] == mark:
            return False
        self.whole[MARK_AT] = mark
        return True

    def step(self, kind, cylinder):
        """What befalls a cylinder."""
        after = STATE_AFTER.get((kind, self.state(cylinder)))
        if after is None or self.frame(cylinder // CYLINDERS_OF_PAGE) is None:
            return False
        self.whole[STATES_AT + cylinder] = after
        return True


@dataclass
class Copy:
    """What a copy of a row tells: that it is closed; its row; or why it spells none."""

    is_open: bool
    row: Row | None = None
    fault: str | None = None


def fields_of(block):
    """The fields of a row's body in order of places: the name, the value, and whether a row may have it."""
    version, mark = block[VERSION_AT], block[MARK_AT]
    yield "version", version, version in (OLD_VERSION, VERSION)
    for number, byte in enumerate(block[SERIAL_AT : SERIAL_AT + 6]):
        yield f"serial {number}", byte, byte in IN_SERIALS
    for name, at in zip(("first", "second"), CARTRIDGES_AT, strict=True):
        cartridge = int.from_bytes(block[at : at + 2], "big")
        yield name, cartridge, cartridge < CARTRIDGES
    frames = block[FRAMES_AT : FRAMES_AT + PAGES]
    for page, frame in enumerate(frames):
        yield f"page {page}", frame, frame < FRAMES or frame == NO_FRAME
    yield ("spare 0", mark, mark == 0) if version == OLD_VERSION else ("mark", mark, mark in (0, 1))
    for cylinder, state in enumerate(block[STATES_AT : STATES_AT + CYLINDERS]):
        has_frame = frames[cylinder // CYLINDERS_OF_PAGE] != NO_FRAME
        yield f"state {cylinder}", state, state <= (FRAMED if has_frame else TAPED)
    for number, byte in enumerate(block[SPARES_AT:MADE_AT], 1):
        yield f"spare {number}", byte, byte == 0


def slots_of(block):
    """The slots in use."""
    for at in range(SLOTS_AT, BLOCK, SLOT):
        if block[at] != OPEN:
            return
        yield block[at : at + SLOT]


def copy_of(block):
    """What the copy in a block of the table tells."""
    if block[0] != OPEN:
        return Copy(is_open=False)
    for field, value, is_good in fields_of(block):
        if not is_good:
            return Copy(is_open=True, fault=f"{field} value {value}")
    row = Row(block)
    for number, slot in enumerate(slots_of(block)):
        if not row.take(slot):
            return Copy(is_open=True, fault=f"slot {number} value {slot[1]}")
    return Copy(is_open=True, row=row)


def copies_of(site):
    """The two copies of each volume's row."""
    for volume in range(VOLUMES):
        yield volume, *(copy_of(site.block(name, volume)) for name in ("table_a", "table_b"))


def rows_of(copies):
    """The rows by volume, in order, of those that have one: by copy A where it is open, else by copy B."""
    rows = {volume: (a if a.is_open else b).row for volume, a, b in copies}
    return {volume: row for volume, row in rows.items() if row}


def first_difference(a, b):
    """The first place at which two rows differ as they are written, and their values there; none where they don't."""
    for place, (by_a, by_b) in enumerate(zip(a.whole, b.whole, strict=True)):
        if by_a != by_b:
            return f"place {place} values {by_a} {by_b}"
    return None


def copies_finding(volume, a, b):
    """What is wrong with the copies of a row; none where both tell the same."""
    name, counts = ("A", a) if a.is_open else ("B", b)
    if counts.fault:
        return f"volume {volume} copy {name} row {counts.fault}"
    if counts.row is None:
        return None
    if not a.is_open or not b.is_open:
        return f"volume {volume} copy {'B' if a.is_open else 'A'} closed"
    if b.fault:
        return f"volume {volume} copy B also damaged {b.fault}"
    differs = first_difference(a.row, b.row)
    return differs and f"volume {volume} copies differ {differs}"


def half_findings(rows):
    """Halves on the cartridge of one before them."""
    firsts = {}
    for volume, row in rows.items():
        for half in (1, 2):
            cartridge, here = row.cartridge(half), f"volume {volume} half {half}"
            if cartridge in firsts:
                yield f"cartridge {cartridge} twice {firsts[cartridge]} {here}"
            firsts.setdefault(cartridge, here)


def page_findings(rows, frames):
    """Pages in a frame that isn't there, or in that of a page before them."""
    firsts = {}
    for volume, row in rows.items():
        for page, frame in enumerate(row.frames()):
            here = f"volume {volume} page {page}"
            if frame is None:
                continue
            if frame >= frames:
                yield f"frame {frame} gone"
            elif frame in firsts:
                yield f"frame {frame} twice {firsts[frame]} {here}"
            firsts.setdefault(frame, here)


def is_blank(block):
    return block[GATES_AT + 1] != OPEN


def is_torn(block):
    """Whether a record that is reached is bad."""
    at, cost = RECORDS_AT, 0
    for number in count(1):  # The costs end it: no track has room for 98 records, or for a count that runs past.
        if block[GATES_AT + number] != OPEN:
            return False
        data_at = at + COUNT + block[at + 5]
        end = data_at + int.from_bytes(block[at + 6 : at + 8], "big")
        if end > BLOCK:
            return True
        cost += Record(block[at : at + 5], block[at + COUNT : data_at], block[data_at:end]).cost()
        if cost > CAPACITY:
            return True
        at = end


def track_fault(site, row, cylinder, head):
    """What is wrong with a track of a cylinder that isn't blank."""
    state = row.state(cylinder)
    taped = site.block(*row.place_on_cartridge(cylinder, head)) if state in (TAPED, STAGED) else None
    framed = site.block(*row.place_in_frame(cylinder, head)) if state != TAPED else None
    if state != STAGED_BLANK and is_torn(framed if state == FRAMED else taped):
        return "torn track"
    differs = not is_blank(framed) if state == STAGED_BLANK else state == STAGED and framed != taped
    return "staged differs" if differs else None


def track_findings(site, rows):
    for volume, row in rows.items():
        for cylinder in range(CYLINDERS):
            if row.state(cylinder) == BLANK:
                continue
            for head in range(HEADS):
                if fault := track_fault(site, row, cylinder, head):
                    yield f"{fault} volume {volume} cylinder {cylinder} head {head}"


def findings(folder, frames=FRAMES):
    """All that is wrong with the site in a folder for so many frames, in the order and the words of an audit."""
    site = Site(folder)
    copies = list(copies_of(site))
    rows = rows_of(copies)
    return [
        *filter(None, (copies_finding(*read) for read in copies)),
        *half_findings(rows),
        *page_findings(rows, frames),
        *track_findings(site, rows),
    ]
