"""Sites that are spoiled as numbers draw it: what a few jobs left, with bytes changed in their rows and tracks, and
files that are cut or gone."""

import random
import re
from dataclasses import dataclass
from functools import cache
from pathlib import Path

import audited_sites
from audited_sites import (
    ASSIGN, BLOCK, CARTRIDGES_AT, CYLINDERS, CYLINDERS_OF_PAGE, FRAMES_AT, FREE, GATES_AT, HEADS, MADE_AT, MARK_AT, PAGES,
    PROTECT, RECORDS_AT, SERIAL_AT, SLOT, SLOTS, SLOTS_AT, SPARES_AT, STATES_AT, VERSION_AT,
)  # fmt: skip
from fixtures import CASES, EXAMPLES, PROGRAM, new_folder, run
from formats.jobs import read_job
from formats.track_jobs import program

MOST_SPOILS = 4
TABLE = ("table_a", "table_b")

# Two volumes on three frames, whose pages come and go: of each a volume, a track, and the records written there.
SHORT = (b"\0\0\0\0\1", b"", b"SHORT")
LONG = (b"\0\0\0\0\2", b"KEY", 6_000 * b"L")
VISITS = [
    (0, (0, 0), [SHORT, LONG]),
    (0, (1, 3), []),
    (0, (202, 0), [LONG]),
    (3, (9, 18), [SHORT]),
    (3, (210, 1), [SHORT, SHORT]),
    (0, (0, 0), []),
    (0, (2, 0), [SHORT]),
    (0, (202, 0), []),
]


def visits_job():
    """The job of the visits, by one host."""
    lines = ["mss 1 frames 3 recorders 1", "volume 0 FIRST1", "volume 3 OTHER3", "host 1"]
    for volume, place, records in VISITS:
        serial = {0: "FIRST1", 3: "OTHER3"}[volume]
        lines += [f"mount {serial}", program(place, records).rstrip(), "demount"]
    return "\n".join([*lines, "done", ""])


def job_texts():
    files = [EXAMPLES / "hosts.job", EXAMPLES / "replacement.job", CASES / "bind.job", CASES / "three_hosts.job"]
    return [visits_job(), *(path.read_text() for path in files)]


@dataclass
class Sound:
    """A site before it is spoiled: how many frames it has, its files, its rows, and the blocks of its tracks."""

    frames: int
    files: dict
    rows: dict
    tracks: list


def tracks_of(rows):
    """Where the tracks of cylinders lie that aren't blank, also where other data count: files and blocks."""
    for row in rows.values():
        for cylinder in range(CYLINDERS):
            for head in range(HEADS) if row.state(cylinder) else ():
                yield row.place_on_cartridge(cylinder, head)
                if row.frame(cylinder // CYLINDERS_OF_PAGE) is not None:
                    yield row.place_in_frame(cylinder, head)


def sound_site(frames, folder):
    """What stands in the files of a folder."""
    rows = audited_sites.rows_of(audited_sites.copies_of(audited_sites.Site(folder)))
    files = {path.name: path.read_bytes() for path in folder.iterdir()}
    return Sound(frames, files, rows, list(tracks_of(rows)))


def close(site, name, volumes):
    """Closes a copy of these volumes' rows, which the next run writes whole."""
    table = bytearray((site / name).read_bytes())
    for volume in volumes:
        table[volume * BLOCK] = 0
    (site / name).write_bytes(table)


@cache
def sound_sites():
    """Those that the jobs leave, and the same with all rows written whole, without slots."""
    sites = []
    for text in job_texts():
        with new_folder() as folder:
            site, job = Path(folder, "mss.site"), read_job(text.encode())
            run([PROGRAM, "serial"], folder, text).check_returncode()
            sites.append(sound_site(job.frames, site))
            hostless = re.sub(r"^host (?s:.)*", "done\n", text, count=1, flags=re.M)
            for name in TABLE:
                close(site, name, sites[-1].rows)
                run([PROGRAM, "serial"], folder, hostless).check_returncode()
            sites.append(sound_site(job.frames, site))
    return sites


class Spoiling:
    """What is done to a site, as a number draws it: lines of a case of `cases/spoiled`."""

    def __init__(self, number):
        self.draw = random.Random(number)
        self.site = self.draw.choice(sound_sites())
        self.frames = self.draw.choice((None, self.site.frames, self.site.frames, 1, 2))
        kinds = self.draw.choices(KINDS, k=self.draw.randint(1, MOST_SPOILS))
        self.lines = [line for kind in kinds for line in kind(self)]

    def words(self):
        """Those of an audit that asks for the frames."""
        return [] if self.frames is None else ["--frames", str(self.frames)]

    def byte(self):
        return f"{self.draw.randrange(256):02X}"

    def volume(self):
        """Mostly one that is there."""
        return self.draw.choice([*self.site.rows, *self.site.rows, 31])

    def row(self):
        return self.draw.choice(list(self.site.rows.items()))

    def page(self, row):
        """Mostly one in a frame."""
        framed = [page for page, frame in enumerate(row.frames()) if frame is not None]
        return self.draw.choice([*framed, *framed, self.draw.randrange(PAGES)])

    def cylinder(self, row):
        """Mostly one of a page in a frame."""
        return min(self.page(row) * CYLINDERS_OF_PAGE + self.draw.randrange(3), CYLINDERS - 1)

    def in_copies(self, volume, place, given):
        """The same bytes in one copy or, more often, in both."""
        copies = self.draw.choice((TABLE, TABLE, TABLE, TABLE[:1], TABLE[1:]))
        return [f"put {name} {volume} {place} {given}" for name in copies]

    def gate(self):
        return [f"put {self.draw.choice(TABLE)} {self.volume()} 0 {self.draw.choice(('00', 'C1', 'FF'))}"]

    def body(self):
        place = self.draw.choice((1, MARK_AT, SPARES_AT, MADE_AT - 1, MADE_AT, self.draw.randint(1, MADE_AT)))
        return self.in_copies(self.volume(), place, self.byte())

    def version(self):
        """A version, and what stands in the place of the mark."""
        volume, version, mark = self.volume(), self.draw.choice((0, 1, 1, 1, 2, 2, 3)), self.draw.choice((0, 0, 1, 2))
        return [
            *self.in_copies(volume, VERSION_AT, f"{version:02X}"),
            *self.in_copies(volume, MARK_AT, f"{mark:02X}"),
        ]

    def frame(self):
        volume, row = self.row()
        given = self.draw.choice(("00", "01", "02", "FF", "C7", "C8", self.byte()))
        return self.in_copies(volume, FRAMES_AT + self.page(row), given * self.draw.choice((1, 1, 3)))

    def state(self):
        volume, row = self.row()
        return self.in_copies(volume, STATES_AT + self.cylinder(row), f"{self.draw.randrange(6):02X}")

    def cartridge(self):
        number = self.draw.choice((0, 1, 2, 3, 2_047, 2_048, self.draw.randrange(2**16)))
        place, halves = self.draw.choice(((CARTRIDGES_AT[0], 1), (CARTRIDGES_AT[1], 1), (CARTRIDGES_AT[0], 2)))
        return self.in_copies(self.volume(), place, halves * f"{number:04X}")

    def serial(self):
        place, given = SERIAL_AT + self.draw.randrange(6), self.draw.choice(("41", "39", "40", "61"))
        return self.in_copies(self.volume(), place, given)

    def slots_in_use(self, volume):
        block = self.site.files["table_a"][volume * BLOCK : (volume + 1) * BLOCK].ljust(BLOCK, b"\0")
        return len(list(audited_sites.slots_of(block)))

    def slot(self):
        """A byte of a slot, of those in use and of the one behind them."""
        volume, _ = self.row()
        place = SLOTS_AT + SLOT * self.draw.randint(0, self.slots_in_use(volume)) + self.draw.choice(range(SLOT))
        given = self.draw.choice((f"{self.draw.randrange(6):02X}", "C1", self.byte()))
        return self.in_copies(volume, place, given)

    def new_slots(self):
        """Slots behind those in use, often such as are allowed there."""
        volume, row = self.row()
        place = SLOTS_AT + SLOT * self.slots_in_use(volume)
        return self.in_copies(volume, place, "".join(self.new_slot(row) for _ in range(self.draw.randint(1, 3))))

    def new_slot(self, row):
        kind, frame = self.draw.randint(1, PROTECT), 0
        of_page, of_cylinder = (self.page(row), self.page(row), 49, 50, 51), (*3 * self.staged(row), 403, 404)
        number = self.draw.choice(of_page if kind <= FREE else (0, 1, 1, 2) if kind == PROTECT else of_cylinder)
        if kind == ASSIGN:
            frame = self.draw.choice((0, 1, 5, 199, 200))
        return f"C1{kind:02X}{number:04X}{frame:02X}000000"

    def staged(self, row):
        """A cylinder that isn't blank, if there is one, and another."""
        used = [cylinder for cylinder in range(CYLINDERS) if row.state(cylinder)]
        return [self.draw.choice(used or [0]), self.cylinder(row)]

    def last_cylinder(self):
        """The last page gets a frame, and the last cylinder, or one behind it, is staged."""
        volume, _ = self.row()
        place = SLOTS_AT + SLOT * self.slots_in_use(volume)
        cylinder = self.draw.choice((CYLINDERS - 1, CYLINDERS))
        return self.in_copies(volume, place, f"C1010032{self.draw.randrange(5, 8):02X}000000C103{cylinder:04X}00000000")

    def last_slots(self):
        """All slots in use, of which the last may spell no change."""
        volume, row = self.row()
        first, page = self.slots_in_use(volume), row.frames().index(None)
        pair = f"C101{page:04X}C6000000C102{page:04X}00000000"
        slots = pair * ((SLOTS - first) // 2)
        last = self.draw.choice(("C10100010B000000", "C101000100000001", "0001000100000000"))
        given = slots if (SLOTS - first) % 2 == 0 else slots + last
        return self.in_copies(volume, SLOTS_AT + SLOT * first, given)

    def moved_row(self):
        """A row in the block of another volume too."""
        volume, _ = self.row()
        whole = self.site.files["table_a"][volume * BLOCK : (volume + 1) * BLOCK].rstrip(b"\0")
        return self.in_copies(self.draw.choice((1, 2, 7, 31)), 0, whole.hex().upper())

    def track(self):
        """The file and the block of a track, mostly of one with records."""
        written = [place for place in self.site.tracks if self.is_written(*place)]
        return "{} {}".format(*self.draw.choice(self.draw.choice((self.site.tracks, written or self.site.tracks))))

    def is_written(self, name, block):
        return any(self.site.files.get(name, b"")[block * BLOCK : (block + 1) * BLOCK])

    def record_gate(self):
        record = self.draw.choice((1, 1, 2, 3, 98))
        return [f"put {self.track()} {GATES_AT + record} {self.draw.choice(('C1', '00', 'FF'))}"]

    def record_gates(self):
        """As many records without key and data as a track has room for, or about so."""
        return [f"put {self.track()} {GATES_AT + 1} {'C1' * self.draw.choice((1, 90, 97, 98))}"]

    def count(self):
        """The lengths in the count of the first record, among them the longest that has room, and one more."""
        drawn = (f"{self.byte()}0001", f"00{self.byte()}{self.byte()}")
        given = self.draw.choice((*drawn, "0032E6", "0032E7", "FFFFFF"))
        return [f"put {self.track()} {RECORDS_AT + 5} {given}"]

    def bytes_of_track(self):
        """Bytes of a record, and some that count for nothing."""
        place = self.draw.choice((self.draw.randrange(RECORDS_AT, 300), self.draw.randrange(BLOCK), 100, 240))
        return [f"put {self.track()} {place} {self.byte()}"]

    def end(self):
        """A file that was cut short."""
        name = self.draw.choice(sorted(self.site.files))
        length = len(self.site.files[name])
        left = self.draw.choice((0, length - 1, max(0, length - BLOCK), self.draw.randrange(length)))
        return [f"cut {name} {left}"]

    def removed(self):
        return [f"remove {self.draw.choice(sorted(self.site.files))}"]


KINDS = [
    *(Spoiling.gate, Spoiling.body, Spoiling.serial, Spoiling.cartridge, Spoiling.frame, Spoiling.frame),
    *(Spoiling.version, Spoiling.state, Spoiling.slot, Spoiling.new_slots, Spoiling.new_slots, Spoiling.last_cylinder),
    *(Spoiling.last_slots, Spoiling.moved_row),
    *(Spoiling.record_gate, Spoiling.record_gates, Spoiling.count, Spoiling.count, Spoiling.bytes_of_track),
    *(Spoiling.end, Spoiling.removed),
]
