"""The report of a session: its entries, its changes of the table, its volumes, and the copy of one of them where that
was asked for. A listing has the volumes alone."""

import re
from dataclasses import dataclass, field

from .files import lines_of
from .progress import quiet

NUMBER = r"(0|[1-9][0-9]*)"

ENTRY = re.compile(rf"entry {NUMBER} host {NUMBER} (.*)")
CALLS = re.compile(
    rf"(?:mount (?P<volume>{NUMBER})(?P<bind> bind)?|ccw (?P<code>[0-9A-F]{{2}})|(?P<other>demount|break))"
    r" (?P<reply>.*)"
)
STATUS = re.compile(r"status ([0-9A-F]{2})(?: data ([0-9A-F]+))?")
FAULT = re.compile(rf"(equipment check|stopped) fault {NUMBER}")
REPLIES = [
    "mounted",
    "demounted",
    "already mounted",
    "not mounted",
    "no volume",
    "in chain",
    "program check",
    "chain limit",
    "no space",
]

CHANGE = re.compile(rf"change {NUMBER} volume {NUMBER} (.*)")
CREATE = re.compile(rf"create ([A-Z0-9]{{6}}) {NUMBER} {NUMBER}")
ASSIGN = re.compile(rf"assign page {NUMBER} frame {NUMBER}")
FREE = re.compile(rf"free page {NUMBER} frame (?:{NUMBER}|-)")
CYLINDER = re.compile(rf"(staged|changed|destaged) cylinder {NUMBER}")
PROTECT = re.compile(r"protect (on|off)")

VOLUME = re.compile(rf"volume {NUMBER} ([A-Z0-9]{{6}})( readonly)?")
TRACK = re.compile(rf"track {NUMBER} {NUMBER}")
RECORD = re.compile(r"record ([0-9A-F]{10}) (-|[0-9A-F]+) (-|[0-9A-F]+)")
COPY = re.compile(rf"copy {NUMBER} (?:after {NUMBER}|no volume|failed fault {NUMBER})")
LAST = re.compile(rf"END|LIMIT|STOPPED {NUMBER}")

CYLINDERS_OF_PAGE = 8


class ReportFault(Exception):
    """A line that no report has, by its number."""


@dataclass
class Entry:
    number: int
    host: int
    text: str  # the call and its reply, as they stand in the report
    call: str  # mount, demount, ccw or break
    volume: int = None  # of a mount
    bind: bool = False
    code: int = None  # of a command
    reply: str = ""
    status: int = None  # where the reply is `status`
    data: bytes = b""
    fault: int = None

    def has_unit_check(self):
        """Whether the reply sets the sense."""
        return self.reply in ("equipment check", "no space") or (self.status or 0) & 0x02 != 0


@dataclass
class Change:
    number: int
    volume: int
    text: str
    kind: str  # create, assign, free, staged, changed, destaged or protect
    serial: str = ""
    cartridges: tuple = ()
    page: int = None
    frame: int = None  # of assign and free, where it is told
    cylinder: int = None
    read_only: bool = None  # of protect: what the volume is from here on

    def page_of_cylinder(self):
        return self.cylinder // CYLINDERS_OF_PAGE


@dataclass
class Track:
    cylinder: int
    head: int
    records: list = field(default_factory=list)  # each an ID, a key and data


@dataclass
class Volume:
    number: int
    serial: str
    read_only: bool = False
    tracks: list = field(default_factory=list)

    def heading(self):
        """Its line."""
        return f"volume {self.number} {self.serial}{' readonly' if self.read_only else ''}"


@dataclass
class Copy:
    """A copy of a volume: with its tracks where it was taken, else with why it wasn't."""

    volume: int
    after: int = None  # how many entries stand before it, where it was taken
    fault: int = None  # where a read for it failed; there was no volume where it has neither
    tracks: list = field(default_factory=list)

    def is_absent(self):
        """Whether there was no volume to copy."""
        return self.after is None and self.fault is None

    def heading(self):
        """Its line."""
        if self.is_absent():
            return f"copy {self.volume} no volume"
        rest = f"after {self.after}" if self.fault is None else f"failed fault {self.fault}"
        return f"copy {self.volume} {rest}"


@dataclass
class Report:
    entries: list = field(default_factory=list)
    changes: list = field(default_factory=list)
    volumes: list = field(default_factory=list)
    copy: Copy = None  # where one was asked for
    last: str = ""

    def open_tracks(self):
        """The tracks that the next one would stand behind: those of the copy, or else of the last volume. None where no
        track may stand."""
        if self.copy:
            return None if self.copy.after is None else self.copy.tracks
        return self.volumes[-1].tracks if self.volumes else None


def read_report(text, watch=quiet):
    """The report of a text. The first line that isn't as the format says is told as a ReportFault."""
    lines = [line.decode("latin-1") for line in lines_of(text)]
    if not lines or lines[0] != "MSS REPORT 1":
        raise ReportFault("line 1: a report begins with MSS REPORT 1")
    report = Report()
    for number, line in enumerate(watch("lines read", lines[1:]), 2):
        if report.last or not take_line(report, line):
            raise ReportFault(f"line {number}: {line[:80]}")
    if not report.last:
        raise ReportFault("the report has no last line: END, LIMIT or STOPPED")
    return report


def read_volumes(text, watch=quiet):
    """The volumes of a listing, or of a report that shows them whole."""
    lines = [line.decode("latin-1") for line in lines_of(text)]
    if lines[:1] != ["MSS VOLUMES 1"]:
        report = read_report(text, watch)
    else:
        report = Report()
        for number, line in enumerate(watch("lines read", lines[1:]), 2):
            if report.last or not take_volume_line(report, line):
                raise ReportFault(f"line {number}: {line[:80]}")
    if report.last not in ("END", "LIMIT"):
        raise ReportFault(f"it doesn't show its volumes whole: it ends with {report.last or 'no last line'}")
    return report.volumes


def take_line(report, line):
    """Takes a line that stands where it may."""
    is_showing = report.volumes or report.copy
    if match := ENTRY.fullmatch(line):
        entry = entry_of(int(match[1]), int(match[2]), match[3])
        return not report.changes and not is_showing and put(report.entries, entry)
    if match := CHANGE.fullmatch(line):
        return not is_showing and put(report.changes, change_of(int(match[1]), int(match[2]), match[3]))
    if match := COPY.fullmatch(line):
        volume, after, fault = (None if word is None else int(word) for word in match.groups())
        is_first = report.copy is None
        report.copy = Copy(volume, after, fault)
        return is_first
    return take_volume_line(report, line)


def take_volume_line(report, line):
    """Takes a line of what the volumes have, or a copy of one, or the last line."""
    tracks = report.open_tracks()
    if match := VOLUME.fullmatch(line):
        report.volumes.append(Volume(int(match[1]), match[2], match[3] is not None))
        return report.copy is None
    if (match := TRACK.fullmatch(line)) and tracks is not None:
        tracks.append(Track(int(match[1]), int(match[2])))
        return True
    if (match := RECORD.fullmatch(line)) and tracks:
        return put_record(tracks[-1], [bytes_of(word) for word in match.groups()])
    if LAST.fullmatch(line):
        report.last = line
        return report.copy is None or line in ("END", "LIMIT")  # a report that is stopped has no copy
    return False


def put(numbered, item):
    """Puts an entry or a change, if it is one, whose number is the next."""
    if item is None or item.number != len(numbered) + 1:
        return False
    numbered.append(item)
    return True


def put_record(track, parts):
    """Puts a record whose ID, key and data are pairs of digits."""
    if None in parts:
        return False
    track.records.append(tuple(parts))
    return True


def bytes_of(word):
    """The bytes of pairs of digits, of which - has none; none of an odd number of digits."""
    if word == "-":
        return b""
    return None if len(word) % 2 else bytes.fromhex(word)


def entry_of(number, host, text):
    match = CALLS.fullmatch(text)
    if not match:
        return None
    entry = Entry(number, host, text, "ccw")
    if match["volume"]:
        entry.call, entry.volume, entry.bind = "mount", int(match["volume"]), bool(match["bind"])
    elif match["code"]:
        entry.code = int(match["code"], 16)
    else:
        entry.call = match["other"]
    return entry if take_reply(entry, match["reply"]) else None


def take_reply(entry, reply):
    if match := STATUS.fullmatch(reply):
        entry.status, entry.data = int(match[1], 16), bytes_of(match[2] or "-")
        entry.reply = "" if entry.data is None else "status"
    elif match := FAULT.fullmatch(reply):
        entry.reply, entry.fault = match[1], int(match[2])
    elif reply in REPLIES:
        entry.reply = reply
    return entry.reply != ""


def change_of(number, volume, text):
    change = Change(number, volume, text, text.split(" ")[0])
    if match := CREATE.fullmatch(text):
        change.serial, change.cartridges = match[1], (int(match[2]), int(match[3]))
    elif match := ASSIGN.fullmatch(text):
        change.page, change.frame = int(match[1]), int(match[2])
    elif match := FREE.fullmatch(text):
        change.page, change.frame = int(match[1]), int(match[2]) if match[2] else None
    elif match := CYLINDER.fullmatch(text):
        change.cylinder = int(match[2])
    elif match := PROTECT.fullmatch(text):
        change.read_only = match[1] == "on"
    else:
        return None
    return change
