"""Plain 3330 volumes: what they reply to the calls of a history, in its order.

It is written from docs/PROFILE.md alone, and shares nothing with the program.
"""

from .commands import COMMANDS, MULTI_TRACK

CYLINDERS = 404
HEADS = 19
CAPACITY = 13_165
SENSE_BYTES = 24

DONE, MET, NO_DATA, UNIT_CHECK = 0x0C, 0x4C, 0x0D, 0x0E

COMMAND_REJECT = (0x80, 0x00, 0x00)
NO_VOLUME = (0x40, 0x00, 0x00)
EQUIPMENT_CHECK = (0x10, 0x00, 0x00)
NO_ROOM = (0x00, 0x40, 0x00)
END_OF_CYLINDER = (0x00, 0x20, 0x00)
NO_RECORD = (0x00, 0x08, 0x00)
FILE_PROTECTED = (0x00, 0x04, 0x00)
NO_SPACE = (0x40, 0x00, 0x01)

SEARCH_HOME, READ_HOME, READ_R0 = 0x39, 0x1A, 0x16
SEARCH_IDS = {0x31: "equal", 0x51: "high", 0x71: "equal or high"}
SEARCH_KEYS = {0x29: "equal", 0x49: "high", 0x69: "equal or high"}
READ_COUNT, READ_DATA, READ_KEY_DATA, READ_ALL = 0x12, 0x06, 0x0E, 0x1E
WRITE_DATA, WRITE_KEY_DATA, WRITE_ALL = 0x05, 0x0D, 0x1D
WRITES = (WRITE_DATA, WRITE_KEY_DATA, WRITE_ALL)
NO_OP, SENSE, SEEK, SEEK_CYLINDER, SEEK_HEAD, RECALIBRATE, SET_MASK, SET_SECTOR = (
    0x03, 0x04, 0x07, 0x0B, 0x1B, 0x13, 0x1F, 0x23,
)  # fmt: skip

INDEX, HOME = ("index", None), ("home", None)  # else the part of a record, count, key or all, and which record


class Check(Exception):
    """A unit check, by its sense."""

    def __init__(self, sense):
        super().__init__(sense)
        self.sense = sense


class Record:
    def __init__(self, identity, key, data):
        self.identity, self.key, self.data = identity, key, data

    def count(self):
        return self.identity + bytes([len(self.key)]) + len(self.data).to_bytes(2, "big")

    def cost(self):
        return (191 + len(self.key) if self.key else 135) + len(self.data)


def fitted(given, length):
    """The bytes, cut or padded with zeros."""
    return given[:length] + bytes(max(0, length - len(given)))


def is_met(kind, track, argument):
    return (track == argument and "equal" in kind) or (track > argument and "high" in kind)


class Host:
    """A host's part of the state. Its volume is None, or the tracks of one by cylinder and head; whether that is
    read-only stands beside it."""

    def __init__(self):
        self.volume = None
        self.is_protected = False
        self.chain = False
        self.cylinder = self.head = 0
        self.mask = 0
        self.position = INDEX
        self.passes = 0
        self.prior = None  # what a write may follow: ID, key or wrote, and the record
        self.sense = bytes(SENSE_BYTES)

    def track(self):
        return self.volume.setdefault((self.cylinder, self.head), [])

    def place(self):
        return self.cylinder.to_bytes(2, "big") + self.head.to_bytes(2, "big")

    def record(self, number):
        if number == 0:
            return Record(self.place() + b"\0", b"", bytes(8))
        return self.track()[number - 1]

    def pass_index(self, multi):
        if not multi:
            self.passes += 1
            if self.passes == 2:
                raise Check(NO_RECORD)
        elif self.mask & 0x18 == 0x18:
            raise Check(FILE_PROTECTED)
        elif self.head == HEADS - 1:
            raise Check(END_OF_CYLINDER)
        else:
            self.head += 1
            self.passes = 0
        self.position = INDEX

    def next_record(self, first, multi):
        """The number of the next record, from R0 or R1 on."""
        while True:
            part, number = self.position
            wanted = first if number is None else number + 1
            if wanted <= len(self.track()):
                return wanted
            self.pass_index(multi)

    def present_or_next(self, parts, first, multi):
        """The record of which the host stands behind one of these parts, else the next."""
        part, number = self.position
        if part in parts and number is not None:
            return number
        return self.next_record(first, multi)

    def go_home(self, multi):
        if self.position != INDEX:
            if multi:
                self.pass_index(True)
            self.position = INDEX


class Machine:
    """The volumes of a job, by number, those of them that are read-only, and its hosts."""

    def __init__(self, volumes, read_only):
        self.volumes = {number: {} for number in volumes}
        self.read_only = read_only
        self.hosts = {number: Host() for number in range(1, 9)}

    def mount(self, host, volume):
        host = self.hosts[host]
        if host.chain:
            return "in chain"
        if host.volume is not None:
            return "already mounted"
        if volume not in self.volumes:
            return "no volume"
        host.volume, host.is_protected = self.volumes[volume], volume in self.read_only
        host.cylinder = host.head = 0
        host.sense = bytes(SENSE_BYTES)
        return "mounted"

    def demount(self, host):
        host = self.hosts[host]
        if host.chain:
            return "in chain"
        if host.volume is None:
            return "not mounted"
        host.volume, host.is_protected = None, False
        return "demounted"

    def break_off(self, host):
        self.hosts[host].chain = False

    def fail(self, host, sense):
        """A command that fails below the volumes, by an equipment check or for want of space: all else stays."""
        host = self.hosts[host]
        host.chain, host.prior, host.sense = False, None, fitted(bytes(sense), SENSE_BYTES)

    def command(self, host, code, argument, is_chained):
        """The status and the data of a command."""
        host = self.hosts[host]
        open_chain(host)
        prior, host.prior = host.prior, None
        if code not in (NO_OP, SENSE):
            host.sense = bytes(SENSE_BYTES)
        try:
            check(host, code, argument, prior)
            status, data = done(host, code, argument, prior)
        except Check as fault:
            status, data = UNIT_CHECK, b""
            host.sense = fitted(bytes(fault.sense), SENSE_BYTES)
        plain = code & ~MULTI_TRACK
        if status != UNIT_CHECK and plain not in (*SEARCH_IDS, *SEARCH_KEYS, READ_COUNT):
            host.passes = 0
        host.chain = is_chained and status not in (NO_DATA, UNIT_CHECK)
        return status, data


def open_chain(host):
    if not host.chain:
        host.chain, host.mask, host.position, host.passes, host.prior = True, 0, INDEX, 0, None


def check(host, code, argument, prior):
    """The checks of a command, in their order."""
    plain = code & ~MULTI_TRACK
    if host.volume is None and code != SENSE:
        raise Check(NO_VOLUME)
    known = COMMANDS.get(code if code in COMMANDS else plain)
    if known is None or (code not in COMMANDS and not known.has_multi_track):
        raise Check(COMMAND_REJECT)
    if len(argument) < known.least:
        raise Check(COMMAND_REJECT)
    allowed = {SEEK: (0x00,), RECALIBRATE: (0x00,), SEEK_CYLINDER: (0x00, 0x08), SEEK_HEAD: (0x00, 0x08, 0x10)}
    if host.mask & 0x18 not in allowed.get(code, (0x00, 0x08, 0x10, 0x18)):
        raise Check(FILE_PROTECTED)
    if code in WRITES and not may_write(code, host.mask, prior):
        raise Check(COMMAND_REJECT)
    if code in WRITES and host.is_protected:
        raise Check(FILE_PROTECTED)
    cylinder, head = int.from_bytes(argument[2:4], "big"), int.from_bytes(argument[4:6], "big")
    if code in (SEEK, SEEK_CYLINDER) and (argument[:2] != b"\0\0" or cylinder >= CYLINDERS):
        raise Check(COMMAND_REJECT)
    if code in (SEEK, SEEK_CYLINDER, SEEK_HEAD) and head >= HEADS:
        raise Check(COMMAND_REJECT)


def may_write(code, mask, prior):
    kind, number = prior or (None, 0)
    inhibited = mask & 0xC0 == 0x40 or (code == WRITE_ALL and mask & 0xC0 == 0x80)
    follows = {
        WRITE_DATA: kind in ("ID", "key") and number > 0,
        WRITE_KEY_DATA: kind == "ID" and number > 0,
        WRITE_ALL: kind is not None,
    }[code]
    return follows and not inhibited


def done(host, code, argument, prior):
    """A command that passed its checks."""
    plain, multi = code & ~MULTI_TRACK, code & MULTI_TRACK != 0
    if plain in WRITES:
        return written(host, plain, argument, prior[1])
    if plain in SEARCH_IDS or plain in SEARCH_KEYS or plain == SEARCH_HOME:
        return searched(host, plain, argument, multi), b""
    if plain in (READ_COUNT, READ_DATA, READ_KEY_DATA, READ_ALL, READ_R0, READ_HOME):
        return read(host, plain, multi)
    if code == SENSE:
        return DONE, host.sense
    if code == SET_MASK:
        host.mask = argument[0]
    if code in (SEEK, SEEK_CYLINDER):
        host.cylinder = int.from_bytes(argument[2:4], "big")
    if code in (SEEK, SEEK_CYLINDER, SEEK_HEAD):
        host.head = int.from_bytes(argument[4:6], "big")
    if code == RECALIBRATE:
        host.cylinder = host.head = 0
    if code in (SEEK, SEEK_CYLINDER, SEEK_HEAD, RECALIBRATE):
        host.position = INDEX
    return DONE, b""


def searched(host, code, argument, multi):
    if code == SEARCH_HOME:
        host.go_home(multi)
        host.position = HOME
        return MET if host.place() == argument[:4] else DONE
    if code in SEARCH_IDS:
        number = host.next_record(0, multi)
        host.position = ("count", number)
        track, wanted, kind, what = host.record(number).identity, argument[:5], SEARCH_IDS[code], "ID"
    else:
        part, stands = host.position
        at_count = part == "count" and stands > 0
        number = stands if at_count else host.next_record(1, multi)
        host.position = ("key", number)
        length = min(len(host.record(number).key), len(argument))
        track, wanted, kind, what = host.record(number).key[:length], argument[:length], SEARCH_KEYS[code], "key"
        if length == 0:
            return DONE
    if not is_met(kind, track, wanted):
        return DONE
    if kind == "equal":
        host.prior = (what, number)
    return MET


def read(host, code, multi):
    if code in (READ_HOME, READ_R0):
        host.go_home(multi)
        host.position = HOME if code == READ_HOME else ("all", 0)
        return DONE, b"\0" + host.place() if code == READ_HOME else host.record(0).count() + bytes(8)
    parts = {READ_DATA: ("count", "key"), READ_KEY_DATA: ("count",)}.get(code, ())
    number = host.present_or_next(parts, 1, multi)
    record = host.record(number)
    if code == READ_COUNT:
        host.position = ("count", number)
        return DONE, record.count()
    host.position = ("all", number)
    given = {READ_DATA: b"", READ_KEY_DATA: record.key, READ_ALL: record.count() + record.key}[code]
    return DONE if record.data else NO_DATA, given + record.data


def written(host, code, argument, number):
    if code == WRITE_ALL:
        key_length, data_length = argument[5], int.from_bytes(argument[6:8], "big")
        rest = fitted(argument[8:], key_length + data_length)
        record = Record(argument[:5], rest[:key_length], rest[key_length:])
        before = host.track()[:number]
        if sum(old.cost() for old in [*before, record]) > CAPACITY:
            raise Check(NO_ROOM)
        host.track()[:] = [*before, record]
        host.position, host.prior = ("all", number + 1), ("wrote", number + 1)
        return DONE, b""
    record = host.record(number)
    rest = argument
    if code == WRITE_KEY_DATA:
        record.key, rest = fitted(argument, len(record.key)), argument[len(record.key) :]
    record.data = fitted(rest, len(record.data))
    host.position = ("all", number)
    return DONE if record.data else NO_DATA, b""
