"""The text of a job: read to a job, or to its first bad line."""

from dataclasses import dataclass, field

from .files import lines_of
from .progress import quiet

TEXT_LIMIT = 4_194_304
WORD_LIMIT = 256
ITEM_LIMIT = 1_024
ARGUMENT_LIMIT = 65_798
TOTAL_LIMIT = 268_435_456

DIGITS = frozenset(b"0123456789")
HEX_DIGITS = frozenset(b"0123456789ABCDEFabcdef")
SERIAL_BYTES = frozenset(b"ABCDEFGHIJKLMNOPQRSTUVWXYZ0123456789")

# Where a line stands: the first words that are allowed there.
ALLOWED = {
    "head": [b"mss"],
    "volumes": [b"volume", b"host", b"done"],
    "host": [b"host", b"done", b"mount", b"demount", b"program"],
    "program": [b"ccw", b"tic", b"end"],
    "after": [],
}

SENTENCES = {
    "TooBig": f"the text has more than {TEXT_LIMIT:,} bytes",
    "BadByte": "a byte of the line isn't 20 to 7E",
    "After": "the line stands after `done`",
    "Unknown": "its first word isn't allowed here",
    "Shape": "the number of words, a fixed word, or the spelling of a number, a serial or bytes isn't as in the form",
    "Range": "a number is out of its range, or the version isn't 1",
    "Twice": "a volume number, a serial or a host number stands in an earlier line",
    "Absent": "the mounted serial is on no `volume` line",
    "Count": "a limit is passed",
    "Ended": "no line is bad, and there is no `done`",
}


class BadLine(Exception):
    """The first bad line of a text: its number, its kind, where in it, and what would be right."""

    def __init__(self, line, kind, column=0, hint=""):
        super().__init__(f"line {line} {kind}")
        self.line = line
        self.kind = kind
        self.column = column
        self.hint = hint


    def plain(self):
        """The line that the program prints of it."""
        return f"job refused line {self.line} {self.kind}"


class Bad(Exception):
    """What is bad in a line: the kind, the number of the word, from 0, and what would be right."""

    def __init__(self, kind, word=0, hint=""):
        super().__init__(kind)
        self.kind = kind
        self.word = word
        self.hint = hint


@dataclass(frozen=True)
class Slot:
    """A word of a form: how it is written in the form, whether it is spelled right, and its range."""

    said: str
    is_spelled: object
    low: int = 0
    high: int = 0

    def is_in_range(self, word):
        return self.high == 0 or self.low <= int(word) <= self.high


def is_number(word):
    return 1 <= len(word) <= 5 and DIGITS.issuperset(word) and (word == b"0" or word[:1] != b"0")


def is_serial(word):
    return len(word) == 6 and SERIAL_BYTES.issuperset(word)


def is_hex(word):
    return len(word) >= 2 and len(word) % 2 == 0 and HEX_DIGITS.issuperset(word)


def is_byte(word):
    return len(word) == 2 and is_hex(word)


def number(said, low, high):
    return Slot(f"{said}, {low} to {high}", is_number, low, high)


def fixed(text):
    return Slot(f"`{text}`", lambda word: word == text.encode())


VOLUME = number("a volume number", 0, 31)
SERIAL = Slot("a serial, six of A to Z and 0 to 9", is_serial)
CODE = Slot("a code, two hexadecimal digits", is_byte)
ARGUMENT = Slot("bytes, pairs of hexadecimal digits", is_hex)
FILL = (fixed("fill"), Slot("a byte, two hexadecimal digits", is_byte), number("a number of bytes", 1, ARGUMENT_LIMIT))

# The forms of each line: what stands behind its first word.
FORMS = {
    b"mss": [
        (
            Slot("the version, 1", is_number, 1, 1),
            fixed("frames"),
            number("a number of frames", 1, 200),
            fixed("recorders"),
            number("a number of recorders", 1, 8),
        )
    ],
    b"volume": [(VOLUME, SERIAL), (VOLUME, SERIAL, fixed("readonly"))],
    b"host": [(number("a host number", 1, 8),)],
    b"done": [()],
    b"mount": [(SERIAL,), (SERIAL, fixed("bind"))],
    b"demount": [()],
    b"program": [()],
    b"ccw": [(CODE,), (CODE, ARGUMENT), (CODE, *FILL), (CODE, ARGUMENT, *FILL)],
    b"tic": [(number("a word of the program", 0, 255),)],
    b"end": [()],
}


@dataclass
class Word:
    """A word of a program. A transfer has no code, a command no place to go to."""

    line: int
    code: int = None
    given: bytes = b""
    fill: int = 0
    filled: int = 0
    to: int = None

    def length(self):
        return len(self.given) + self.filled

    def argument(self):
        return self.given + bytes([self.fill]) * self.filled


@dataclass
class Item:
    """What a host does next: `mount`, `demount` or `program`."""

    line: int
    kind: str
    volume: int = None
    bind: bool = False
    words: list = field(default_factory=list)
    end_line: int = None


@dataclass
class Host:
    line: int
    number: int
    items: list = field(default_factory=list)


@dataclass
class Job:
    frames: int = 0
    recorders: int = 0
    volumes: dict = field(default_factory=dict)  # number to serial, as text
    read_only: set = field(default_factory=set)  # the numbers of those that hosts only read
    hosts: list = field(default_factory=list)
    lines: list = field(default_factory=list)


class Reader:
    """What the lines so far said."""

    def __init__(self):
        self.job = Job()
        self.place = "head"
        self.total = 0
        self.named = {}  # the line in which each volume number, serial and host number stands

    def take(self, line, words):
        """Takes the words of a line that says something."""
        if self.place == "after":
            raise Bad("After")
        if words[0] not in ALLOWED[self.place]:
            allowed = ", ".join(f"`{word.decode()}`" for word in ALLOWED[self.place])
            raise Bad("Unknown", 0, f"here may stand {allowed}")
        check_form(words)
        getattr(self, "take_" + words[0].decode())(line, words)

    def take_mss(self, _line, words):
        self.job.frames, self.job.recorders = int(words[3]), int(words[5])
        self.place = "volumes"

    def take_volume(self, line, words):
        volume, serial = int(words[1]), words[2].decode()
        for place, named in enumerate([("volume", volume), ("serial", serial)], 1):
            self.name(line, place, named)
        self.job.volumes[volume] = serial
        if len(words) == 4:
            self.job.read_only.add(volume)

    def take_host(self, line, words):
        self.name(line, 1, ("host", int(words[1])))
        self.job.hosts.append(Host(line, int(words[1])))
        self.place = "host"

    def name(self, line, place, named):
        """Keeps what the word at this place names, which no earlier line does."""
        if named in self.named:
            raise Bad("Twice", place, f"line {self.named[named]} has it")
        self.named[named] = line

    def take_done(self, _line, _words):
        self.place = "after"

    def take_mount(self, line, words):
        serial = words[1].decode()
        volume = next((number for number, other in self.job.volumes.items() if other == serial), None)
        if volume is None:
            raise Bad("Absent", 1, f"the serials are {' '.join(self.job.volumes.values()) or 'none'}")
        self.add(Item(line, "mount", volume=volume, bind=len(words) == 3))

    def take_demount(self, line, _words):
        self.add(Item(line, "demount"))

    def take_program(self, line, _words):
        self.add(Item(line, "program"))
        self.place = "program"

    def take_ccw(self, line, words):
        word = word_of(line, words)
        if len(self.program().words) == WORD_LIMIT:
            raise Bad("Count", 0, f"a program has at most {WORD_LIMIT} words")
        if word.length() > ARGUMENT_LIMIT:
            raise Bad("Count", 2, f"an argument has at most {ARGUMENT_LIMIT:,} bytes; this has {word.length():,}")
        if self.total + word.length() > TOTAL_LIMIT:
            raise Bad("Count", 2, f"all arguments up to here have at most {TOTAL_LIMIT:,} bytes together")
        self.total += word.length()
        self.program().words.append(word)

    def take_tic(self, line, words):
        if len(self.program().words) == WORD_LIMIT:
            raise Bad("Count", 0, f"a program has at most {WORD_LIMIT} words")
        self.program().words.append(Word(line, to=int(words[1])))

    def take_end(self, line, _words):
        if not self.program().words:
            raise Bad("Count", 0, "a program has at least one word")
        self.program().end_line = line
        self.place = "host"

    def add(self, item):
        items = self.job.hosts[-1].items
        if len(items) == ITEM_LIMIT:
            raise Bad("Count", 0, f"a host has at most {ITEM_LIMIT:,} items")
        items.append(item)

    def program(self):
        return self.job.hosts[-1].items[-1]


def word_of(line, words):
    """The word of a `ccw` line that has a form."""
    word = Word(line, code=int(words[1], 16))
    if len(words) in (3, 6):
        word.given = bytes.fromhex(words[2].decode())
    if len(words) in (5, 6):
        word.fill, word.filled = int(words[-2], 16), int(words[-1])
    return word


def check_form(words):
    """Tells where a line isn't as one of its forms says; of several the one that it comes closest to."""
    said = words[1:]
    forms = FORMS[words[0]]
    fitting = [form for form in forms if len(form) == len(said)]
    form = max(fitting or forms, key=lambda form: (spelled_words(form, said), len(form)))
    right = spelled_words(form, said)
    if right < len(form):
        raise Bad("Shape", 1 + right, f"expected {form[right].said}")
    if not fitting:
        raise Bad("Shape", 1 + right, "nothing more is expected")
    for place, (slot, word) in enumerate(zip(form, said), 1):
        if not slot.is_in_range(word):
            raise Bad("Range", place, f"expected {slot.said}")


def spelled_words(form, said):
    """How many words, from the first on, are spelled as the form says."""
    right = 0
    for slot, word in zip(form, said):
        if not slot.is_spelled(word):
            break
        right += 1
    return right


def column_of(words, place):
    """Where the word of this number begins; behind the line where it has none."""
    return sum(len(word) + 1 for word in words[:place])


def read_job(text, watch=quiet):
    """The job of a text. Its first bad line is told as a BadLine."""
    if len(text) > TEXT_LIMIT:
        raise BadLine(0, "TooBig")
    reader = Reader()
    reader.job.lines = lines_of(text)
    for number, line in enumerate(watch("lines read", reader.job.lines), 1):
        if line == b"" or line[:1] == b"#":
            continue
        bad_byte = next((at for at, byte in enumerate(line) if not 0x20 <= byte <= 0x7E), None)
        if bad_byte is not None:
            raise BadLine(number, "BadByte", bad_byte, f"the byte is {line[bad_byte]:02X}")
        words = line.split(b" ")
        try:
            reader.take(number, words)
        except Bad as bad:
            raise BadLine(number, bad.kind, column_of(words, bad.word), bad.hint) from None
    if reader.place != "after":
        wanting = "`end` and `done`" if reader.place == "program" else "`done`"
        raise BadLine(len(reader.job.lines) + 1, "Ended", 0, f"expected {wanting}")
    return reader.job
