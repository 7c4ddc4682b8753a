"""Jobs that are drawn from numbers, of several hosts on few frames; and what is left of one that shows a fault, once
all is taken out of it that the fault doesn't need."""

import random
import time

from fixtures import LONGEST
from formats.jobs import BadLine, read_job

# Few places, on both cartridges and on few pages, so that hosts meet and pages replace each other.
CYLINDERS = (0, 1, 7, 8, 16, 201, 202, 403)
HEADS = (0, 1, 18)
RECORDS = (0, 1, 2, 3)
SEARCH_IDS, SEARCH_KEYS = ("31", "51", "71"), ("29", "49", "69")
READS = ("06", "0E", "1E", "12", "16", "1A", "39 00000000")
CONTROLS = ("03", "04", "13", "23 00", "1F 00", "1F 40", "1F 80", "1F 18", "1B 000000000001", "FF", "05 41")


def hexadecimal(number, length):
    return number.to_bytes(length, "big").hex().upper()


class Drawing:
    """A job that is drawn from a number."""

    def __init__(self, number, recorders=None, hosts=(1, 4)):
        self.draw = random.Random(number)
        self.recorders = recorders or self.draw.randint(1, 3)
        self.hosts = hosts  # at least so many, and at most

    def job(self):
        draw = self.draw
        volumes = draw.randint(1, 4)
        head = f"mss 1 frames {draw.randint(1, 4)} recorders {self.recorders}"
        lines = []
        for host in draw.sample(range(1, 9), draw.randint(*self.hosts)):
            lines.append(f"host {host}")
            for _ in range(draw.randint(1, 3)):
                lines += self.stay(draw.randrange(volumes))
        return "\n".join([head, *map(self.volume, range(volumes)), *lines, "done"]) + "\n"

    def volume(self, number):
        """The line of a volume; one of five is read-only."""
        return f"volume {number} VOL{number:03}" + " readonly" * (self.draw.random() < 0.2)

    def stay(self, volume):
        """A mount, programs, and mostly a demount."""
        bind = " bind" if self.draw.random() < 0.2 else ""
        lines = [f"mount VOL{volume:03}{bind}"]
        for _ in range(self.draw.randint(1, 5)):
            lines += ["program", *self.words(), "end"]
        return lines + ["demount"] * (self.draw.random() < 0.9)

    def words(self):
        draw = self.draw
        cylinder, head = hexadecimal(draw.choice(CYLINDERS), 2), hexadecimal(draw.choice(HEADS), 2)
        lines = [f"ccw 07 0000{cylinder}{head}"] if draw.random() < 0.9 else []
        if draw.random() < 0.5:
            return lines + self.formatting(cylinder + head, len(lines))
        for _ in range(draw.randint(1, 4)):
            lines += self.step(cylinder + head, len(lines))
        return lines

    def formatting(self, place, at):
        """A search of R0 or R1, and records behind it."""
        draw = self.draw
        lines = [f"ccw 31 {place}{draw.choice(('00', '00', '01'))}"] + [f"tic {at}"] * (at > 0)
        if at == 0:
            lines.append("tic 0")
        for record in range(1, draw.randint(2, 5)):
            lines.append(self.record(place, record))
        return lines

    def record(self, place, record):
        draw = self.draw
        key, data = draw.choice((0, 0, 1, 3)), draw.choice((0, 1, 5, 100, 6000, 13100))
        given = bytes(draw.choice(b"ABC") for _ in range(key + min(data, 5)))
        fill = f" fill 40 {data - 5}" if data > 5 and draw.random() < 0.8 else ""
        return f"ccw 1D {place}{record:02X}{key:02X}{data:04X}{given.hex().upper()}{fill}"

    def step(self, place, at):
        """A search with its loop and a command behind it, or a command alone."""
        draw = self.draw
        multi = draw.random() < 0.3
        searching = draw.random()
        if searching < 0.4:
            search = f"{self.code(draw.choice(SEARCH_IDS), multi)} {place}{draw.choice(RECORDS):02X}"
        elif searching < 0.6:
            search = f"{self.code(draw.choice(SEARCH_KEYS), multi)} {draw.choice(('41', '42', '4342', '43'))}"
        else:
            return [f"ccw {draw.choice(CONTROLS)}" if searching < 0.75 else self.read(multi)]
        loop = [f"tic {at}"] if draw.random() < 0.9 else []
        behind = draw.choice((self.read(multi), "ccw 05 5859", "ccw 0D 58595A", self.record(place, 2)))
        return [f"ccw {search}", *loop, behind]

    def read(self, multi):
        code, _, argument = self.draw.choice(READS).partition(" ")
        return f"ccw {self.code(code, multi)} {argument}".rstrip()

    def code(self, code, multi):
        return f"{int(code, 16) | 0x80:02X}" if multi else code


def parts(lines):
    """Which lines may be left out of a job together: those of a host, of what it does, and each word of a program."""
    hosts, items, words = [], [], []
    firsts = [line.split(" ")[0] for line in lines]
    for at, first in enumerate(firsts):
        if first == "host":
            end = next(behind for behind in range(at + 1, len(lines)) if firsts[behind] in ("host", "done"))
            hosts.append((at, end))
        elif first == "program":
            items.append((at, firsts.index("end", at) + 1))
        elif first in ("mount", "demount"):
            items.append((at, at + 1))
        elif first in ("ccw", "tic"):
            words.append((at, at + 1))
    return hosts + items + words


def is_good(text):
    try:
        read_job(text.encode())
    except BadLine:
        return False
    return True


def shrunk(text, differs):
    """A job that differs still, and of which nothing more can be left out, or not within a minute."""
    until = time.monotonic() + LONGEST
    lines, is_less = text.splitlines(), True
    while is_less:
        at, is_less = 0, False
        while at < len(ranges := parts(lines)) and time.monotonic() < until:
            start, end = ranges[at]
            fewer = lines[:start] + lines[end:]
            tried = "\n".join([*fewer, ""])
            if is_good(tried) and differs(tried):
                lines, is_less = fewer, True
            else:
                at += 1
    return "\n".join([*lines, ""])
