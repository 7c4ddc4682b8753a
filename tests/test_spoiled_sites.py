"""Has the program make sites, spoils their files at places of docs/FORMATS.md, and compares what a look at them and a
run on them tell, and the statuses, with what is due.

A case is a file of `cases/spoiled`, whose lines are done in order:

    frames F                   so many frames are configured
    volume V SERIAL            a volume; the first run makes them
    put FILE BLOCK PLACE HEX   these bytes come to stand there
    cut FILE LENGTH            the file ends there
    remove FILE                it goes, if it is there
    has FILE BLOCK PLACE HEX   these bytes have to stand there
    show STATUS                a look at the site, or a run on it, ends so, and tells the lines below, each behind four
    serial STATUS              spaces; where the site is refused, its files have to be as before
"""

import unittest
from dataclasses import dataclass, field

from fixtures import CASES, SiteTest, tests_of

SITES = sorted((CASES / "spoiled").glob("*.site"))
BLOCK = 16_384
INDENT = 4 * " "
RESTART_REFUSED = 4


@dataclass
class Run:
    """What a command of the program has to tell."""

    command: str
    status: int
    lines: list = field(default_factory=list)

    def due(self):
        return "".join(f"{line}\n" for line in self.lines) + f"status {self.status}"


@dataclass
class Case:
    """A case of a file."""

    frames: int = 0
    volumes: list = field(default_factory=list)
    steps: list = field(default_factory=list)  # runs, and the words of other lines

    def job(self):
        volumes = [f"volume {number} {serial}" for number, serial in self.volumes]
        return "\n".join([f"mss 1 frames {self.frames} recorders 1", *volumes, "done", ""])


def read_case(path):
    case = Case()
    for line in path.read_text().splitlines():
        words = line.split()
        if line.startswith(INDENT):
            case.steps[-1].lines.append(line.removeprefix(INDENT))
        elif words[0] == "frames":
            case.frames = int(words[1])
        elif words[0] == "volume":
            case.volumes.append((int(words[1]), words[2]))
        elif words[0] in ("show", "serial"):
            case.steps.append(Run(words[0], int(words[1])))
        elif words[0] != "#":
            case.steps.append(words)
    return case


def spelled_row(serial, first, second):
    """The 512 bytes of a volume's row, blank and in no frame, in version 2."""
    body = b"\x02" + serial.encode() + first.to_bytes(2, "big") + second.to_bytes(2, "big") + 51 * b"\xff"
    return b"\xc1" + body + (1 + 404 + 43) * b"\0" + b"\x4d"


class SiteOfCase(SiteTest):
    """A test of a site that a case tells."""

    def begin(self, path):
        """Makes the site, before it is spoiled."""
        self.case = read_case(path)
        self.make()

    def go_on(self):
        """Does the lines of the case in order."""
        for step in self.case.steps:
            if isinstance(step, Run):
                self.compare(step)
            else:
                self.change(*step)

    def make(self):
        """Runs the job on blank devices. The rows that it makes are those that the formats spell."""
        made = self.ran("serial", text=self.case.job())
        rows = [spelled_row(serial, 2 * at, 2 * at + 1) for at, (_, serial) in enumerate(self.case.volumes)]
        table = b"".join(row.ljust(BLOCK, b"\0") for row in rows)[: BLOCK * (len(rows) - 1) + 512]
        self.assertEqual(made.returncode, 0)
        self.assertEqual(self.contents(), {"table_a": table, "table_b": table}, "the rows that were made")

    def contents(self):
        return {path.name: path.read_bytes() for path in self.site.iterdir()}

    def change(self, word, name, *rest):
        path = self.site / name
        old = path.read_bytes() if path.exists() else b""
        if word == "remove":
            path.unlink(missing_ok=True)
            return
        if word == "cut":
            path.write_bytes(old[: int(rest[0])])
            return
        at, given = BLOCK * int(rest[0]) + int(rest[1]), bytes.fromhex(rest[2])
        if word == "has":
            self.assertEqual(old[at : at + len(given)].hex(), given.hex(), " ".join([word, name, *rest]))
        if word == "put":
            path.write_bytes(old[:at].ljust(at, b"\0") + given + old[at + len(given) :])

    def compare(self, due):
        before = self.contents()
        self.assert_told(due.due(), self.told(due.command, text=self.case.job()), due.command)
        if due.status == RESTART_REFUSED:
            self.assertTrue(self.contents() == before, f"{due.command} wrote to a site that it refused")


@tests_of([(path.stem, path) for path in SITES])
class SpoiledSites(SiteOfCase):
    """Sites that are refused by their first fault, untouched, or that are sound still."""

    def check(self, path):
        self.begin(path)
        self.go_on()


if __name__ == "__main__":
    unittest.main()
