"""Channel programs with every code, status and sense, and what comes back of each command, as a person worked it out:
by the built program on blank devices, and on blocks of a cartridge that are written byte by byte, as
docs/FORMATS.md says.

A program of `cases/programs` is lines that stand together. A line that begins with `#` says what it shows. Each other
line is a command as the device gets it: its code, its argument, the status and the data that come back, where `-` is
no bytes, and `..` behind data is zeros to their end. A search that a program repeats stands once for each time. Where
the chain ends at trouble, what stands below is a chain of its own.
"""

import re
import unittest
from dataclasses import dataclass
from functools import cache

from fixtures import CASES, PROGRAM, SiteTest, run_on_blank, tests_of
from audited_sites import BLOCK, GATES_AT, HEADS, RECORDS_AT, STATES_AT, TAPED
from formats.commands import COMMANDS, MULTI_TRACK, SENSES, STATUSES
from formats.jobs import read_job
from formats.plain import EQUIPMENT_CHECK, NO_SPACE
from formats.replaying import replay
from formats.reports import read_report

FOLDER = CASES / "programs"
PROGRAMS = 146
BEFORE_FORMATS = ["first_track", "writes_under_masks", "seeks_under_masks", "read_back"]
ON_FORMATS = ["controls", "searches", "reads", "writes", "refusals"]
MET, TROUBLE = "4C", ("0D", "0E")
HEAD = ["mss 1 frames 60 recorders 1", "volume 0 VOL001", "host 1"]
ENTRY = re.compile(r"entry \d+ host 1 ccw (\w\w) status (\w\w)(?: data (\w+))?")

# Cylinder 5 as formats.programs leaves it: a head, the gates from that of R1 on, and what stands from byte 256 on. A
# gate is open at C1 alone. All other bytes of the blocks of the cylinders 5 and 6 are EE.
FILLED, FILLER = (5, 6), b"\xee"
BLOCKS = {
    0x03: (
        "C1C1C1C100C1",
        "0005000301000003 414243"
        "0005000302020005 4B31 0102030405"
        "0005000303000000"
        "0005000304030002 4B3939 EEFF"
        "0005000305000001 44"
        "0005000306000001 4545",
    ),
    0x04: (
        "C1C1C000C1",
        "0005000401020004 4B35 A1A2A3A4"
        "0909090902010001 5A 7A"
        "0005000403000001 47"
        "0005000404",
    ),
    0x07: ("00C1C1C1", "0005000701000001 44 00050007020000FFFF"),
    0x08: ("C200C1C1C1", ""),
    0x12: ("C1FF", "0005001201000001 01 0005001202FFFFFF"),
}

# What a program without an order of its own does, and the entries of its host: transfers that lead to a transfer, to
# no word, and to the word before; a search that finds no record.
CHAINS = [
    ("a transfer to a transfer", ["ccw 03", "tic 2", "tic 0"], ["ccw 03 status 0C", "break program check"]),
    ("a transfer at the begin", ["tic 1", "ccw 03"], ["break program check"]),
    ("a transfer past the last word", ["ccw 31 0000000001", "tic 3"], ["ccw 31 status 0C", "break program check"]),
    (
        "a search that ends in a unit check",
        ["ccw 31 0000000009", "tic 0", "ccw 06"],
        ["ccw 31 status 0C", "ccw 31 status 0C", "ccw 31 status 0E"],
    ),
    ("a word that is repeated", ["ccw 03", "tic 0"], [*(2_048 * ["ccw 03 status 0C"]), "break chain limit"]),
]

# The codes of the manual, with the least lengths of their arguments, and the bit by which one goes over many tracks,
# if it has it. Transfer in channel, 08, is none of them.
KNOWN, AT_ONCE, REJECT = 37, 500, ("0E", "80" + 23 * "00")
LEAST = [
    (0x39, 4, 0x80), (0x31, 5, 0x80), (0x51, 5, 0x80), (0x71, 5, 0x80), (0x29, 1, 0x80), (0x49, 1, 0x80), (0x69, 1, 0x80),
    (0x06, 0, 0x80), (0x0E, 0, 0x80), (0x1E, 0, 0x80), (0x12, 0, 0x80), (0x16, 0, 0x80), (0x1A, 0, 0x80),
    (0x03, 0, 0), (0x04, 0, 0), (0x07, 6, 0), (0x0B, 6, 0), (0x1B, 6, 0), (0x13, 0, 0), (0x1F, 1, 0), (0x23, 1, 0),
    (0x05, 0, 0), (0x0D, 0, 0), (0x1D, 8, 0),
]  # fmt: skip


@dataclass(frozen=True)
class Command:
    """A command, and what comes back of it."""

    code: str
    argument: str
    status: str
    data: str

    def word(self):
        return f"ccw {self.code}" + (f" {self.argument}" if self.argument != "-" else "")

    def is_answered(self, code, status, data):
        """Whether these are its code, its status and its data."""
        digits = self.data.removesuffix("..")
        rest = data.removeprefix(digits)
        is_rest = not rest.strip("0") if self.data.endswith("..") else not rest
        return (code, status) == (self.code, self.status) and data.startswith(digits) and is_rest


@cache
def programs_of(name):
    """The programs of a file, each as its commands."""
    parts = (FOLDER / f"{name}.programs").read_text().split("\n\n")
    programs = [[command_of(line) for line in part.splitlines() if not line.startswith("#")] for part in parts]
    return [program for program in programs if program]


def command_of(line):
    code, argument, status, *data = line.split(" ")
    return Command(code, argument, status, data[0] if data and data[0] != "-" else "")


def chains_of(program):
    """The chains of a program's commands, each of which ends at trouble."""
    chains = [[]]
    for command in program:
        chains[-1].append(command)
        if command.status in TROUBLE:
            chains.append([])
    return [chain for chain in chains if chain]


def words_of(chain):
    """A chain as lines of a job. A search that is met passes over the word behind it."""
    words = []
    for command in chain:
        words += [command.word()] + ["ccw 03"] * (command.status == MET)
    return ["program", *(words[:-1] if chain[-1].status == MET else words), "end"]


def job_of(before, names):
    """A job of the programs of some files, with these lines of the host before them."""
    chains = [chain for name in names for program in programs_of(name) for chain in chains_of(program)]
    return "\n".join([*HEAD, *before, *(line for chain in chains for line in words_of(chain)), "done", ""])


class Programs(SiteTest):
    """What the programs are answered."""

    def compare(self, names, report):
        """Compares the entries of a report with what is due of the programs of some files."""
        due = [command for name in names for program in programs_of(name) for command in program]
        told = ENTRY.findall(report)
        for number, (command, entry) in enumerate(zip(due, told), 1):
            self.assertTrue(command.is_answered(*entry), f"command {number} is {command}, and {entry} was told")
        self.assertEqual(len(told), len(due))

    def run_programs(self, before, names):
        """The report of programs, as text."""
        ran = self.ran("serial", text=job_of(before, names))
        self.assertEqual(ran.returncode, 0)
        return ran.stdout.decode()

    def test_programs_on_blank_devices(self):
        """The answers, and in the end the tracks, are those of plain volumes."""
        mounting = words_of_unmounted()
        names = [*BEFORE_FORMATS, "formats", *ON_FORMATS]
        report = self.run_programs(mounting, names)
        self.compare(["unmounted", *names], report)
        replay(read_job(job_of(mounting, names).encode()), read_report(report.encode()))

    def test_programs_on_blocks_by_hand(self):
        formatted = self.tracks_behind_formats()
        self.write_blocks()
        self.assert_told(formatted, tracks_of(self.told("show")))
        report = self.run_programs(["mount VOL001"], ON_FORMATS)
        self.compare(ON_FORMATS, report)
        due = self.tracks_behind_formats(*ON_FORMATS)
        self.assert_told(due, tracks_of(report))

    def tracks_behind_formats(self, *names):
        """The tracks that a format of blank devices leaves, and then these programs."""
        self.told_on_blank("serial", text=job_of(["mount VOL001"], ["formats", *names]))
        return tracks_of(self.told("show"))

    def write_blocks(self):
        """Makes a site whose cylinders 5 and 6 are on the first cartridge, byte by byte."""
        self.assertEqual(self.ran_on_blank(HEAD[:2]).returncode, 0)
        for name in ("table_a", "table_b"):
            table = bytearray((self.site / name).read_bytes())
            for cylinder in FILLED:
                table[STATES_AT + cylinder] = TAPED
            (self.site / name).write_bytes(table)
        blocks = bytearray(FILLED[0] * HEADS * BLOCK) + FILLER * (len(FILLED) * HEADS * BLOCK)
        for head, (gates, records) in BLOCKS.items():
            at = (FILLED[0] * HEADS + head) * BLOCK
            for place, given in ((GATES_AT + 1, bytes.fromhex(gates)), (RECORDS_AT, bytes.fromhex(records))):
                blocks[at + place : at + place + len(given)] = given
        (self.site / "cartridge_0").write_bytes(blocks)

    def ran_on_blank(self, lines):
        self.told_on_blank("show")
        return self.ran("serial", text="\n".join([*lines, "done", ""]))


def words_of_unmounted():
    """The lines of a host that come before its volume is mounted, and that mount."""
    chains = [chain for program in programs_of("unmounted") for chain in chains_of(program)]
    return [*(line for chain in chains for line in words_of(chain)), "mount VOL001 bind"]


def tracks_of(told):
    """The lines of tracks of a report or a listing."""
    return "\n".join(line for line in told.splitlines() if line.startswith(("track", "record")))


@tests_of(CHAINS)
class Chains(SiteTest):
    """Programs that don't go from word to word."""

    def check(self, words, due):
        ran = self.ran("serial", text="\n".join([*HEAD, "mount VOL001", "program", *words, "end", "done", ""]))
        told = re.findall(r"^entry \d+ host 1 (.*)$", ran.stdout.decode(), re.M)
        self.assertEqual(told[1:], due)


class Codes(SiteTest):
    """Each code, with too short an argument and with one that is long enough, behind a search of R1 that is met."""

    def test_each_code(self):
        least = {code | multi: length for code, length, multi in LEAST}
        least |= {code: length for code, length, _ in LEAST}
        self.assertEqual(len(least), KNOWN)
        tried = [(code, length) for code in range(256) for length in lengths_of(least.get(code))]
        for at in range(0, len(tried), AT_ONCE):
            part = tried[at : at + AT_ONCE]
            for (code, length), answer in zip(part, self.answers(part), strict=True):
                is_reject = answer == REJECT
                self.assertEqual(is_reject, length < least.get(code, 9), f"{code:02X} with {length} bytes: {answer}")

    def answers(self, tried):
        """The status of each command, and the sense behind it."""
        lines = ["mount VOL001", *words_of(programs_of("first_track")[0])]
        for code, length in tried:
            search = ["ccw 07 000000000000", "ccw 31 0000000001", "ccw 31 0000000001", "ccw 03"]
            lines += ["program", *search, f"ccw {code:02X} {length * '00'}".rstrip(), "end", "program", "ccw 04", "end"]
        self.assertEqual(self.ran_on_blank([*HEAD, *lines]).returncode, 0)
        told = ENTRY.findall(self.report)[2:]
        return [(told[at + 3][1], told[at + 4][2]) for at in range(0, len(told), 5)]

    def ran_on_blank(self, lines):
        ran = run_on_blank([PROGRAM, "serial"], "\n".join([*lines, "done", ""]), self.folder)
        self.report = ran.stdout.decode()
        return ran


def lengths_of(least):
    """Those of arguments: one too short, if one can be, and one that is just long enough; two of a code that is none."""
    return (0, 8) if least is None else range(max(least - 1, 0), least + 1)


class Texts(unittest.TestCase):
    """What the programs use."""

    def setUp(self):
        names = ["unmounted", *BEFORE_FORMATS, "formats", *ON_FORMATS]
        self.programs = [program for name in names for program in programs_of(name)]
        self.commands = [command for program in self.programs for command in program]

    def test_the_programs_are_all_there(self):
        self.assertEqual(len(self.programs), PROGRAMS)
        self.assertEqual(len(list(FOLDER.iterdir())), len(BEFORE_FORMATS) + len(ON_FORMATS) + 2)

    def test_each_code(self):
        multi = {code | MULTI_TRACK for code, command in COMMANDS.items() if command.has_multi_track}
        self.assertLessEqual({*COMMANDS, *multi}, {int(command.code, 16) for command in self.commands})

    def test_each_status(self):
        self.assertLessEqual({f"{status:02X}" for status in STATUSES}, {command.status for command in self.commands})

    def test_each_sense(self):
        """But for those of a device that fails, and of a cylinder without a frame."""
        told = {command.data.removesuffix("..").ljust(6, "0")[:6] for command in self.commands if command.code == "04"}
        due = {bytes(sense).hex().upper() for sense in SENSES if sense not in (EQUIPMENT_CHECK, NO_SPACE)}
        self.assertLessEqual(due, told)


if __name__ == "__main__":
    unittest.main()
