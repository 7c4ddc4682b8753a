"""Jobs whose reports a person worked out, run through the built program."""

import unittest

from fixtures import CASES, EXAMPLES, SiteTest, difference, host_lines, tests_of

HEAD = "mss 1 frames 1 recorders 1\nvolume 0 VOL001\nhost 1\nmount VOL001\n"
FOUND = ["ccw 07 000000050003", "ccw 31 0005000300", "tic 1"]
FIRST = ["ccw 07 000000000000", "ccw 31 0000000000", "tic 1"]
DONE_WRITE = ["ccw 07 status 0C", "ccw 31 status 4C", "ccw 1D status 0C"]
SENSE = ["ccw 04"]
REST = 22 * "00"  # the last bytes of a sense
BLANK = ["volume 0 VOL001", "END"]
LIMIT = 2_048  # commands of a chain
NO_OPS = LIMIT * ["ccw 03 status 0C"]
ENDLESS = ["ccw 03", "tic 0"]


def job(*programs):
    """A job of one host on one volume, by the words of its programs."""
    lines = [line for words in programs for line in ["program", *words, "end"]]
    return HEAD + "\n".join([*lines, "done", ""])


def report(entries, changes, volumes):
    """The report of such a job: entries behind the mount, changes behind the creation, and what stands behind them."""
    told = [f"entry {number} host 1 {text}" for number, text in enumerate(["mount 0 mounted", *entries], 1)]
    made = [f"change {number} volume 0 {text}" for number, text in enumerate(["create VOL001 0 1", *changes], 1)]
    return "\n".join(["MSS REPORT 1", *told, *made, *volumes, ""])


def written_on(page, cylinder):
    """What the first write of a cylinder changes."""
    return [f"assign page {page} frame 0", f"staged cylinder {cylinder}", f"changed cylinder {cylinder}"]


def shown(place, *records):
    return ["volume 0 VOL001", f"track {place}", *(f"record {record}" for record in records), "END"]


WRITTEN = [*FOUND, "ccw 1D 0005000301000003414243"]
SHOWN = shown("5 3", "0005000301 - 414243")
NUMBERED = [f"00000000{number:02X}" for number in range(1, 98)]
FULL = [*FIRST, *(f"ccw 1D {number}000000" for number in NUMBERED), "ccw 1D 0000000062000000"]
READ_FIRST = ["ccw 07 000000000000", "ccw 31 0000000001", "tic 1", "ccw 06"]

# Each its name, its status, its job, and what it is to print.
ROWS = [
    ("nothing asked", 0, "mss 1 frames 1 recorders 1\ndone\n", "MSS REPORT 1\nEND\n"),
    (
        "the longest record",
        0,
        job([*FIRST, "ccw 1D 00000000010032E6 fill 41 13030"]),
        report(DONE_WRITE, written_on(0, 0), shown("0 0", f"0000000001 - {13030 * '41'}")),
    ),
    (
        "a record one byte too long",
        0,
        job([*FIRST, "ccw 1D 00000000010032E7 fill 41 13031"], SENSE),
        report([*DONE_WRITE[:2], "ccw 1D status 0E", f"ccw 04 status 0C data 0040{REST}"], written_on(0, 0), BLANK),
    ),
    (
        "a full track",
        0,
        job(FULL, READ_FIRST),
        report(
            [*DONE_WRITE[:2], *(97 * ["ccw 1D status 0C"]), "ccw 1D status 0E"]
            + ["ccw 07 status 0C", "ccw 31 status 0C", "ccw 31 status 4C", "ccw 06 status 0D"],
            written_on(0, 0),
            shown("0 0", *(f"{number} - -" for number in NUMBERED)),
        ),
    ),
    (
        "no record found",
        0,
        job(WRITTEN, ["ccw 07 000000050003", "ccw 31 0005000309", "tic 1"], SENSE),
        report(
            [*DONE_WRITE, "ccw 07 status 0C", *(4 * ["ccw 31 status 0C"]), "ccw 31 status 0E"]
            + [f"ccw 04 status 0C data 0008{REST}"],
            written_on(0, 5),
            SHOWN,
        ),
    ),
    (
        "the end of the cylinder",
        0,
        job(["ccw 07 000000050011", "ccw B1 0005001109", "tic 1"], SENSE),
        report(
            ["ccw 07 status 0C", "ccw B1 status 0C", "ccw B1 status 0C", "ccw B1 status 0E"]
            + [f"ccw 04 status 0C data 0020{REST}"],
            ["assign page 0 frame 0", "staged cylinder 5"],
            BLANK,
        ),
    ),
    (
        "a write without its search",
        0,
        job(["ccw 05 41"], SENSE),
        report(["ccw 05 status 0E", f"ccw 04 status 0C data 8000{REST}"], [], BLANK),
    ),
    (
        "writes that the mask forbids",
        0,
        job(WRITTEN, ["ccw 1F 40", "ccw 07 000000050003", "ccw 31 0005000301", "tic 2", "ccw 05 41"], SENSE),
        report(
            [*DONE_WRITE, "ccw 1F status 0C", "ccw 07 status 0C", "ccw 31 status 0C", "ccw 31 status 4C"]
            + ["ccw 05 status 0E", f"ccw 04 status 0C data 8000{REST}"],
            written_on(0, 5),
            SHOWN,
        ),
    ),
    (
        "a seek that the mask forbids",
        0,
        job(["ccw 1F 18", "ccw 07 000000050003"], SENSE),
        report(["ccw 1F status 0C", "ccw 07 status 0E", f"ccw 04 status 0C data 0004{REST}"], [], BLANK),
    ),
    (
        "writes on a read-only volume",
        0,
        job(["ccw 05 41"], SENSE, WRITTEN, SENSE).replace("VOL001", "VOL001 readonly", 1),
        report(
            ["ccw 05 status 0E", f"ccw 04 status 0C data 8000{REST}"]
            + [*DONE_WRITE[:2], "ccw 1D status 0E", f"ccw 04 status 0C data 0004{REST}"],
            ["protect on", "assign page 0 frame 0", "staged cylinder 5"],
            ["volume 0 VOL001 readonly", "END"],
        ),
    ),
    (
        "a transfer to a transfer",
        0,
        job(["ccw 03", "tic 2", "tic 0"]),
        report(["ccw 03 status 0C", "break program check"], [], BLANK),
    ),
    ("a chain without an end", 0, job(ENDLESS), report([*NO_OPS, "break chain limit"], [], BLANK)),
    (
        "more calls than a session has",
        6,
        job(ENDLESS, ENDLESS),
        report([*NO_OPS, "break chain limit", *NO_OPS[2:]], [], ["volume 0 VOL001", "LIMIT"]),
    ),
    (
        "a text that ends within its program",
        3,
        "\n".join([*(EXAMPLES / "first.job").read_text().splitlines()[:7], ""]),
        "job refused line 8 Ended\n",
    ),
    (
        "keys",
        0,
        job(
            [*FIRST, "ccw 1D 0000000001020001414207"],
            ["ccw 07 000000000000", "ccw 29 4142", "tic 1", "ccw 06"],
            ["ccw 07 000000000000", "ccw 49 4141", "tic 1", "ccw 06"],
            ["ccw 1E"],
        ),
        report(
            [*DONE_WRITE, "ccw 07 status 0C", "ccw 29 status 4C", "ccw 06 status 0C data 07"]
            + ["ccw 07 status 0C", "ccw 49 status 4C", "ccw 06 status 0C data 07"]
            + ["ccw 1E status 0C data 0000000001020001414207"],
            written_on(0, 0),
            shown("0 0", "0000000001 4142 07"),
        ),
    ),
]

# Those of files. The report of `words` is one of many sessions, for `explain` alone.
FILES = [path for path in sorted(CASES.glob("*.job")) if path.stem != "words"]
ROWS += [(path.stem, 0, path.read_text(), path.with_suffix(".report").read_text()) for path in FILES]

# Since the three hosts don't meet, these words and frames tell each the same.
APART = [("on one frame", 1, [])]
APART += [(f"by order {order}", 8, [f"--order={order}", "--turns=1000"]) for order in range(10)]

# A load of one program stages a cylinder, on which it reads or writes.
LOADS = [("of order 0", 0, 0), ("of order 4", 4, 1), ("of order 5", 5, 0), ("of order 6", 6, 1)]


@tests_of(ROWS)
class WorkedJobs(SiteTest):
    """Whole reports."""

    def check(self, status, text, due):
        self.assert_told(f"{due}status {status}", self.told("serial", text=text))


@tests_of(APART)
class ThreeHosts(SiteTest):
    """Hosts that don't meet: whatever the frames and the turns, each is told the same, and so are the volumes."""

    def check(self, frames, words):
        text = (CASES / "three_hosts.job").read_text().replace("frames 8", f"frames {frames}")
        ran = self.ran("serial", *words, text=text)
        self.assertEqual(ran.returncode, 0)
        due = (CASES / "three_hosts.report").read_text()
        self.assert_told(host_lines(due), host_lines(ran.stdout.decode()))


@tests_of(LOADS)
class SmallLoads(SiteTest):
    """Loads of one program: four mounts, and a seek, a search and a read or a write. It writes where its third drawn
    word is even."""

    def check(self, order, changed):
        counts = f"entries 7\nassign 1\nfree 0\nstaged 1\nchanged {changed}\ndestaged 0"
        told = self.told("serial", "--load", "1", "--order", str(order))
        self.assert_told(f"MSS LOAD 1\n{counts}\nEND\nstatus 0", told)


@tests_of([("of order 0", 0), ("of the highest order", 2**64 - 1)])
class LargeLoads(SiteTest):
    """Each of 1,000 programs has three entries, whatever the order, and the same order gives the same text."""

    def check(self, order):
        told = self.told("serial", "--load", "1000", "--order", str(order))
        again = self.told_on_blank("serial", f"--order={order}", "--load=1000")
        self.assertIsNone(difference(told, again))
        lines = told.splitlines()
        self.assertEqual(lines[:2] + lines[-2:], ["MSS LOAD 1000", "entries 3004", "END", "status 0"])


if __name__ == "__main__":
    unittest.main()
