"""tools/replay: on the examples, whose reports plain volumes give, and on reports that they don't give; on copies of a
volume, also where the words of the run are known."""

import re
import unittest

from fixtures import EXAMPLES, TOOLS, Test, run, tests_of
from formats.jobs import read_job
from formats.replaying import Differs, replay
from formats.reports import read_report

TOOL = TOOLS / "replay"

# A line of the report of the replacement, what takes its place, and where it then is refused.
CHANGED = [
    ("data", r"entry 9 (.*) data C1", r"entry 9 \1 data C2", "entry 9"),
    ("a status", r"entry 5 (.*) status 4C", r"entry 5 \1 status 0C", "entry 5"),
    ("a cylinder", r"change 11 (.*) destaged cylinder 0", r"change 11 \1 destaged cylinder 8", "change 11"),
    ("a frame", r"change 8 (.*) frame 1", r"change 8 \1 frame 0", "change 8"),
    ("a mark that isn't there", r"change 2 (volume .) .*", r"change 2 \1 protect off", "change 2"),
    ("a mark", r"volume 0 (.*)", r"volume 0 \1 readonly", "volume 0 has another mark"),
    ("a record", r"record 0010000001 - C2", r"record 0010000001 - C1", "volume 0 has other tracks"),
]

# What is left out of the first report, and what then is told.
LACKING = [
    ("its volumes", r"(volume|track|record) .*\n", "it has 0 volumes, and the job 1"),
    ("its last entry", r"entry 8 .*\n", "host 1 has more to do behind END"),
]

# The lines of a report of a job without hosts, whose one volume is read-only, and what then is told.
READ_ONLY = b"mss 1 frames 1 recorders 1\nvolume 0 VOL001 readonly\ndone\n"
CREATED, MARKED, SHOWN = "create VOL001 0 1", "protect on", "volume 0 VOL001 readonly"
MARKS = [
    ("with its mark", [CREATED, MARKED], SHOWN, None),
    ("without its mark", [CREATED], SHOWN, "not every read-only volume is marked"),
    ("marked before it is there", [MARKED, CREATED], SHOWN, "change 1: protect on isn't allowed there"),
    ("marked twice", [CREATED, MARKED, MARKED], SHOWN, "change 3: protect on isn't allowed there"),
    ("a mark taken away", [CREATED, MARKED, "protect off"], SHOWN, "change 3: protect off isn't allowed there"),
    ("shown without its mark", [CREATED, MARKED], "volume 0 VOL001", "volume 0 has another mark"),
]

# What stands behind the volumes of the first report, whose record entry 4 writes: the copies that plain volumes give.
TRACK, OTHER = "track 5 3\nrecord 0005000301 - 414243", "track 5 4\nrecord 0005000401 - 414243"
COPIES = [
    ("blank", "copy 0 after 0"),
    ("before the record", "copy 0 after 3"),
    ("behind the record", f"copy 0 after 4\n{TRACK}"),
    ("behind all entries", f"copy 0 after 8\n{TRACK}"),
    ("of no volume", "copy 9 no volume"),
    ("that failed", "copy 0 failed fault 1"),
]

# Those that they don't give, and what then is told.
LATE, ABSENT = "it has copy 0 after 9, and 8 entries", "it has copy 0 no volume, and the job has volume 0"
OTHER_TRACKS = "copy 0 after {} has other tracks than volume 0 has there"
WRONG_COPIES = [
    ("the record too early", f"copy 0 after 3\n{TRACK}", OTHER_TRACKS.format(3)),
    ("no record", "copy 0 after 4", OTHER_TRACKS.format(4)),
    ("another record", f"copy 0 after 4\n{TRACK}44", OTHER_TRACKS.format(4)),
    ("a record more", f"copy 0 after 4\n{TRACK}\nrecord 0005000302 - -", OTHER_TRACKS.format(4)),
    ("a blank track", f"copy 0 after 4\ntrack 5 2\n{TRACK}", OTHER_TRACKS.format(4)),
    ("another track", f"copy 0 after 4\n{TRACK}\n{OTHER}", OTHER_TRACKS.format(4)),
    ("a track twice", f"copy 0 after 4\n{TRACK}\n{TRACK}", OTHER_TRACKS.format(4)),
    ("more entries than there are", f"copy 0 after 9\n{TRACK}", LATE),
    ("no volume that is there", "copy 0 no volume", ABSENT),
    ("a volume that isn't there", "copy 9 after 0", "it has copy 9 after 0, and the job has no volume 9"),
    (
        "a failure of one that isn't there",
        "copy 9 failed fault 1",
        "it has copy 9 failed fault 1, and the job has no volume 9",
    ),
]

# The words of a run, what stands in its report, and what then is told; nothing where it is the copy that is due.
WORDS = [
    ("its point", "--copy 0 --after 3", "copy 0 after 3", None),
    ("no point", "--copy 0", "copy 0 after 0", None),
    ("a point behind all entries", "--copy 0 --after 4096", f"copy 0 after 8\n{TRACK}", None),
    ("no such volume", "--copy 9 --after 4096", "copy 9 no volume", None),
    ("a failure", "--copy 0 --after 3", "copy 0 failed fault 1", None),
    ("another point", "--copy 0 --after 3", "copy 0 after 2", "it has copy 0 after 2, and the copy is due after 3"),
    ("too early", "--copy 0 --after 8", "copy 0 after 3", "it has copy 0 after 3, and the copy is due after 8"),
    ("another volume", "--copy 9", "copy 0 after 0", "it has copy 0 after 0, and volume 9 is asked for"),
    ("no copy", "--copy 0 --after 3", "", "it has no copy, and one of volume 0 is asked for"),
]

# Lines that may not stand there, of which the last is refused.
NO_LINES = [
    ("another volume", ["copy 0 after 3", "volume 1 VOL002"]),
    ("another copy", ["copy 0 after 3", "copy 0 after 3"]),
    ("a change", ["copy 0 after 3", "change 5 volume 0 protect on"]),
    ("an entry", ["copy 0 after 3", "entry 9 host 1 demount demounted"]),
    ("a record without its track", ["copy 0 after 4", "record 0005000301 - 414243"]),
    ("a track of no volume", ["copy 9 no volume", "track 5 3"]),
    ("a track of a copy that failed", ["copy 0 failed fault 1", "track 5 3"]),
    ("no point", ["copy 0 after"]),
    ("a point with a zero before it", ["copy 0 after 03"]),
    ("no count of faults", ["copy 0 failed"]),
    ("a stop", ["copy 0 after 3", "STOPPED 1"]),
]


def replayed(name, report, *words):
    return run([TOOL, EXAMPLES / f"{name}.job", "-", *words], None, report)


def first_with(lines):
    """The first report with these lines behind its volumes."""
    report = (EXAMPLES / "first.report").read_text()
    return report.replace("END\n", f"{lines}\nEND\n" if lines else "END\n")


@tests_of([(path.stem, path) for path in sorted(EXAMPLES.glob("*.job"))])
class Replayed(Test):
    """Reports that plain volumes give."""

    def check(self, job):
        ran = replayed(job.stem, job.with_suffix(".report").read_bytes())
        self.assertEqual(ran.returncode, 0, ran.stdout)


@tests_of(CHANGED)
class Changed(Test):
    """Reports with one line changed."""

    def check(self, old, new, told):
        report = (EXAMPLES / "replacement.report").read_text()
        changed, count = re.subn(rf"^{old}$", new, report, flags=re.M)
        self.assertEqual(count, 1)
        ran = replayed("replacement", changed)
        self.assertEqual(ran.returncode, 1)
        self.assertIn(told, ran.stdout.decode())


@tests_of(LACKING)
class Lacking(Test):
    """Reports that lack lines."""

    def check(self, lines, told):
        report = (EXAMPLES / "first.report").read_text()
        ran = replayed("first", re.sub(rf"^{lines}", "", report, flags=re.M))
        self.assertEqual(ran.returncode, 1)
        self.assertTrue(ran.stdout.decode().endswith(f"{told}\n"), ran.stdout)


@tests_of(MARKS)
class Marks(Test):
    """Reports of a job with a read-only volume."""

    def check(self, changes, shown, told):
        lines = [f"change {number} volume 0 {text}" for number, text in enumerate(changes, 1)]
        report = "\n".join(["MSS REPORT 1", *lines, shown, "END", ""])
        self.assertEqual(fault_of(READ_ONLY, report), told)


@tests_of(COPIES)
class Copies(Test):
    """Reports with a copy that plain volumes give."""

    def check(self, lines):
        ran = replayed("first", first_with(lines))
        told = f"8 entries and 4 changes, and {lines.splitlines()[0]}, as plain volumes give them\n"
        self.assertEqual((ran.stdout.decode(), ran.returncode), (f"-: {told}", 0))


@tests_of(WRONG_COPIES)
class WrongCopies(Test):
    """Reports with one that they don't give are refused in one line."""

    def check(self, lines, told):
        ran = replayed("first", first_with(lines))
        self.assertEqual((ran.stdout.decode(), ran.returncode), (f"-: {told}\n", 1))


@tests_of(WORDS)
class Words(Test):
    """The words of the run say which copy is due."""

    def check(self, words, lines, told):
        ran = replayed("first", first_with(lines), *words.split())
        self.assertEqual(ran.returncode, 1 if told else 0, ran.stdout)
        if told:
            self.assert_told(f"-: {told}\n", ran.stdout.decode())


@tests_of([(words, words) for words in ("--after 3", "--copy", "--copy 0 --after", "--copy 0 0", "0 3")])
class WrongWords(Test):
    """Words that ask for no copy are refused."""

    def check(self, words):
        ran = replayed("first", first_with(""), *words.split())
        self.assertEqual((ran.returncode, ran.stdout), (2, b""))
        self.assertIn("usage: replay ", ran.stderr.decode())


@tests_of(NO_LINES)
class NoLines(Test):
    """Lines that no report has there."""

    def check(self, lines):
        *_, last = lines
        ran = replayed("first", first_with("\n".join(lines)))
        self.assertEqual((ran.returncode, ran.stdout), (2, b""))
        self.assertTrue(ran.stderr.decode().endswith(f": {last}\n"), ran.stderr)


def fault_of(job, report):
    """What a replay tells; none where plain volumes give the report."""
    try:
        replay(read_job(job), read_report(report.encode()))
    except Differs as fault:
        return str(fault)
    return None


if __name__ == "__main__":
    unittest.main()
