"""Copies of a volume as it was behind the first entries, by `--copy V --after N`: those that a person worked out, one
at each point of jobs that begin with drawn turns, and those of drawn jobs, by turns and in threads. Each is replayed on
plain volumes, and what stands beside it is what a run without a copy tells. So it is where a call on files fails: a
read for the copy fails the copy alone."""

import os
import random
import sys
import unittest
from collections import Counter
from concurrent.futures import ProcessPoolExecutor, ThreadPoolExecutor
from pathlib import Path

from drawn_jobs import Drawing
from fixtures import CASES, ENDLESS, EXAMPLES, PROGRAM, SiteTest, difference, new_folder, one_host_job, run, tests_of
from fixtures import told_by
from formats.jobs import read_job
from formats.replaying import AskedCopy, Differs, replay
from formats.reports import ReportFault, read_report
from test_stops import may_trace
from test_threads import fault, job_of

# Drawn jobs by turns, and in threads.
DRAWN, RUNS = 100, 300
ORDERS, TURNS = range(10), 1000
VOLUMES, HEADS = 32, 19
NOT_LOADED = 127  # the loader's own reads fail before the program begins
AT_ONCE = 2 * (os.cpu_count() or 1)

FIRST, HOSTS = ((EXAMPLES / f"{name}.job").read_text() for name in ("first", "hosts"))
REPLACEMENT, THREE_HOSTS = ((CASES / f"{name}.job").read_text() for name in ("replacement", "three_hosts"))
TRACK = ["track 5 3", "record 0005000301 - 414243"]

# What is asked of the first job, whose report has 8 entries, and whose record is written by entry 4.
FIRST_COPIES = [
    ("before its record", "--copy 0 --after 3", ["copy 0 after 3"]),
    ("behind its record", "--copy 0 --after 4", ["copy 0 after 4", *TRACK]),
    ("at its end", "--copy=0 --after=8", ["copy 0 after 8", *TRACK]),
    ("behind more entries than it has", "--after 4096 --copy 0", ["copy 0 after 8", *TRACK]),
    ("without a point", "--copy 0", ["copy 0 after 0"]),
    ("of no volume", "--copy 9", ["copy 9 no volume"]),
    ("of no volume, at its end", "--copy 31 --after 8", ["copy 31 no volume"]),
]
WORDS = ["serial", "threads", "policy clean"]

# A second page takes the only frame of the first, before entry 6, and gives it back, before entry 9.
OLD, NEW = ["track 0 0", "record 0000000001 - 41"], ["track 8 0", "record 0008000001 - 42"]
REPLACED = [(3, []), (4, OLD), (5, OLD), (6, OLD), (7, [*OLD, *NEW]), (9, [*OLD, *NEW]), (11, [*OLD, *NEW])]
# The three records of one program, whose host has the volume meanwhile.
NUMBERED = [f"record 000000000{number} - C{number}" for number in (1, 2, 3)]
IN_A_PROGRAM = [(6, []), *((6 + count, ["track 0 0", *NUMBERED[:count]]) for count in (1, 2, 3))]
IN_A_PROGRAM += [(14, ["track 0 0", *NUMBERED])]
WORKED = [(f"a replacement, after {after}", REPLACEMENT, after, copy) for after, copy in REPLACED]
WORKED += [(f"a program, after {after}", HOSTS, after, copy) for after, copy in IN_A_PROGRAM]

# The first job with a search on another page behind it, and the first write into that page's frame: the first cylinder
# takes 19 writes and two of its record, and five changes of the row take 6 and four times 4.
TWO_PAGES = FIRST.replace("frames 1", "frames 2").replace(
    "done", "program\nccw 07 000000090003\nccw 31 0009000300\nend\ndone"
)
OTHER_STAGED = ("pwrite64", 44)

FULL = one_host_job(ENDLESS, ENDLESS)
NO_HOST = "mss 1 frames 1 recorders 1\nvolume 1 VOL002\ndone\n"


def writer(host, cylinder):
    """A host that writes a record of its own, and then changes that of the first one, if it is there."""
    own, first = f"{cylinder:04X}0001", "00010001"
    return f"""host {host}
mount VOL001
program
ccw 07 0000{own}
ccw 31 {own}00
tic 1
ccw 1D {own}01000002C{host}C{host}
end
program
ccw 07 0000{first}
ccw 31 {first}01
tic 1
ccw 05 D{host}
end
"""


# Three hosts on one volume, each with a page of its own, and so with too few frames.
ONE_VOLUME = "mss 1 frames 2 recorders 2\nvolume 0 VOL001\n" + "".join(map(writer, (1, 2, 3), (1, 8, 201))) + "done\n"
POINTS = [(f"{name}, order {order}", text, order) for order in ORDERS
          for name, text in (("three hosts", THREE_HOSTS), ("one volume", ONE_VOLUME))]  # fmt: skip


def words_of(asked):
    return [f"--copy={asked.volume}", "--after", str(asked.after)]


def told_on_blank(*words, text):
    """What a run in a folder of its own tells, with its status."""
    with new_folder() as folder:
        return told_by(run([PROGRAM, *words], folder, text))


def parted(told):
    """What a run tells besides its copy, and the lines of that."""
    lines = told.splitlines()
    end = max(len(lines) - 2, 0)  # of the last line and the status
    first = next((at for at, line in enumerate(lines) if line.startswith("copy ")), end)
    return "\n".join(lines[:first] + lines[end:]), lines[first:end]


def fault_of(text, plain, asked, told):
    """What is wrong with what a run tells that takes a copy, beside one that doesn't; none where nothing is."""
    if found := difference(plain, parted(told)[0]):
        return found
    report, _, _ = told.rpartition("status ")
    try:
        replay(read_job(text.encode()), read_report(report.encode()), asked=asked)
    except (Differs, ReportFault) as differs:
        return str(differs)
    return None


def drawn_copy(number, volumes, entries):
    """A copy that is drawn from a number, behind at most so many entries. One of six is of no volume."""
    draw = random.Random(number)
    volume = draw.randrange(volumes) if draw.random() < 5 / 6 else draw.randrange(volumes, VOLUMES)
    return AskedCopy(volume, draw.randint(0, entries))


def form_of(copy, entries):
    """Which of the forms of a copy a report has."""
    if copy is None or copy.after is None:
        return "none" if copy is None else copy.heading().split(" ", 2)[2]
    if copy.after == entries:
        return "at the end"
    return "with tracks" if copy.tracks else "blank"


class CopyTest(SiteTest):
    """A test of what a run with a copy tells."""

    def assert_copy(self, rest, copy, told):
        """It tells this copy, and beside it the rest."""
        told_rest, told_copy = parted(told)
        self.assert_told("\n".join(copy), "\n".join(told_copy), "the copy")
        self.assert_told(rest, told_rest, "the rest")


@tests_of([(f"{word} {name}", word, *row) for word in WORDS for name, *row in FIRST_COPIES])
class FirstJob(CopyTest):
    """Copies of the first job, as a person worked them out. Since it has one host, threads tell the same."""

    def check(self, word, asked, copy):
        report = (EXAMPLES / "first.report").read_text()
        told = self.told(*word.split(), *asked.split(), text=FIRST)
        self.assert_copy(f"{report}status 0", copy, told)


@tests_of(WORKED)
class WorkedCopies(CopyTest):
    """Copies of a volume whose pages take the frame of one another, and of one on which a program is under way."""

    def check(self, text, after, copy):
        told = self.told("serial", "--copy", "0", "--after", str(after), text=text)
        rest = told_on_blank("serial", text=text)
        self.assert_copy(rest, [f"copy 0 after {after}", *copy], told)


@tests_of([(word, word) for word in ("serial", "threads")])
class OtherSessions(CopyTest):
    """Copies of sessions that aren't begun on blank devices, that have no volume, and that come to their limit."""

    def check(self, word):
        """A volume that the site has is copied, whether or not the job has it."""
        self.told("serial", text=FIRST)
        told = self.told(word, "--copy", "0", text=NO_HOST)
        due = "MSS REPORT 1\nchange 1 volume 1 create VOL002 2 3\nvolume 1 VOL002\nEND\nstatus 0"
        self.assert_copy(due, ["copy 0 after 0", *TRACK], told)
        shown = "MSS VOLUMES 1\nvolume 0 VOL001\n" + "\n".join(TRACK) + "\nvolume 1 VOL002\nEND\nstatus 0"
        self.assert_told(shown, self.told("show"))

    def test_no_volumes(self):
        for word in ("serial", "threads"):
            told = self.told(word, "--copy", "0", text="mss 1 frames 1 recorders 1\ndone\n")
            self.assert_told("MSS REPORT 1\ncopy 0 no volume\nEND\nstatus 0", told, word)

    def test_a_full_history(self):
        """The last of its 4,096 entries is a point like another one."""
        rest = told_on_blank("serial", text=FULL)
        self.assertTrue(rest.endswith("\nLIMIT\nstatus 6"), rest[-99:])
        for word in ("serial", "threads"):
            for after in (4095, 4096):
                told = told_on_blank(word, "--copy", "0", "--after", str(after), text=FULL)
                self.assert_copy(rest, [f"copy 0 after {after}"], told)


@tests_of(POINTS)
class EachPoint(SiteTest):
    """A copy of each volume at each point of jobs of three hosts that begin with drawn turns: each is what plain
    volumes have there, and the rest is byte for byte as without it."""

    def check(self, text, order):
        words = ["serial", f"--order={order}", f"--turns={TURNS}"]
        plain = told_on_blank(*words, text=text)
        volumes, entries = (plain.count(f"\n{word} ") for word in ("volume", "entry"))
        asked = [AskedCopy(volume, after) for volume in range(volumes) for after in range(entries + 1)]
        with ThreadPoolExecutor(AT_ONCE) as pool:
            told = pool.map(lambda copy: told_on_blank(*words, *words_of(copy), text=text), asked)
            for copy, one in zip(asked, told, strict=True):
                self.assertIsNone(fault_of(text, plain, copy, one), copy)

    def test_they_have_what_they_are_for(self):
        """The three hosts have 43 entries on four volumes, and those on one volume take its pages from one another."""
        report = told_on_blank("serial", text=THREE_HOSTS)
        self.assertEqual((report.count("\nentry "), report.count("\nvolume ")), (43, 4))
        self.assertIn(" free page ", told_on_blank("serial", text=ONE_VOLUME))


@tests_of([("the first job", FIRST), ("a replacement", REPLACEMENT), ("one volume", ONE_VOLUME)])
class Left(SiteTest):
    """A copy leaves no trace: each file of the site has the same bytes as without it."""

    def files(self, *words, text):
        ran = self.told_on_blank("serial", *words, text=text)
        self.assertTrue(ran.endswith("END\nstatus 0"), ran)
        return {path.name: path.read_bytes() for path in self.site.iterdir()}

    def check(self, text):
        plain = self.files(text=text)
        for after in (0, 5, 9, 4096):
            self.assertTrue(plain == self.files("--copy=0", f"--after={after}", text=text), f"after {after}")


@tests_of([(f"job {number:03}", number) for number in range(DRAWN)])
class DrawnJobs(SiteTest):
    """Copies of drawn jobs by drawn turns."""

    def check(self, number):
        text = Drawing(number).job()
        words = ["serial", f"--order={number}", f"--turns={TURNS}"]
        plain = told_on_blank(*words, text=text)
        volumes, entries = (plain.count(f"\n{word} ") for word in ("volume", "entry"))
        asked = drawn_copy(number, volumes, entries + 5)
        told = told_on_blank(*words, *words_of(asked), text=text)
        found = fault_of(text, plain, asked, told)
        self.assertIsNone(found, f"{words + words_of(asked)} of\n{text}")


def run_in_threads(number):
    """Runs the job of a number in threads, with a copy: what is wrong with it, and which form the copy has."""
    text = job_of(number)
    job = read_job(text.encode())
    asked = drawn_copy(number, len(job.volumes), 150)
    with new_folder() as folder:
        ran = run([PROGRAM, "threads", *words_of(asked)], folder, text)
    found = fault(job, ran, asked)
    if found:
        return f"job {number}, {asked}: {found}:\n{text}", "none"
    report = read_report(ran.stdout)
    return None, form_of(report.copy, len(report.entries))


class Threads(SiteTest):
    """Copies in threads."""

    def test_drawn_jobs(self):
        """Plain volumes give each report with its copy, in the order of its entries. Each form of a copy comes up."""
        with ProcessPoolExecutor(AT_ONCE) as pool:
            runs = list(pool.map(run_in_threads, range(RUNS)))
        forms = Counter(form for _, form in runs)
        print(f"{RUNS} runs in threads, with copies {dict(forms)}", file=sys.stderr)
        self.assertEqual([found for found, _ in runs if found], [])
        self.assertEqual(set(forms), {"at the end", "with tracks", "blank", "no volume"})


def traced(options, words, text):
    """What a run tells whose calls are traced, and the lines of those."""
    with new_folder() as folder:
        tracing = ["strace", "--follow-forks", "--quiet=all", "--output=calls", *options]
        ran = run([*tracing, PROGRAM, *words], folder, text)
        return told_by(ran), Path(folder, "calls").read_text()


def injected(faults, words, text):
    """What a run tells in which calls fail, each by its name and its number among those of its name in a thread."""
    return traced([f"--inject={name}:error=EIO:when={number}" for name, number in faults], words, text)[0]


def each_failed(name, words, text, *others):
    """What is told where each call of a name fails, and others fail as well."""
    _, calls = traced([f"--trace={name}"], words, text)
    numbers = range(1, calls.count(f"{name}(") + 1)
    with ThreadPoolExecutor(AT_ONCE) as pool:
        return list(pool.map(lambda number: injected([*others, (name, number)], words, text), numbers))


@unittest.skipUnless(may_trace(), "this machine has no strace, or may not trace")
class FailedCalls(CopyTest):
    """Runs in which a call on files fails."""

    def assert_failed_alone(self, plain, copy, runs):
        """Where the copy failed so, what stands beside it is what is told without it. Gives back how many of the runs
        these are."""
        failed = [told for told in runs if parted(told)[1] == [copy]]
        for told in failed:
            self.assert_copy(plain, [copy], told)
        return len(failed)

    def failed_reads(self, word):
        """Has each read of the first job fail, and gives back how many of them failed the copy alone. Where another one
        fails, the copy is that of what hosts did then."""
        asked = AskedCopy(0, 4)
        runs = each_failed("pread64", [word, *words_of(asked)], FIRST)
        for told in runs:
            rest, copy = parted(told)
            if not told.endswith(f"status {NOT_LOADED}"):
                self.assertEqual(copy == [], "\nSTOPPED " in rest, told)
                self.assertIsNone(fault_of(FIRST, rest, asked, told), told)
        return self.assert_failed_alone(told_on_blank("serial", text=FIRST), "copy 0 failed fault 1", runs)

    def test_each_read(self):
        """For the copy each track of its cylinder is read, but that of the head that is kept."""
        self.assertEqual(self.failed_reads("serial"), HEADS - 1)

    def test_each_read_in_threads(self):
        """A read of each thread fails. Which of them are for the copy differs."""
        self.assertGreater(self.failed_reads("threads"), 0)

    def test_behind_another_fault(self):
        """A copy that fails behind a write that failed tells two faults."""
        plain = injected([OTHER_STAGED], ["serial"], TWO_PAGES)
        self.assertIn("\nentry 10 host 1 ccw 31 equipment check fault 1\n", plain)
        runs = each_failed("pread64", ["serial", *words_of(AskedCopy(0, 10))], TWO_PAGES, OTHER_STAGED)
        self.assertEqual(self.assert_failed_alone(plain, "copy 0 failed fault 2", runs), HEADS - 1)

    def test_each_write_and_sync(self):
        """A session that is stopped, or not begun, has no copy. What else is told is the same as without one."""
        for name in ("pwrite64", "fdatasync", "fsync"):
            plain_runs = each_failed(name, ["serial"], FIRST)
            runs = each_failed(name, ["serial", *words_of(AskedCopy(0, 4))], FIRST)
            for number, (plain, told) in enumerate(zip(plain_runs, runs, strict=True), 1):
                rest, copy = parted(told)
                self.assert_told(plain, rest, f"where {name} {number} fails")
                self.assertEqual(copy == [], not plain.endswith("END\nstatus 0"), f"where {name} {number} fails")


if __name__ == "__main__":
    unittest.main()
