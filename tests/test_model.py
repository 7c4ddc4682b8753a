"""Jobs of several hosts on few frames, and loads, which are drawn from numbers. What the program tells has to be what
the model of staged volumes says, which is written in Python from the documents alone."""

import unittest

from drawn_jobs import Drawing, shrunk
from drawn_loads import summary
from fixtures import CASES, PROGRAM, SiteTest, Test, difference, run_on_blank, tests_of, told_by
from formats import plain
from formats.draws import drawn_turns
from formats.jobs import read_job
from formats.loads import load
from formats.staging_model import Model

DRAWN = 300
# Every other job is begun with so many drawn turns, in which hosts call while recorders work.
TURNS = 500
LIMIT_STATUS = 6
PROGRAMS = 100  # of each load of `cases/loads`

THREE_HOSTS = (CASES / "three_hosts.job").read_text()
BIND = (CASES / "bind.job").read_text()
NAMED = [("three hosts", THREE_HOSTS), ("bind", BIND)]
ORDERED = [(f"{name} {order}", text, order) for name, text in NAMED for order in range(10)]

# Words, with the order and the number of turns that they ask for.
SPELLED = [
    ("no words", "", 0, 0),
    ("a mark alone", "--", 0, 0),
    ("both", "--order=3 --turns 5 --", 3, 5),
    ("the highest order", "--order 18446744073709551615 --turns 50", 2**64 - 1, 50),
    ("the most turns", "--order 00000000000000000007 --turns 100000", 7, 100_000),
]

# The first words of each order, and turns of an order among so many actors, by a program that steps PCG32 by hand, on
# numbers without bounds. With state 42 and stream 54 it gives a15c02b7, 7b47f409, .., as PCG's own demonstration does. A
# load of five programs, by the same, stands in a file.
WORDS = [
    (298703107, 4236525527, 336081875),
    (866585574, 2109535214, 3403630417),
    (663514024, 4050668357, 535747897),
    (1170342731, 636832815, 4217149081),
    (668795775, 367880767, 1936662788),
    (3086511542, 1342643712, 28595221),
    (2045517856, 2268375300, 982895230),
    (2442223337, 414063806, 2743600285),
    (3046447000, 1793657967, 3828792021),
    (3429093174, 673120095, 3444530991),
]
SHARED = [(0, 7, [3, 3, 3, 1, 0, 3, 2, 6]), (2**64 - 1, 7, [4, 0, 2, 5, 5, 1, 3, 6]), (3, 1, [])]
LOAD_OF_FIVE = (CASES / "load_of_five").read_text()

SPELLED_LOADS = [("one program", "--turns=0 --load=1 --order=0", 1), ("a thousand", "--load 1000", 1000)]


def due(text, order, turns):
    """The report of the model, with the status."""
    job = read_job(text.encode())
    drawn = drawn_turns(order, turns, len(job.hosts) + job.recorders)
    report = Model(job, plain.Machine(job.volumes, job.read_only), plain).report(drawn)
    return f"{report}status {LIMIT_STATUS if report.splitlines()[-1] == 'LIMIT' else 0}"


class ModelTest(SiteTest):
    """A test of jobs beside the model."""

    def fault(self, text, order, turns, words):
        """What is wrong with what is told of a job; none where it is the model's."""
        told = told_by(run_on_blank([PROGRAM, "serial", *words], text, self.folder))
        return difference(due(text, order, turns), told)

    def check_job(self, text, order, turns, words):
        if found := self.fault(text, order, turns, words):
            small = shrunk(text, lambda fewer: self.fault(fewer, order, turns, words) is not None)
            self.fail(f"{found}. By {' '.join(words)} this job differs too:\n{small}")


@tests_of([(f"job {number:03}", number) for number in range(DRAWN)])
class DrawnJobs(ModelTest):
    """Jobs, each by its number."""

    def check(self, number):
        turns = TURNS * (number % 2)
        self.check_job(Drawing(number).job(), number, turns, [f"--order={number}", f"--turns={turns}"])


@tests_of(ORDERED)
class OrderedJobs(ModelTest):
    """Jobs of files by ten orders."""

    def check(self, text, order):
        self.check_job(text, order, 2 * TURNS, [f"--order={order}", f"--turns={2 * TURNS}"])


@tests_of(SPELLED)
class SpelledWords(ModelTest):
    """Words that ask for an order and turns."""

    def check(self, words, order, turns):
        self.check_job(THREE_HOSTS, order, turns, words.split())

    def test_three_hosts_on_one_frame(self):
        self.check_job(THREE_HOSTS.replace("frames 8", "frames 1"), 0, 0, ["--order=0", "--turns=0"])


def stored_loads():
    """The summaries of `cases/loads`, by their orders."""
    _, *told = (CASES / "loads").read_text().split("order ")
    return [(f"order {text.split()[0]}", int(text.split()[0]), text.split("\n", 1)[1]) for text in told]


@tests_of(stored_loads())
class StoredLoads(SiteTest):
    """Loads whose summaries are in a file: that of the model and that of the program are the same."""

    def check(self, order, stored):
        self.assert_told(stored, summary(order, PROGRAMS), "the model")
        told = self.told("serial", f"--order={order}", "--load", str(PROGRAMS))
        self.assert_told(f"{stored}status 0", told, "the program")


@tests_of(SPELLED_LOADS)
class SpelledLoads(SiteTest):
    """Words that ask for a load."""

    def check(self, words, programs):
        self.assert_told(f"{summary(0, programs)}status 0", self.told("serial", *words.split()))


class Draws(SiteTest):
    """What numbers draw here is what another program draws; that the program draws the same, the jobs by orders show."""

    def test_words(self):
        for order, words in enumerate(WORDS):
            self.assertEqual(drawn_turns(order, len(words), 2**32 - 1), list(words))

    def test_turns(self):
        for order, actors, turns in SHARED:
            self.assertEqual(drawn_turns(order, len(turns), actors), turns)

    def test_a_load_of_five(self):
        self.assert_told(LOAD_OF_FIVE, load(3, 5))
        told = self.told_on_blank("serial", "--order=3", "--load=5")
        shown = self.told("show")
        report = self.told_on_blank("serial", "--order=3", text=LOAD_OF_FIVE)
        self.assertIn("record 0116001001 - 866AB6D8", shown)
        self.assert_told(self.told("show"), shown)
        self.assertIn(f"entries {report.count('entry ')}\n", told)


class Shrinking(Test):
    """What is left of a job that differs."""

    def test_one_word_that_matters(self):
        text = Drawing(8).job()
        small = shrunk(text, lambda fewer: "ccw 1D" in fewer)
        lines = [line.split(" ")[0] for line in small.splitlines() if not line.startswith("volume ")]
        self.assertEqual(lines, ["mss", "host", "program", "ccw", "end", "done"])

    def test_two_hosts_that_matter(self):
        text = Drawing(2, hosts=(4, 4)).job()
        small = shrunk(text, lambda fewer: fewer.count("host ") >= 2)
        lines = [line.split(" ")[0] for line in small.splitlines() if not line.startswith("volume ")]
        self.assertEqual(lines, ["mss", "host", "host", "done"])


if __name__ == "__main__":
    unittest.main()
