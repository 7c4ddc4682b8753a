"""Jobs by rules of replacement: what each rule stages, destages and frees of a small job, as a person worked it out;
that no rule changes nothing; which texts of rules are refused; drawn jobs by the model, which has the rules too; the
comparison of `compare`, worked out and by the model; and tools/policies."""

import unittest

from drawn_jobs import Drawing, shrunk
from fixtures import (
    CASES,
    ENDLESS,
    EXAMPLES,
    PROGRAM,
    TOOLS,
    TOP,
    SiteTest,
    Test,
    difference,
    one_host_job,
    run,
    run_on_blank,
    tests_of,
    told_by,
)
from formats import plain
from formats.draws import drawn_turns
from formats.jobs import read_job
from formats.rules import chooser_of
from formats.staging_model import Model
from test_model import LIMIT_STATUS, ORDERED, SPELLED, THREE_HOSTS, TURNS

DRAWN = 100  # jobs for each text of rules

# R1 is written on cylinder 0, and then cylinders 8 and 16 are searched: of two frames the one that holds cylinder 0 is
# the least recently used, and its cylinder is changed.
JOB = """mss 1 frames 2 recorders 1
volume 0 VOL001
host 1
mount VOL001
program
ccw 07 000000000000
ccw 31 0000000000
tic 1
ccw 1D 0000000001000003414243
end
program
ccw 07 000000080000
ccw 31 0008000000
end
program
ccw 07 000000100000
ccw 31 0010000000
end
done
"""

# How many cylinders are staged and destaged, and pages freed.
COUNTS = [
    ("lru", 3, 1, 1),
    ("clean", 3, 0, 1),
    ("quota:1", 3, 1, 1),
    ("avoid:0", 3, 1, 1),
    ("avoid:0,clean", 3, 0, 1),
]

# What `compare` tells of it. The last chooser keeps candidates with fewer than two changed cylinders, as all are.
COMPARED = """MSS POLICIES 1
policy lru staged 3 destaged 1 free 1
policy clean staged 3 destaged 0 free 1
policy quota:1 staged 3 destaged 1 free 1
policy other staged 3 destaged 1 free 1
END
status 0"""

# A chain without an end has 2,048 commands, and a job 4,096 entries; here the first session comes to the limit.
LIMITED = """MSS POLICIES 1
policy lru staged 0 destaged 0 free 0
LIMIT
status 6"""

# A page with two changed cylinders, and one with one: all but the last chooser free the first, which is older.
TWO_CHANGED = """mss 1 frames 2 recorders 1
volume 0 VOL001
host 1
mount VOL001
program
ccw 07 000000000000
ccw 31 0000000000
tic 1
ccw 1D 0000000001000003414243
ccw 07 000000010000
ccw 31 0001000000
tic 5
ccw 1D 0001000001000003414243
ccw 07 000000080000
ccw 31 0008000000
tic 9
ccw 1D 0008000001000003414243
end
program
ccw 07 000000100000
ccw 31 0010000000
end
done
"""

MOST = ",".join(8 * ["clean"])
NO_RULES = ["", "clean,fast", "CLEAN", ",", "clean,", "lru,clean", "quota", "quota:", "quota:1633", "quota:01"]
NO_RULES += ["quota:00001", "avoid:32", "avoid:-1", f"{MOST},clean"]
NO_WORDS = ["policy", "policy clean clean", "policy clean --order", "policy clean --load 0", "policy serial"]
NO_WORDS += ["policy --turns 5", "clean policy", "policy clean --after 5", "policy clean --copy 0 --load 5"]
NO_WORDS += ["policy clean --copy 32", "policy clean --copy 0 --copy 1", "compare --copy 0"]
NO_WORDS += ["compare x", "compare compare", "compare --", "compare lru", "compare --order 1", "compare serial"]
NO_WORDS += ["Compare", "serial compare", "policy compare"]
REFUSED = [["policy", rules] for rules in NO_RULES] + [words.split() for words in NO_WORDS]

# With one frame each page is staged over the last, which is destaged once it was changed; with three nothing is taken.
TABLE = """destaged: cylinders copied back from a frame, over the number of frames
                       1      2      3
lru                    1      1      0
clean                  1      0      0
quota:1                1      1      0
clean,quota:1          1      0      0
farthest next use      1      1      0
"""

JOBS = [(f"{path.stem} of {folder.name}", path) for folder in (EXAMPLES, CASES) for path in sorted(folder.glob("*.job"))]
OPTIONS = [("plainly", []), ("by turns", ["--order=3", "--turns", "50"])]
DRAWN_RULES = ["clean", "quota:0", "quota:1", "quota:2", "avoid:0", "avoid:1,clean", "clean,quota:1"]


def model_cases():
    """Jobs for each text of rules: their names, texts, orders and turns, and the words that ask for these."""
    cases = [(f"job {number:02}", Drawing(number).job(), number, TURNS * (number % 2)) for number in range(DRAWN)]
    cases += [(name, text, order, 2 * TURNS) for name, text, order in ORDERED]
    cases += [("on one frame", THREE_HOSTS.replace("frames 8", "frames 1"), 0, 0)]
    for name, text, order, turns in cases:
        yield name, text, order, turns, [f"--order={order}", f"--turns={turns}"]
    for name, words, order, turns in SPELLED:
        yield name, THREE_HOSTS, order, turns, words.split()


@tests_of([(f"{number} {row[0]}", *row) for number, row in enumerate(COUNTS, 1)])
class Counts(SiteTest):
    """What was worked out."""

    def check(self, rules, *due):
        lines = self.told("policy", rules, text=JOB).splitlines()
        kinds = [line.split(" ")[4] for line in lines if line.startswith("change ")]
        self.assertEqual(tuple(kinds.count(kind) for kind in ("staged", "destaged", "free")), due)


@tests_of([(f"{name} {how}", path, words) for name, path in JOBS for how, words in OPTIONS])
class NoRule(SiteTest):
    """Without a rule the least recently used is chosen, as without `policy`."""

    def check(self, path, words):
        due = self.told("serial", *words, text=path.read_bytes())
        self.assert_told(due, self.told_on_blank("policy", "lru", *words, text=path.read_bytes()))

    def test_a_load(self):
        due = self.told("serial", "--load", "50")
        self.assert_told(due, self.told_on_blank("policy", "lru", "--load", "50"))


@tests_of([(f"{number:02} {' '.join(words)[:40]}", words) for number, words in enumerate(REFUSED, 1)])
class RefusedRules(SiteTest):
    """Texts that are no rules, and words that `serial` wouldn't take."""

    def check(self, words):
        self.assert_told("words refused\nstatus 1", self.told(*words, text=JOB))


@tests_of([("as many as there may be", MOST), ("the highest numbers", "quota:1632,avoid:31")])
class TakenRules(SiteTest):
    """Texts at their limits."""

    def check(self, rules):
        self.assertEqual(self.ran("policy", rules, "--turns=5", "--", text=JOB).returncode, 0)


@tests_of([(f"{rules} {name}", rules, *case) for rules in DRAWN_RULES for name, *case in model_cases()])
class ModelByRules(SiteTest):
    """Jobs beside the model, those that are drawn each by its number."""

    def fault(self, text, order, turns, words):
        """What is told otherwise; none where nothing is."""
        job = read_job(text.encode())
        drawn = drawn_turns(order, turns, len(job.hosts) + job.recorders)
        due = Model(job, plain.Machine(job.volumes, job.read_only), plain, chooser_of(words[0])).report(drawn)
        told = told_by(run_on_blank([PROGRAM, "policy", *words], text, self.folder))
        return difference(f"{due}status {LIMIT_STATUS if due.splitlines()[-1] == 'LIMIT' else 0}", told)

    def check(self, rules, text, order, turns, words):
        words = [rules, *words]
        if found := self.fault(text, order, turns, words):
            small = shrunk(text, lambda fewer: self.fault(fewer, order, turns, words) is not None)
            self.fail(f"{found}. By {' '.join(words)} this job differs too:\n{small}")


def few_changed(candidates):
    """The first of which fewer than two cylinders are changed, or the first of all."""
    return next((place for place, candidate in enumerate(candidates) if candidate.changed < 2), 0)


def comparison(text):
    """What `compare` tells of a job by the model, with the status."""
    job = read_job(text.encode())
    choosers = [(name, chooser_of(name)) for name in ("lru", "clean", "quota:1")] + [("other", few_changed)]
    told, last, status = "MSS POLICIES 1\n", "END", 0
    for name, chooser in choosers:
        lines = Model(job, plain.Machine(job.volumes, job.read_only), plain, chooser).report([]).splitlines()
        kinds = [line.split(" ")[4] for line in lines if line.startswith("change ")]
        counts = " ".join(f"{kind} {kinds.count(kind)}" for kind in ("staged", "destaged", "free"))
        told += f"policy {name} {counts}\n"
        if lines[-1] == "LIMIT":
            last, status = "LIMIT", LIMIT_STATUS
            break
    return f"{told}{last}\nstatus {status}"


@tests_of(
    [
        ("as it was worked out", JOB, COMPARED),
        ("to the limit of entries", one_host_job(ENDLESS, ENDLESS), LIMITED),
        ("of no job", JOB.replace("done", "gone"), "job refused line 19 Unknown\nstatus 3"),
        ("of no text", "", "job refused line 1 Ended\nstatus 3"),
    ]
)
class Compared(SiteTest):
    """What `compare` tells. It leaves no site, and looks at none."""

    def check(self, text, due):
        self.assert_told(due, self.told("compare", text=text))
        self.assertFalse(self.site.exists())

    def test_beside_a_site(self):
        self.ran("serial", text=JOB)
        files = {path.name: path.read_bytes() for path in self.site.iterdir()}
        self.assert_told(COMPARED, self.told("compare", text=JOB))
        self.assertEqual(files, {path.name: path.read_bytes() for path in self.site.iterdir()})

    def test_its_output_is_full(self):
        with open("/dev/full", "wb") as full:
            self.assertEqual(self.ran("compare", text=JOB, stdout=full).returncode, 7)


COMPARED_JOBS = [(name, path.read_text()) for name, path in JOBS]
COMPARED_JOBS += [(f"job {number:02}", Drawing(number).job()) for number in range(DRAWN)]
COMPARED_JOBS += [("two changed cylinders", TWO_CHANGED), ("no end", one_host_job(ENDLESS, ENDLESS))]


@tests_of([(f"{number:03} {name}", text) for number, (name, text) in enumerate(COMPARED_JOBS, 1)])
class ComparedByModel(SiteTest):
    """Comparisons beside the model."""

    def check(self, text):
        self.assert_told(comparison(text), self.told("compare", text=text))


class Tool(Test):
    """tools/policies."""

    def test_its_table(self):
        told = run([TOOLS / "policies", "-"], None, JOB).stdout.decode()
        self.assert_told(TABLE, "\n".join([*told.strip().splitlines()[-7:], ""]))

    def test_its_picture(self):
        words = ["--picture", TOP / "docs/policies.job", "lru", "clean", "quota:1", "avoid:0"]
        drawn = run([TOOLS / "policies", *words], None).stdout.decode()
        self.assert_told((TOP / "docs/policies.svg").read_text(), drawn)


if __name__ == "__main__":
    unittest.main()
