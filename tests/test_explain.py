"""tools/explain: on a job and a report whose words were written by hand, on the examples and the other cases, each
entry of which has to be explained, on copies of a volume, on lines that stand in place of a report, and on a report of
another job."""

import unittest

from fixtures import CASES, EXAMPLES, TOOLS, Test, run, tests_of

JOBS = [
    (f"{path.stem} of {folder.name}", path) for folder in (EXAMPLES, CASES) for path in sorted(folder.glob("*.job"))
]
TOOL = TOOLS / "explain"
FIRST = EXAMPLES / "first.job"

# A line in place of a report, and the beginning of its words.
LINES = [
    ("a refused job", "job refused line 7 Shape", "the number of words"),
    ("a torn track", "restart refused torn track volume 0 cylinder 5 head 3", "a track's block"),
    ("a want of memory", "want of memory", "there was too little memory"),
]

# A copy of the first report's volume, and what is said of it.
COPIES = [
    ("before an entry", "copy 0 after 0", "volume 0 as it was before entry 1; tracks that aren't told were blank"),
    ("behind entries", "copy 0 after 3", "volume 0 as it was behind entry 3; tracks that aren't told were blank"),
    ("of no volume", "copy 9 no volume", "there was no volume 9"),
    ("that failed", "copy 0 failed fault 1", "a read for the copy of volume 0 failed, so it wasn't taken (fault 1)"),
]

# The first job where no cylinder can be copied to its frame.
CHECKED_TWICE = """MSS REPORT 1
entry 1 host 1 mount 0 mounted
entry 2 host 1 ccw 07 status 0C
entry 3 host 1 ccw 31 equipment check fault 1
entry 4 host 1 ccw 07 status 0C
entry 5 host 1 ccw 31 equipment check fault 2
END
"""


def explained(job, report, text=""):
    """The status, and what is told."""
    ran = run([TOOL, job, report], None, text)
    return ran.returncode, ran.stdout.decode()


def count(text, word):
    return sum(line.startswith(f"{word} ") for line in text.splitlines())


@tests_of(JOBS)
class Reports(Test):
    """Each entry and each change is told."""

    def check(self, job):
        report = job.with_suffix(".report")
        status, told = explained(job, report)
        self.assertEqual(status, 0)
        for word in ("entry", "change"):
            self.assertEqual(count(told, word), count(report.read_text(), word))


@tests_of(LINES)
class Lines(Test):
    """Lines that stand in place of a report."""

    def check(self, line, words):
        _, told = explained(FIRST, "-", f"{line}\n")
        self.assertTrue(told.splitlines()[-1].startswith(f"    {words}"), told)


@tests_of(COPIES)
class Copies(Test):
    """Copies behind the volumes."""

    def check(self, line, words):
        report = FIRST.with_suffix(".report").read_text()
        _, due = explained(FIRST, "-", report)
        status, told = explained(FIRST, "-", report.replace("END\n", f"{line}\nEND\n"))
        self.assert_told(due.replace("END\n", f"{line}\n    {words}\nEND\n"), told)
        self.assertEqual(status, 0)

    def test_its_tracks(self):
        """They are told as those of the volume are."""
        report = FIRST.with_suffix(".report").read_text()
        tracks = report[report.index("track ") : report.index("END")]
        _, told = explained(FIRST, "-", report.replace("END\n", f"copy 0 after 8\n{tracks}END\n"))
        of_volume, of_copy = told[told.index("track ") : told.index("END")].split("copy 0 after 8\n")
        self.assert_told(of_volume, of_copy.split("\n", 1)[1])


class Explained(Test):
    """What was written by hand, and what can't be explained."""

    def test_words_written_by_hand(self):
        status, told = explained(CASES / "words.job", CASES / "words.report")
        self.assert_told((CASES / "words.explained").read_text(), told)
        self.assertEqual(status, 0)

    def test_a_read_only_volume(self):
        *front, last = FIRST.with_suffix(".report").read_text().partition("volume 0 VOL001\n")
        marks = [f"change {number} volume 0 protect {word}" for number, word in enumerate(("on", "off", "on"), 5)]
        report = "\n".join([front[0] + marks[0], *marks[1:], "volume 0 VOL001 readonly", last])
        status, told = explained(FIRST, "-", report)
        self.assertEqual((status, count(told, "change")), (0, 7), told)
        self.assertIn(f"{marks[1]}\n    the volume is no longer read-only\n", told)
        self.assertIn("\nvolume 0 VOL001 readonly\n    as it is at the end", told)

    def test_equipment_checks_are_counted(self):
        """As where the disk is full: no cylinder can be staged, and the report ends as any other."""
        _, told = explained(FIRST, "-", CHECKED_TWICE)
        last = told.splitlines()[-1]
        self.assertEqual(last, "2 equipment checks, the first in entry 3: a device failed, or its disk is full")

    def test_the_report_of_another_job(self):
        status, told = explained(FIRST, EXAMPLES / "keys.report")
        self.assertEqual(status, 1)
        self.assertTrue(told.endswith("doesn't follow from this job\n"), told)

    def test_a_report_without_its_last_entry(self):
        lines = (EXAMPLES / "first.report").read_text().splitlines(True)
        status, told = explained(FIRST, "-", "".join(line for line in lines if not line.startswith("entry 8")))
        self.assertEqual(status, 1)
        self.assertTrue(told.endswith("host 1 has more to do in this job\n"), told)

    def test_a_text_that_is_no_report(self):
        self.assertEqual(explained(FIRST, FIRST)[0], 2)


if __name__ == "__main__":
    unittest.main()
