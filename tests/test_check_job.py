"""tools/check-job: on bad jobs, which it has to refuse as the program does; on bad lines, for where its caret stands;
and beside the program, on jobs each of whose lines is spoiled in several ways. Of those that are still good each
entry has to have its line."""

import unittest

from fixtures import CASES, EXAMPLES, PROGRAM, TOOLS, SiteTest, Test, difference, run, run_on_blank, tests_of, told_by
from formats.following import sources_of
from formats.jobs import BadLine, read_job
from formats.reports import read_report
from refused_texts import TABLE
from spoiled_texts import spoiled

JOBS = [
    (f"{path.stem} of {folder.name}", path) for folder in (EXAMPLES, CASES) for path in sorted(folder.glob("*.job"))
]
TOOL = TOOLS / "check-job"
REFUSED = 3

# The last line of a job, and what stands below it.
CARETS = [
    ("volume 1 VOL002", "^ here may stand `host`, `done`, `mount`, `demount`, `program`"),
    ("host 9", "     ^ expected a host number, 1 to 8"),
    ("host 1", "     ^ line 3 has it"),
    ("mount VOL002", "      ^ the serials are VOL001"),
    ("mount VOL001  bind", "             ^ expected `bind`"),
    ("mount", "      ^ expected a serial, six of A to Z and 0 to 9"),
    ("demount 0", "        ^ nothing more is expected"),
    ("done\r", "    ^ the byte is 0D"),
    ("program\nccw 1D 00 fill 00 x", "                  ^ expected a number of bytes, 1 to 65798"),
    ("program\nccw 1D fill 00", "               ^ expected a number of bytes, 1 to 65798"),
    ("program\nend", "^ a program has at least one word"),
    ("program", "^ expected `end` and `done`"),
]


@tests_of(TABLE)
class RefusedTexts(Test):
    """With --plain it prints the line that the program prints."""

    def check(self, due, text):
        self.assert_told(due, told_by(run([TOOL, "--plain", "-"], None, text)))


@tests_of([(f"{number:02} {line}", line, due) for number, (line, due) in enumerate(CARETS, 1)])
class Carets(Test):
    """Where the caret stands, and what is said there."""

    def check(self, line, due):
        self.check_lines(["volume 0 VOL001", "host 1", line], due)

    def check_lines(self, lines, due):
        text = "\n".join(["mss 1 frames 1 recorders 1", *lines, ""])
        told = run([TOOL, "-"], None, text).stdout.decode().splitlines()
        self.assertEqual(told[-1], f"    {due}")

    def test_another_word_behind_a_serial(self):
        self.check_lines(["volume 0 VOL001 writable"], "                ^ expected `readonly`")

    def test_a_fourth_word_of_a_volume(self):
        self.check_lines(["volume 0 VOL001 readonly 1"], "                         ^ nothing more is expected")


class GoodJobs(Test):
    """What is told of a good job."""

    def test_the_first_job(self):
        told = run([TOOL, EXAMPLES / "first.job"], None).stdout.decode()
        self.assertTrue(told.endswith(": a good job of 1 volume, 1 host, 2 programs\n"), told)


@tests_of(JOBS)
class SpoiledJobs(SiteTest):
    """Each line of a job left out, doubled, cut, or with other bytes: what the program refuses is refused alike."""

    def check(self, path):
        for text in spoiled(path.read_bytes()):
            if told := self.fault(text):
                self.fail(f"{told}, of\n{text.decode('latin-1')[:400]}")

    def fault(self, text):
        """What the tools say otherwise than the program; none where they agree."""
        ran = run_on_blank([PROGRAM, "serial"], text, self.folder)
        try:
            job = read_job(text)
        except BadLine as bad:
            return difference(f"{bad.plain()}\nstatus {REFUSED}", told_by(ran))
        if ran.returncode == REFUSED:
            return f"a good job beside {ran.stdout}"
        report = read_report(ran.stdout)
        followed = len(sources_of(job, report))
        return None if followed == len(report.entries) else f"entry {followed + 1} doesn't follow"


if __name__ == "__main__":
    unittest.main()
