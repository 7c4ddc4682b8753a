"""What all tools of `tools/` have in common: they tell their use, refuse bad words and bad files in one line, and tell
how far a long work is."""

import contextlib
import io
import itertools
import unittest
from unittest import mock

from fixtures import EXAMPLES, TOOLS, Test, run, tests_of
from formats.progress import with_progress

NAMES = sorted(path.name for path in TOOLS.iterdir() if path.is_file())
WORDLESS = ["build", "figures"]
FIRST = EXAMPLES / "first.job"
REPORT = EXAMPLES / "first.report"
BAD_JOB = EXAMPLES / "first.report"  # whose first word no job has
BAD_REPORT = EXAMPLES / "first.job"
NO_FILE = "none.file"

# A tool with words that it can't do, and how it begins to tell so.
REFUSED = [
    ("explain", [NO_FILE, REPORT], f"explain: {NO_FILE}: No such file or directory"),
    ("explain", [BAD_JOB, REPORT], f"explain: {BAD_JOB}: line 1, Unknown: its first word isn't allowed here"),
    ("explain", [FIRST, BAD_REPORT], f"explain: {BAD_REPORT}: no line of a report stands there: line 1: "),
    ("replay", [FIRST, NO_FILE], f"replay: {NO_FILE}: No such file or directory"),
    ("replay", [BAD_JOB, REPORT], f"replay: {BAD_JOB}: line 1, Unknown: its first word isn't allowed here"),
    ("replay", [FIRST, BAD_REPORT], f"replay: {BAD_REPORT}: no line of a report stands there: line 1: "),
    ("picture", [NO_FILE], f"picture: {NO_FILE}: No such file or directory"),
    ("picture", [BAD_REPORT], f"picture: {BAD_REPORT}: no line of a report stands there: line 1: "),
    ("check-job", [NO_FILE], f"check-job: {NO_FILE}: No such file or directory"),
]


@tests_of([(name, name) for name in NAMES])
class Uses(Test):
    """Each tells its use where it is asked."""

    def check(self, name):
        ran = run([TOOLS / name, "--help"], None)
        self.assertEqual((ran.returncode, ran.stderr), (0, b""))
        self.assertIn(f"usage: {name} ", ran.stdout.decode())


@tests_of([(f"{number} {name}", name, words, told) for number, (name, words, told) in enumerate(REFUSED, 1)])
class Refused(Test):
    """Bad files are told in one line."""

    def check(self, name, words, told):
        ran = run([TOOLS / name, *words], None)
        line = ran.stderr.decode()
        self.assertEqual((ran.returncode, ran.stdout, line.count("\n")), (2, b"", 1), line)
        self.assertTrue(line.startswith(told), line)


@tests_of([(name, name) for name in NAMES if name not in WORDLESS])
class NoWords(Test):
    """Without words each tells its use, as something that went wrong."""

    def check(self, name):
        ran = run([TOOLS / name], None)
        self.assertEqual((ran.returncode, ran.stdout), (2, b""))
        self.assertIn(f"usage: {name} ", ran.stderr.decode())


class Progress(Test):
    """How far a work is."""

    def told(self, seconds):
        """What is told of a work of four items, each of which takes so many seconds."""
        clock = itertools.count(0, seconds)
        with mock.patch("time.monotonic", lambda: next(clock)), contextlib.redirect_stderr(io.StringIO()) as errors:
            self.assertEqual(list(with_progress("items done", [5, 6, 7, 8])), [5, 6, 7, 8])
        return errors.getvalue()

    def test_a_short_work(self):
        self.assertEqual(self.told(0.1), "")

    def test_a_long_work(self):
        self.assertTrue(self.told(2).startswith("items done: 0 of 4\nitems done: 1 of 4\n"))


if __name__ == "__main__":
    unittest.main()
