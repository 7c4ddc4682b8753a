"""What tests stand on: where things lie, sites for the program to run on, and its runs, each with a time limit."""

import os
import shutil
import subprocess
import sys
import tempfile
import unittest
from itertools import zip_longest
from pathlib import Path

TOP = Path(__file__).resolve().parent.parent
sys.path.insert(0, str(TOP / "tools"))

CASES = TOP / "tests/cases"
EXAMPLES = TOP / "examples"
TOOLS = TOP / "tools"
CRATE = TOP / "crates/mss_cli"
PROGRAM = CRATE / "out/mss_cli"  # which `mss` and `rt ci` build

MEMORY = "/dev/shm"
ROOM = 2**30  # bytes, of which images take a part
# No run that a test makes takes a tenth of this, in seconds: one that does hangs. Its status is then that of `timeout`.
LONGEST, HUNG = 60, 124
ONE_FRAME = "mss 1 frames 1 recorders 1\n"
ENDLESS = "ccw 03\ntic 0\n"  # the words of a program that never ends
READ_RECORD = "ccw 07 000000050003\nccw 31 0005000301\ntic 1\nccw 06\n"
SHOWN = 200  # the letters that are shown of a line
NOTHING = "nothing"


def new_folder():
    """A folder that goes when the test ends, in memory where the machine has room there, since runs sync."""
    has_room = os.access(MEMORY, os.W_OK) and shutil.disk_usage(MEMORY).free >= ROOM
    return tempfile.TemporaryDirectory(dir=MEMORY if has_room else None)


def remove_site(folder):
    """Leaves blank devices."""
    site = Path(folder, "mss.site")
    if site.is_dir():
        shutil.rmtree(site)
    else:
        site.unlink(missing_ok=True)


def run(command, folder, text=b"", **rest):
    """Runs a command with this input, and gives what it did; one that hangs is killed."""
    rest = {"stdout": subprocess.PIPE, "stderr": subprocess.PIPE, **rest}
    if "stdin" not in rest:
        rest["input"] = text if isinstance(text, bytes) else text.encode()
    try:
        return subprocess.run(command, cwd=folder, check=False, timeout=LONGEST, **rest)
    except subprocess.TimeoutExpired as hung:
        return subprocess.CompletedProcess(command, HUNG, hung.stdout or b"", hung.stderr or b"")


def run_on_blank(command, text, folder):
    remove_site(folder)
    return run(command, folder, text)


def one_host_job(*programs, mark=""):
    """A job in which a host mounts the one volume, with one frame, and runs these programs, each the text of its words."""
    ran = "".join(f"program\n{words}end\n" for words in programs)
    return f"{ONE_FRAME}volume 0 VOL001{mark}\nhost 1\nmount VOL001\n{ran}done\n"


def told_by(ran):
    """What a run told, with its status in a line behind it."""
    return f"{ran.stdout.decode('latin-1')}status {ran.returncode}"


def difference(due, told):
    """The first line in which two texts differ; none where they are the same."""
    pairs = zip_longest(due.splitlines(), told.splitlines(), fillvalue=NOTHING)
    for number, (wanted, line) in enumerate(pairs, 1):
        if wanted != line:
            return f"line {number} is {line[:SHOWN]}, and due is {wanted[:SHOWN]}"
    return None if due == told else "the last line feed"


def host_lines(report):
    """The lines of each host of a report, without their numbers, and the volumes at the end."""
    lines = report.splitlines()
    entries = [line.split(" ", 2)[2] for line in lines if line.startswith("entry ")]
    rest = [line for line in lines if not line.startswith(("entry ", "change "))]
    return "\n".join([*sorted(entries, key=lambda line: int(line.split(" ")[1])), *rest])


def tests_of(table):
    """Gives a class a test for each row of a table of names and values, by the method `check` with the values."""

    def decorated(case):
        for name, *values in table:
            method = "test_" + "".join(letter if letter.isalnum() else "_" for letter in name)
            if hasattr(case, method):
                raise ValueError(f"two tests are called {method}")
            setattr(case, method, lambda self, values=values: self.check(*values))
        return case

    return decorated


def tool_is_there(name):
    return shutil.which(name) is not None


class Test(unittest.TestCase):
    """A test of texts, whose differences are told by their first line."""

    def assert_told(self, due, told, name=""):
        found = difference(due, told)
        if found:
            self.fail(f"{name}: {found}" if name else found)


class SiteTest(Test):
    """A test that runs the program, in a folder of its own."""

    def setUp(self):
        self.assertTrue(PROGRAM.exists(), f"there is no {PROGRAM}: ./mss builds it")
        folder = new_folder()
        self.addCleanup(folder.cleanup)
        self.folder = folder.name
        self.site = Path(folder.name, "mss.site")

    def ran(self, *words, text=b"", **rest):
        """A run of the program by these words."""
        return run([PROGRAM, *words], self.folder, text, **rest)

    def told(self, *words, text=b"", **rest):
        """What such a run tells, with its status."""
        return told_by(self.ran(*words, text=text, **rest))

    def told_on_blank(self, *words, text=b"", **rest):
        remove_site(self.folder)
        return self.told(*words, text=text, **rest)
