"""Runs the commands of the documents as they stand there, and compares what they show of jobs and reports."""

import os
import re
import shutil
import unittest
from pathlib import Path

from fixtures import EXAMPLES, PROGRAM, TOP, SiteTest, run, tests_of, tool_is_there

DOCUMENTS = ["README.md", "docs/JOBS.md", "docs/SITES.md", "docs/IMAGES.md", "docs/POLICIES.md"]
STARTS = ("./mss ", "tools/", "flock ", "dasdinit ")
SYNOPSIS = r" LISTING | <JOB"  # of a block that tells how words are put
REMARK = r"(?<=\S)\s{3,}\S.*"  # what stands to the right of a command
NEEDED = ["flock", "dasdinit"]

# What a reader has by then: a job of one's own for each document.
OWN_JOBS = {
    "docs/JOBS.md": (EXAMPLES / "hosts.job").read_text(),
    "docs/IMAGES.md": "mss 1 frames 2 recorders 1\nvolume 0 HERC01\nhost 1\nmount HERC01\ndone\n",
}


def blocks_of(document):
    """The indented blocks of a document, each its lines."""
    texts = re.findall(r"(?:^|\n\n)((?: {4}.*\n)+)", (TOP / document).read_text())
    return [[line.removeprefix(4 * " ") for line in text.splitlines()] for text in texts]


def scripts_of(document):
    """The commands of each block that has some, as one script."""
    for lines in blocks_of(document):
        if lines[0].startswith(STARTS) and not re.search(SYNOPSIS, lines[0]):
            yield "\n".join(re.sub(REMARK, "", line) for line in lines)


SCRIPTS = [
    (f"{Path(document).stem} {number}", document, script)
    for document in DOCUMENTS
    for number, script in enumerate(scripts_of(document), 1)
]


class CommandTest(SiteTest):
    """A folder that looks like the repository with a built program."""

    def setUp(self):
        super().setUp()
        for name in ("examples", "tools"):
            Path(self.folder, name).symlink_to(TOP / name)
        Path(self.folder, "mss").symlink_to(PROGRAM)
        Path(self.folder, "docs").mkdir()
        shutil.copy(TOP / "docs/policies.job", Path(self.folder, "docs"))

    def script(self, text):
        environment = {**os.environ, "NORTSILU": self.folder, "PYTHONDONTWRITEBYTECODE": "1"}
        return run(["bash", "-e", "-c", text], self.folder, env=environment)


@tests_of(SCRIPTS)
class Scripts(CommandTest):
    """The commands of a block, one after the other."""

    def check(self, document, script):
        for tool in NEEDED:
            if re.search(rf"\b{tool} ", script) and not tool_is_there(tool):
                self.skipTest(f"this machine has no {tool}")
        if document in OWN_JOBS:
            Path(self.folder, "my.job").write_text(OWN_JOBS[document])
            shutil.copy(EXAMPLES / "hosts.report", Path(self.folder, "my.report"))
        self.site.mkdir()
        # In memory a run may end before it is killed.
        ran = self.script(script.replace("kill $!", "kill $! || true"))
        self.assertEqual(ran.returncode, 0, ran.stderr)


class Shown(CommandTest):
    """What the documents show of the first example."""

    def test_the_first_command_and_its_report(self):
        block = next(lines for lines in blocks_of("README.md") if lines[0].startswith("$ "))
        told = self.script(block[0].removeprefix("$ ")).stdout.decode()
        self.assert_told("\n".join([*block[1:], ""]), told)

    def test_the_first_job_and_its_report(self):
        blocks = blocks_of("docs/JOBS.md")
        job = next(lines for lines in blocks if lines[0].startswith("mss 1 "))
        report = next(lines for lines in blocks if lines[0] == "MSS REPORT 1")
        text = "\n".join([*(re.sub(REMARK, "", line) for line in job), ""])
        self.assert_told("\n".join([*report, "status 0"]), self.told("serial", text=text))


if __name__ == "__main__":
    unittest.main()
