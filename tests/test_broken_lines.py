"""Tries the other tests: each is run on a copy in which one due line is broken, and has to fail there."""

import shutil
import subprocess
import sys
import unittest
from pathlib import Path

from fixtures import CRATE, PROGRAM, TOP, SiteTest, new_folder, tests_of

COPIED = ["tests", "examples", "tools", "benches", "docs"]
PARTS = ["src", "specs", "proofs", "must-fail"]

# A test, the file of which a line is broken, and what stands there once it is.
BROKEN = [
    ("test_audit.Found", "tests/test_audit.py", '["volume 1 copy A closed"]', '["volume 1 copy B closed"]'),
    ("test_audit_drawn.DrawnSites.test_site_00", "tests/audited_sites.py", "} gone", "} lost"),
    ("test_check_job.Carets", "tools/formats/jobs.py", 'number("a host number"', 'number("a number"'),
    ("test_commands.Shown", "docs/JOBS.md", "entry 7 host 1 ccw 31", "entry 7 host 1 ccw 71"),
    ("test_copies.FirstJob", "tests/test_copies.py", '["copy 0 after 3"]', '["copy 0 after 2"]'),
    ("test_documents.Quotes", "docs/PROMISE.md", "pub mid : DevicesSeen", "pub mid : Devices"),
    ("test_edges.Edges", "tests/test_edges.py", "words refused", "words taken"),
    ("test_examples.Examples.test_first", "examples/first.report", "status 4C", "status 0C"),
    ("test_explain.Explained", "tests/cases/words.explained", "mounted:", "demounted:"),
    ("test_images.Files", "tests/test_images.py", "0005000300000008", "0005000400000008"),
    ("test_model.StoredLoads", "tests/cases/loads", "entries 304", "entries 303"),
    ("test_model.DrawnJobs.test_job_01", "tools/formats/staging_model.py", "y.append(frame)", "y.insert(0, frame)"),
    ("test_mss.Script", "mss", "lists the volumes", "lists volumes"),
    ("test_picture.WorkedPictures", "tests/test_picture.py", '("staged", 3, 0)', '("staged", 4, 0)'),
    ("test_policies.Counts", "tests/test_policies.py", '("clean", 3, 0, 1)', '("clean", 3, 1, 1)'),
    ("test_policies.Compared.test_as", "tests/test_policies.py", "destaged 0 free 1", "destaged 1 free 1"),
    ("test_power_cuts.PowerCuts.test_first", "tests/test_power_cuts.py", '(firm if call', '([] if call'),
    ("test_programs.Programs.test_programs_on_blank", "tests/cases/programs/reads.programs", "0C 414243", "0C 414244"),
    ("test_refused_jobs.RefusedJobs.test_0", "tests/refused_texts.py", '(2, "Unknown"', '(1, "Unknown"'),
    ("test_replay.Changed", "tests/test_replay.py", '"change 11")', '"change 12")'),
    ("test_rows.Pairs.test_closed", "tests/test_rows.py", '("closed", "row", "B")', '("closed", "row", "A")'),
    ("test_sites.Histories", "tests/test_sites.py", "asked VOL009", "asked VOL008"),
    ("test_slots.Slots.test_changes", "tests/test_slots.py", '"03000500000000"', '"03000600000000"'),
    ("test_spoiled_sites.SpoiledSites.test_frame", "tests/cases/spoiled/frame_twice.site", "1 page 3", "1 page 4"),
    ("test_stops.FailedCalls.test_first", "tests/test_stops.py", "refused stopped", "refused halted"),
    ("test_threads.Threads.test_an_option", "tests/test_threads.py", "words refused", "words taken"),
    ("test_tools.Progress", "tools/formats/progress.py", "told + 1:", "told + 9:"),
    ("test_worked_faults.FailedCalls.test_a_write", "tests/test_worked_faults.py", "31 status 0E", "31 status 0D"),
    ("test_worked_jobs.WorkedJobs.test_bind", "tests/cases/bind.report", "END", "LIMIT"),
    ("test_worked_stops.WorkedStops.test_an_update", "tests/test_worked_stops.py", '1, "414243"', '1, "414244"'),
]


def copy_of_repository(folder):
    """All that the tests look at, with the program as it is."""
    for name in COPIED:
        shutil.copytree(TOP / name, folder / name)
    for name in ("README.md", "crates.txt", "mss"):
        shutil.copy(TOP / name, folder)
    for crate in (TOP / "crates").iterdir():
        for part in PARTS:
            if (crate / part).is_dir():
                shutil.copytree(crate / part, folder / "crates" / crate.name / part)
    for name in ("stdin", "stdout"):
        shutil.copy(CRATE / name, folder / "crates/mss_cli")
    (folder / "crates/mss_cli/out").mkdir()
    (folder / "crates/mss_cli/out/mss_cli").symlink_to(PROGRAM)


@tests_of([(f"sees {Path(row[1]).stem.removeprefix('test_')} by {row[0].partition('.')[2]}", *row) for row in BROKEN])
class BrokenLines(SiteTest):
    """Tests that have to fail."""

    @classmethod
    def setUpClass(cls):
        folder = new_folder()
        cls.addClassCleanup(folder.cleanup)
        cls.copy = Path(folder.name)
        copy_of_repository(cls.copy)

    def check(self, name, file, old, new):
        path = self.copy / file
        whole = path.read_text()
        self.assertIn(old, whole, f"{file} has no such line")
        path.write_text(whole.replace(old, new, 1))
        try:
            command = [sys.executable, "-B", "-m", "unittest", "discover", "tests", "-k", name]
            ran = subprocess.run(command, cwd=self.copy, capture_output=True, text=True, check=False)
        finally:
            path.write_text(whole)
        told = ran.stderr.splitlines()[-1]
        if "skipped=" in told and "FAILED" not in told:
            self.skipTest(f"{name} is skipped on this machine")
        self.assertRegex(told, r"^FAILED \(.*failures=", f"{name} doesn't see {new} in {file}")


class Tried(unittest.TestCase):
    """No test is left out here."""

    def test_each_file_is_tried(self):
        files = {path.stem for path in (TOP / "tests").glob("test_*.py")} - {"test_broken_lines"}
        self.assertEqual(files, {name.split(".")[0] for name, *_ in BROKEN})


if __name__ == "__main__":
    unittest.main()
