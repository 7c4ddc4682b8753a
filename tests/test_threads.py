"""Jobs in threads: whatever the order in which hosts and recorders come, each report has to be one that plain volumes
give, and what a kill leaves has to be taken up."""

import os
import sys
import time
import unittest
from concurrent.futures import ProcessPoolExecutor

from drawn_jobs import Drawing
from fixtures import CASES, HUNG, LONGEST, PROGRAM, SiteTest, difference, host_lines, new_folder, run_on_blank, tests_of
from formats.following import followed
from formats.jobs import read_job
from formats.replaying import Differs, replay
from formats.reports import ReportFault, read_report
from killed_runs import faults_of_kills

RUNS, SECONDS = 1000, 90
KILLS = 50
HOSTS = (2, 8)
RECORDERS = 8
# More threads than processors, so that they are stopped wherever they are.
AT_ONCE = 2 * (os.cpu_count() or 1)

APART = CASES / "threads/apart.job"
LOOP = "program\nccw 03\ntic 0\nend\n"
FULL = f"mss 1 frames 1 recorders 1\nvolume 0 VOL001\nhost 1\nmount VOL001\n{LOOP}{LOOP}done\n"


def fault(job, ran, asked=None):
    """What is wrong with a run of a job, which took a copy where one was asked for; none where nothing is."""
    if ran.returncode == HUNG:
        return f"it hangs: it was killed behind {LONGEST} seconds"
    try:
        report = read_report(ran.stdout)
        replay(job, report, asked=asked)
    except (Differs, ReportFault) as told:
        return str(told)
    if (report.last, ran.returncode) != ("END", 0):
        return f"the last line is {report.last}, and the status {ran.returncode}"
    checks = [entry.number for entry in report.entries if entry.reply == "equipment check"]
    if checks:
        return f"entry {checks[0]} is an equipment check, and no call failed"
    _, following = followed(job, report)
    late = [host for host, follows in following.items() if not follows.is_done()]
    return f"host {late[0]} isn't at the end of its script" if late else None


def job_of(number):
    return Drawing(number, 1 + number % RECORDERS, HOSTS).job()


def run_one(number):
    """Runs the job of a number: what is wrong with it, and how many entries its history has."""
    text = job_of(number).encode()
    with new_folder() as folder:
        ran = run_on_blank([PROGRAM, "threads"], text, folder)
    return fault(read_job(text), ran), ran.stdout.count(b"\nentry ")


@tests_of([("three hosts", CASES / "three_hosts.job"), ("apart", APART)])
class HostsApart(SiteTest):
    """Where hosts don't meet, each is told what it is told by serial, and the volumes are the same."""

    def check(self, path):
        one = self.ran("serial", text=path.read_bytes())
        self.assertEqual(one.returncode, 0)
        for _ in range(5):
            other = run_on_blank([PROGRAM, "threads"], path.read_bytes(), self.folder)
            self.assertEqual(other.returncode, 0)
            self.assert_told(host_lines(one.stdout.decode()), host_lines(other.stdout.decode()))


class Threads(SiteTest):
    """Whole runs in threads."""

    def test_a_full_history(self):
        """A host finds room for 4,096 entries, and that ends the run, as it does by serial."""
        told = {word: self.told_on_blank(word, text=FULL) for word in ("serial", "threads")}
        self.assertIsNone(difference(told["serial"], told["threads"]))
        lines = told["threads"].splitlines()
        self.assertEqual(sum(line.startswith("entry ") for line in lines), 4096)
        self.assertEqual(lines[-2:], ["LIMIT", "status 6"])

    def test_an_option(self):
        told = self.told("threads", "--turns", "5", text=APART.read_bytes())
        self.assert_told("words refused\nstatus 1", told)

    def test_the_site_outlives_the_run(self):
        ran = self.ran("threads", "--", text=APART.read_bytes())
        self.assertEqual(ran.returncode, 0)
        volumes = ran.stdout[ran.stdout.index(b"\nvolume ") + 1 :].decode()
        self.assert_told(f"MSS VOLUMES 1\n{volumes}status 0", self.told("show"))

    def test_drawn_jobs(self):
        """A thousand, or as many as there is time for."""
        until = time.monotonic() + SECONDS
        faults, runs, entries = [], 0, 0
        with ProcessPoolExecutor(AT_ONCE) as pool:
            for first in range(0, RUNS, 10 * AT_ONCE):
                if time.monotonic() > until:
                    break
                numbers = range(first, min(first + 10 * AT_ONCE, RUNS))
                for number, (told, told_entries) in zip(numbers, pool.map(run_one, numbers), strict=True):
                    runs, entries = runs + 1, entries + told_entries
                    faults += [f"job {number}: {told}:\n{job_of(number)}"] if told else []
        print(f"{runs} runs in threads, with {entries} entries", file=sys.stderr)
        self.assertEqual(faults, [])
        self.assertTrue(runs)

    def test_killed_runs(self):
        faults, killed = faults_of_kills(APART.read_bytes(), KILLS, "threads")
        self.assertEqual(faults, [])
        self.assertTrue(killed, "no run was killed")


if __name__ == "__main__":
    unittest.main()
