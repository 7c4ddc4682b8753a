"""Stops runs at each of their writes and syncs, and has each of their calls on files fail once, by strace.

A run that is killed as it is about to write or to sync leaves the writes before. So, write by write, the volumes of the
site that is left go on from none to those of the whole history. Where one call fails, the report has to be one that
plain volumes give, with an equipment check, a stop or a refused site, and the site has to show the volumes of its
history, or of the entry that was stopped. Each site that is left has to be taken up by the next run.

A run on a site that is there first syncs what earlier runs wrote. Where a call of that fails, the site is refused, and
nothing is written.

Where a read of the job fails, the run tells an input fault. Where a write of a report of many writes fails, those
before it stand, and nothing comes that was put after it.
"""

import re
import signal
import subprocess
import unittest
from collections import Counter
from functools import cache
from itertools import accumulate, pairwise
from pathlib import Path

from fixtures import ENDLESS, EXAMPLES, PROGRAM, SiteTest, new_folder, one_host_job, run, tests_of, tool_is_there
from formats.following import sources_of
from formats.jobs import read_job
from formats.plain import Machine
from formats.replaying import Differs, replay, reply
from formats.reports import ReportFault, read_report
from left_sites import cuts, listed, moments, tracks_of

CALLS = ("pread64", "pwrite64", "fdatasync", "fsync")
DONE, INPUT_FAULT, RESTART_REFUSED, STOPPED, OUTPUT_FAULT = 0, 2, 4, 5, 7
REFUSED = b"restart refused stopped fault "
NOT_LOADED = 127  # the loader's own reads fail before the program begins
JOBS = [(name, (EXAMPLES / f"{name}.job").read_bytes()) for name in ("first", "update", "replacement")]

# Its report has 2,048 entries, and is written by pieces.
LONG = one_host_job(ENDLESS).encode()


@cache
def may_trace():
    """Whether this machine has strace, and lets it trace."""
    if not tool_is_there("strace"):
        return False
    tried = subprocess.run(["strace", "--output=/dev/null", "true"], capture_output=True, check=False)
    return tried.returncode == 0


def injected(text, call, effect, number):
    """A run in which the call with a number has an effect, the listing of what is left, and the next run's status."""
    with new_folder() as folder:
        tracing = ["strace", "--quiet=all", "--output=calls", f"--inject={call}:{effect}:when={number}"]
        ran = run([*tracing, PROGRAM, "serial"], folder, text)
        shown = run([PROGRAM, "show"], folder)
        again = run([PROGRAM, "serial"], folder, text)
        return ran, listed(shown.stdout), again.returncode


def traced(text, calls):
    """A run with the lines of the calls that it makes."""
    with new_folder() as folder:
        ran = run(["strace", "--output=calls", f"--trace={','.join(calls)}", PROGRAM, "serial"], folder, text)
        return ran.stdout, Path(folder, "calls").read_text()


def calls_of(text):
    """How often a run makes each call on files, and its report."""
    report, lines = traced(text, CALLS)
    return Counter(line.split("(")[0] for line in lines.splitlines()), report


def states_after(job, report):
    """The tracks after the history of a report, and those that an entry which was stopped may leave."""
    machine = Machine(job.volumes, job.read_only)
    pairs = list(zip(report.entries, sources_of(job, report), strict=True))
    for entry, source in pairs:
        reply(machine, entry, source)
    states = [tracks_of(machine.volumes)]
    for entry, source in pairs:
        if entry.reply == "stopped":
            machine.command(entry.host, entry.code, source.word.argument(), False)
            after = tracks_of(machine.volumes)
            states += [cut for place in after for cut in cuts(states[0], after, place)] + [after]
    return states


def is_due(job, ran, left):
    """Whether the site that is left goes with what a run told and ended with."""
    if ran.returncode == NOT_LOADED:
        return left == {}
    if ran.returncode == RESTART_REFUSED:
        return ran.stdout.startswith(REFUSED) and left == {}
    report = read_report(ran.stdout)
    replay(job, report)
    is_stopped = report.last.startswith("STOPPED")
    return ran.returncode == (STOPPED if is_stopped else DONE) and left in states_after(job, report)


def streams_of(text):
    """The numbers of a run's reads of the job, how long the report is before and behind each of its writes, and the
    report."""
    report, lines = traced(text, ("read", "write"))
    calls = re.findall(r"^(read|write)\((\d+),.*= (\d+)$", lines, re.MULTILINE)
    taken = [descriptor for name, descriptor, _ in calls if name == "read"]
    put = [int(length) for name, descriptor, length in calls if (name, descriptor) == ("write", "1")]
    ends = [0, *accumulate(put)]
    return [number for number, descriptor in enumerate(taken, 1) if descriptor == "0"], list(pairwise(ends)), report


@tests_of(JOBS)
@unittest.skipUnless(may_trace(), "this machine has no strace, or may not trace")
class KilledCalls(SiteTest):
    """Runs that are killed at each of their writes and syncs."""

    def check(self, text):
        calls, whole = calls_of(text)
        allowed = moments(read_job(text), read_report(whole))
        for call, least in (("pwrite64", 30), ("fdatasync", 10)):
            self.assertGreater(calls[call], least)
            last = 0
            for number in range(1, calls[call] + 1):
                ran, left, again = injected(text, call, "signal=KILL", number)
                self.assertEqual(ran.returncode, -signal.SIGKILL, f"killed at {call} {number}")
                self.assertIn(left, allowed[last:], f"killed at {call} {number}")
                self.assertEqual(again, DONE, f"killed at {call} {number}, its site isn't taken up")
                last = allowed.index(left, last)


@tests_of(JOBS)
@unittest.skipUnless(may_trace(), "this machine has no strace, or may not trace")
class FailedCalls(SiteTest):
    """Runs in which each call on files fails once."""

    def check(self, text):
        job = read_job(text)
        calls, _ = calls_of(text)
        for call, number in ((call, number) for call in CALLS for number in range(1, calls[call] + 1)):
            ran, left, again = injected(text, call, "error=EIO", number)
            try:
                is_right = is_due(job, ran, left)
            except (Differs, ReportFault) as fault:
                self.fail(f"where {call} {number} fails, {fault}")
            told = f"where {call} {number} fails, it ends with {ran.returncode}, and leaves {left}"
            self.assertTrue(is_right, told)
            self.assertEqual(again, DONE, f"where {call} {number} fails, its site isn't taken up")


@tests_of(JOBS)
@unittest.skipUnless(may_trace(), "this machine has no strace, or may not trace")
class FailedStarts(SiteTest):
    """Runs on sites that are there, in which a call of the first syncs fails."""

    def check(self, text):
        self.assertEqual(self.ran("serial", text=text).returncode, DONE)
        files = len(list(self.site.iterdir()))
        before = self.ran("show").stdout
        for call, count in (("fdatasync", files), ("fsync", 2), ("getdents64", 2)):
            for number in range(1, count + 1):
                tracing = ["strace", "--quiet=all", "--output=calls", f"--inject={call}:error=EIO:when={number}"]
                ran = run([*tracing, PROGRAM, "serial"], self.folder, text)
                told = (ran.stdout, ran.returncode)
                self.assertEqual(told, (REFUSED + b"1\n", RESTART_REFUSED), f"where {call} {number} fails")
                self.assertNotIn("pwrite64(", Path(self.folder, "calls").read_text(), f"where {call} {number} fails")
                self.assertEqual(self.ran("show").stdout, before, f"where {call} {number} fails")
        self.assertEqual(self.ran("serial", text=text).returncode, DONE)


@unittest.skipUnless(may_trace(), "this machine has no strace, or may not trace")
class FailedStreams(SiteTest):
    """Runs in which a read of the job or a write of its report fails."""

    def test_a_long_report(self):
        reads, writes, whole = streams_of(LONG)
        self.assertGreaterEqual(len(reads), 2)
        self.assertGreaterEqual(len(writes), 3)
        due = [("read", number, INPUT_FAULT, [b"input fault\n"]) for number in reads]
        for number, (before, behind) in enumerate(writes, 1):
            due.append(("write", f"{number}+", OUTPUT_FAULT, [whole[:before]]))
            # What waits is written once more at the end.
            due.append(("write", number, OUTPUT_FAULT, [whole[:before], whole[:behind]]))
        for call, when, status, allowed in due:
            ran, _, again = injected(LONG, call, "error=EIO", when)
            told = f"where {call} {when} fails, it ends with {ran.returncode}, and the next run with {again}"
            self.assertEqual((ran.returncode, again), (status, DONE), told)
            self.assertTrue(ran.stdout in allowed, f"where {call} {when} fails, the report ends elsewhere")


if __name__ == "__main__":
    unittest.main()
