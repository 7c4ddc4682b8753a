"""Cuts the power of runs at drawn calls on files, by the log of these calls that strace tells.

A write is loose until its file is synced behind it, and a name until its folder is. The files that a cut leaves are
made anew from the log: what is firm is there, and of what is loose each write is there, or lost, or torn, or noise, as
it is drawn. Of these files the program has to show the volumes after a front of the history that has each command which
was answered by then, and the next run has to take them up.

Where a run is about to write, it has answered each command whose effect the writes before show. So the cut at a write
may lose no more than the command of that write itself; the cut behind the last call may lose nothing.

Of each job one cut is behind the last call. By POWER_CUTS, in the environment, so many are tried instead of 40.
"""

import os
import random
import re
import unittest
from dataclasses import dataclass, replace
from functools import cache
from pathlib import Path

from fixtures import CASES, EXAMPLES, PROGRAM, SiteTest, new_folder, run, tests_of
from formats.jobs import read_job
from formats.reports import read_report
from left_sites import listed, told_moments
from test_stops import may_trace

SEED = 46
JOBS = [EXAMPLES / "first.job", EXAMPLES / "update.job", EXAMPLES / "replacement.job", CASES / "cartridges.job"]
COUNT = int(os.environ.get("POWER_CUTS", "40"))
DONE = 0
BLOCK = 16_384
SITE = "mss.site"
CALLS = ("openat", "mkdir", "pwrite64", "fdatasync", "fsync")
HEX = r"((?:\\x[0-9a-f]{2})*)"  # as -xx spells bytes
FORMS = [
    ("pwrite64", re.compile(rf'pwrite64\(\d+<{HEX}>, "{HEX}", \d+, (\d+)\) += (\d+)')),
    ("sync", re.compile(rf"f(?:data)?sync\(\d+<{HEX}>\) += 0")),
    ("make", re.compile(rf"openat\(.*O_CREAT.*\) += \d+<{HEX}>")),
    ("make", re.compile(rf'mkdir(?:at)?\(.*?"{HEX}".*\) += 0')),
]


@dataclass(frozen=True)
class Call:
    """A write, a sync or a making, of a file or a folder by its name."""

    kind: str
    name: str
    at: int = 0
    data: bytes = b""


def bytes_of(spelled):
    return bytes.fromhex(spelled.replace("\\x", ""))


def name_of(spelled):
    return Path(os.fsdecode(bytes_of(spelled))).name


def call_of(line):
    """The call of a line of strace; none of a line that is of no use, as of a call that failed."""
    for kind, form in FORMS:
        found = form.match(line)
        if found and kind == "pwrite64":
            name, data, at, count = found.groups()
            return Call("write", name_of(name), int(at), bytes_of(data)[: int(count)])
        if found:
            return Call(kind, name_of(found[1]))
    return None


def traced(text, folder):
    """A run in a folder: how it ended, its report, and its calls."""
    spelled = ["--decode-fds=path", "-xx", f"--string-limit={BLOCK}"]
    tracing = ["strace", "--quiet=all", "--output=calls", *spelled, f"--trace={','.join(CALLS)}"]
    ran = run([*tracing, PROGRAM, "serial"], folder, text)
    lines = Path(folder, "calls").read_text().splitlines()
    return ran, [call for call in map(call_of, lines) if call]


def parted(calls):
    """The writes that are firm, and those that are loose, in order."""
    synced, firm, loose = set(), [], []
    for call in reversed(calls):
        if call.kind == "sync":
            synced.add(call.name)
        elif call.kind == "write":
            (firm if call.name in synced else loose).append(call)
    return firm[::-1], loose[::-1]


def lost_names(calls, above, draw):
    """The files, and perhaps the folder, whose loose names a cut takes."""
    synced, lost = set(), set()
    for call in reversed(calls):
        if call.kind == "sync":
            synced.add(call.name)
        elif call.kind == "make" and (above if call.name == SITE else SITE) not in synced and draw.random() < 0.5:
            lost.add(call.name)
    return lost


def torn(call, draw):
    """What a cut leaves of a loose write."""
    cut = draw.randrange(len(call.data) + 1)
    front = replace(call, data=call.data[:cut])
    back = replace(call, at=call.at + cut, data=call.data[cut:])
    noise = replace(call, data=draw.randbytes(len(call.data)))
    return draw.choices([[call], [], [front], [back], [noise]], weights=[4, 4, 1, 1, 1])[0]


def lay(folder, calls, writes, lost=()):
    """Makes the files that these calls made, with these writes in them."""
    site = Path(folder, SITE)
    if SITE in lost:
        return
    for call in calls:
        if call.kind == "make" and call.name == SITE:
            site.mkdir()
        elif call.kind == "make" and call.name not in lost:
            Path(site, call.name).touch()
    for write in writes:
        if write.name not in lost:
            with Path(site, write.name).open("r+b") as file:
                file.seek(write.at)
                file.write(write.data)


def shown(calls):
    """The listing where nothing is lost behind these calls."""
    with new_folder() as folder:
        lay(folder, calls, [call for call in calls if call.kind == "write"])
        return listed(run([PROGRAM, "show"], folder).stdout)


def answered(calls, moments):
    """For each of these calls, the moment of the last command that is answered as it is made; and one for the end."""
    last, due = 0, []
    for number, call in enumerate(calls):
        if call.kind == "write":
            tracks = shown(calls[:number])
            last = next(at for at in range(last, len(moments)) if moments[at][0] == tracks)
        due.append(max(at for at in range(last + 1) if moments[at][1]))
    return [*due, len(moments) - 1]


@cache
def run_of(path):
    """A run of a job on blank devices: its calls, the moments of its history, at each call that of the last answered
    command, and the name of the folder in which it ran."""
    text = path.read_bytes()
    with new_folder() as folder:
        ran, calls = traced(text, folder)
    moments = told_moments(read_job(text), read_report(ran.stdout))
    return calls, moments, answered(calls, moments), Path(folder).name


def least(calls, answers):
    """The moment behind which a cut behind these calls may not go: that at the last write."""
    return max((answers[at] for at, call in enumerate(calls) if call.kind == "write"), default=0)


@tests_of([(path.stem, path) for path in JOBS])
@unittest.skipUnless(may_trace(), "this machine has no strace, or may not trace")
class PowerCuts(SiteTest):
    """What a cut leaves of a run, and the next run."""

    def check(self, path):
        calls, moments, answers, above = run_of(path)
        self.assertTrue(any(parted(calls[:stop])[1] for stop in range(len(calls))), "no write is ever loose")
        for number in range(-(-COUNT // len(JOBS))):
            draw = random.Random(f"{SEED} {path.stem} {number}")
            stop = draw.randrange(len(calls) + 1) if number else len(calls)
            first = answers[stop] if stop == len(calls) else least(calls[:stop], answers)
            self.cut(path, calls[:stop], [tracks for tracks, _ in moments[first:]], above, draw)

    def cut(self, path, calls, allowed, above, draw):
        firm, loose = parted(calls)
        left = [part for call in loose for part in torn(call, draw)]
        with new_folder() as folder:
            lay(folder, calls, firm + left, lost_names(calls, above, draw))
            told = listed(run([PROGRAM, "show"], folder).stdout)
            again = run([PROGRAM, "serial"], folder, path.read_bytes())
        where = f"behind {len(calls)} calls, {len(loose)} of the writes loose"
        self.assertIn(told, allowed, f"{where}, an answered command is lost, or the site is refused")
        self.assertEqual(again.returncode, DONE, f"{where}, its site isn't taken up")


@tests_of([(path.stem, path) for path in JOBS])
@unittest.skipUnless(may_trace(), "this machine has no strace, or may not trace")
class Starts(SiteTest):
    """A run on files that are there, whose writes may be loose, as an earlier run was killed behind them."""

    def check(self, path):
        text = path.read_bytes()
        self.assertEqual(self.ran("serial", text=text).returncode, DONE)
        due = {file.name for file in self.site.iterdir()} | {SITE, Path(self.folder).name}
        _, calls = traced(text, self.folder)
        first = next((number for number, call in enumerate(calls) if call.kind == "write"), len(calls))
        self.assertEqual({call.name for call in calls[:first] if call.kind == "sync"}, due)


if __name__ == "__main__":
    unittest.main()
