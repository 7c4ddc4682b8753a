"""Runs in which a call on files fails, by strace: the whole report, and what is left, as a person worked them out.

Each read, write and sync of two jobs fails once, in a run of its own, and so does each of three hosts that take
turns, and each read of a job on a site that is there. A call that fails isn't made. Behind a sync that failed, no sync
of that file is tried again, and each is a fault; where names can't be synced, no file can be written.
"""

import os
import re
import unittest
from concurrent.futures import ThreadPoolExecutor
from dataclasses import dataclass
from itertools import count
from pathlib import Path

from fixtures import CASES, EXAMPLES, PROGRAM, READ_RECORD, SiteTest, host_lines, new_folder, one_host_job, run
from fixtures import tests_of, told_by
from test_stops import may_trace
from worked_calls import CALLS, COPIES, FILES, FRAMES, HEADS, READ, WRITE
from worked_calls import appended, block_of, changed, copied, created, reads, synced, writes

AT_ONCE = os.cpu_count() or 1
FORM = re.compile(r"^(\w+)\(\d+<([^>]*)>(?:, .*, (\d+))?\) += ", re.MULTILINE)
BLOCK = 16_384
TITLE = "MSS REPORT 1\n"
REFUSED = "restart refused stopped fault 1\n"
STOPPED = "STOPPED 1\n"
HEAD = "mss 1 frames 1 recorders 1\nvolume 0 VOL001\n"
IDLE = f"{HEAD}done\n"
SENSE = 23 * "00"


@dataclass(frozen=True)
class Job:
    """A job with what it tells where no call fails, on blank devices."""

    text: str
    entries: str
    changes: str

    def ends(self, entries, then, changes, rest):
        """A report that has so many of these entries, others, so many of these changes, and the rest."""
        parts = (self.entries.splitlines(True)[:entries], [then], self.changes.splitlines(True)[:changes], [rest])
        return TITLE + "".join(line for part in parts for line in part)


def status_of(told):
    """The status with which a report ends."""
    last = told.splitlines()[-1].split()[0]
    return {"END": 0, "restart": 4, "STOPPED": 5}[last]


def traced(text, folder):
    """The calls that a run makes on files of the folder, each with its file and block; and each with its number among
    all calls of its name, since the loader has some of its own."""
    tracing = ["strace", "--quiet=all", "--output=calls", "--decode-fds=path", f"--trace={','.join(CALLS)}"]
    run([*tracing, PROGRAM, "serial"], folder, text)
    counts = {name: count(1) for name in CALLS}
    calls, numbers = [], []
    for name, path, at in FORM.findall(Path(folder, "calls").read_text()):
        number = next(counts[name])
        if path.startswith(folder):
            file = ".." if path == folder else Path(path).name
            calls.append((name, file, int(at) // BLOCK if at else None))
            numbers.append((name, number))
    return calls, numbers


def injected(text, faults, folder):
    """A run in which calls fail, each by its name and number."""
    words = [f"--inject={name}:error=EIO:when={when}" for name, when in faults]
    return run(["strace", "--quiet=all", "--output=calls", *words, PROGRAM, "serial"], folder, text)


def failed(text, faults, after=IDLE, before=None):
    """What such a run tells, and then a job on what it left; behind another job, where one comes before."""
    with new_folder() as folder:
        if before:
            run([PROGRAM, "serial"], folder, before)
        ran = injected(text, faults, folder)
        return told_by(ran), told_by(run([PROGRAM, "serial"], folder, after)) if after else ""


def each_failed(text, calls, **rest):
    """The same of runs of which one of these calls fails."""
    with ThreadPoolExecutor(AT_ONCE) as pool:
        yield from pool.map(lambda call: failed(text, [call], **rest), calls)


class FaultTest(SiteTest):
    """A test of runs in which calls fail."""

    def assert_ends(self, due, left, told, name):
        """A run tells just that, and the next one takes up what it left, with these volumes at the end."""
        self.assert_told(f"{due}status {status_of(due)}", told[0], name)
        self.assertTrue(told[1].endswith(f"{left}status 0"), f"{name}: it leaves {told[1]}")


# A record is written on cylinder 5, head 3, and read back.

FIRST = Job(
    (EXAMPLES / "first.job").read_text(),
    """entry 1 host 1 mount 0 mounted
entry 2 host 1 ccw 07 status 0C
entry 3 host 1 ccw 31 status 4C
entry 4 host 1 ccw 1D status 0C
entry 5 host 1 ccw 07 status 0C
entry 6 host 1 ccw 31 status 0C
entry 7 host 1 ccw 31 status 4C
entry 8 host 1 ccw 06 status 0C data 414243
""",
    """change 1 volume 0 create VOL001 0 1
change 2 volume 0 assign page 0 frame 0
change 3 volume 0 staged cylinder 5
change 4 volume 0 changed cylinder 5
""",
)

BLANK = "volume 0 VOL001\nEND\n"
RECORD = """volume 0 VOL001
track 5 3
record 0005000301 - 414243
END
"""
CUT_BEFORE_THE_TRACK = "volume 0 VOL001\nSTOPPED 1\n"
CUT_BEHIND_THE_TRACK = """volume 0 VOL001
track 5 3
record 0005000301 - 414243
STOPPED 1
"""

# The first search fails. The second program finds no record on the track in two passes.
NOT_SOUGHT = """entry 3 host 1 ccw 31 equipment check fault 1
entry 4 host 1 ccw 07 status 0C
entry 5 host 1 ccw 31 status 0C
entry 6 host 1 ccw 31 status 0C
entry 7 host 1 ccw 31 status 0E
"""
SEARCH_AND_SEEK = """entry 3 host 1 ccw 31 equipment check fault 1
entry 4 host 1 ccw 07 status 0C
"""
BOTH_SEARCHES = f"{SEARCH_AND_SEEK}entry 5 host 1 ccw 31 equipment check fault 2\n"
WRITE_STOPPED = "entry 4 host 1 ccw 1D stopped fault 1\n"
STAGED_AND_BLANK = f"change 3 volume 0 staged cylinder 5\n{BLANK}"

FIVE = block_of(0, 5)

# The frame is told in the row, blank tracks are written into it and synced, and the staged cylinder is told. A
# write or a sync of a row stops the session where it fails. A write of a track fails the search that waits for it.
# A sync of them all does so too, and again as the cylinder is staged for the second search; and so does that of the
# file's name. The search reads the track, which is kept. Before the record is written, the changed cylinder is
# told; behind the gate's sync, also where that fails, the record is there.
FIRST_STEPS = [
    (created(0), REFUSED, BLANK),
    (changed(0), FIRST.ends(2, "", 1, STOPPED), BLANK),
    ([FILES], FIRST.ends(2, BOTH_SEARCHES, 2, BLANK), BLANK),
    (writes(FRAMES, FIVE), FIRST.ends(2, NOT_SOUGHT, 2, STAGED_AND_BLANK), BLANK),
    ([synced(FRAMES)], FIRST.ends(2, BOTH_SEARCHES, 2, BLANK), BLANK),
    (changed(0), FIRST.ends(2, "", 2, STOPPED), BLANK),
    ([(READ, FRAMES, FIVE + 3)], FIRST.ends(2, NOT_SOUGHT, 2, STAGED_AND_BLANK), BLANK),
    (changed(0), FIRST.ends(3, WRITE_STOPPED, 3, STOPPED), BLANK),
    (appended(FIVE + 3)[:3], FIRST.ends(3, WRITE_STOPPED, 4, STOPPED), BLANK),
    (appended(FIVE + 3)[3:], FIRST.ends(3, WRITE_STOPPED, 4, STOPPED), RECORD),
    # For the report each track of the cylinder is read; it ends before the first that can't be.
    (reads(FRAMES, FIVE)[:3], FIRST.ends(8, "", 4, CUT_BEFORE_THE_TRACK), RECORD),
    (reads(FRAMES, FIVE)[4:], FIRST.ends(8, "", 4, CUT_BEHIND_THE_TRACK), RECORD),
]

# One frame for two pages: a record on cylinder 0, one on cylinder 9, and the first is read back. Both tracks are kept,
# and what is staged goes into the kept track too, so the last search reads none.

REPLACEMENT = Job(
    f"""{HEAD}host 1
mount VOL001
program
ccw 07 000000000000
ccw 31 0000000000
tic 1
ccw 1D 000000000100000141
end
program
ccw 07 000000090000
ccw 31 0009000000
tic 1
ccw 1D 000900000100000142
end
program
ccw 07 000000000000
ccw 31 0000000001
tic 1
ccw 06
end
done
""",
    """entry 1 host 1 mount 0 mounted
entry 2 host 1 ccw 07 status 0C
entry 3 host 1 ccw 31 status 4C
entry 4 host 1 ccw 1D status 0C
entry 5 host 1 ccw 07 status 0C
entry 6 host 1 ccw 31 status 4C
entry 7 host 1 ccw 1D status 0C
entry 8 host 1 ccw 07 status 0C
entry 9 host 1 ccw 31 status 0C
entry 10 host 1 ccw 31 status 4C
entry 11 host 1 ccw 06 status 0C data 41
""",
    """change 1 volume 0 create VOL001 0 1
change 2 volume 0 assign page 0 frame 0
change 3 volume 0 staged cylinder 0
change 4 volume 0 changed cylinder 0
change 5 volume 0 destaged cylinder 0
change 6 volume 0 free page 0 frame 0
change 7 volume 0 assign page 1 frame 0
change 8 volume 0 staged cylinder 9
change 9 volume 0 changed cylinder 9
change 10 volume 0 destaged cylinder 9
change 11 volume 0 free page 1 frame 0
change 12 volume 0 assign page 0 frame 0
change 13 volume 0 staged cylinder 0
""",
)

FIRST_TRACK = "volume 0 VOL001\ntrack 0 0\nrecord 0000000001 - 41\n"
SECOND_TRACK = "track 9 0\nrecord 0009000001 - 42\n"
FIRST_LEFT = f"{FIRST_TRACK}END\n"
SECOND_LEFT = f"volume 0 VOL001\n{SECOND_TRACK}END\n"
BOTH_LEFT = f"{FIRST_TRACK}{SECOND_TRACK}END\n"
CUT_BEFORE_THE_SECOND = f"{FIRST_TRACK}STOPPED 1\n"
CUT_BEHIND_BOTH = f"{FIRST_TRACK}{SECOND_TRACK}STOPPED 1\n"

# The first search fails. The second record is written, and the third program finds no first one in two passes.
NO_FIRST_SEARCH = """entry 3 host 1 ccw 31 equipment check fault 1
entry 4 host 1 ccw 07 status 0C
entry 5 host 1 ccw 31 status 4C
entry 6 host 1 ccw 1D status 0C
entry 7 host 1 ccw 07 status 0C
entry 8 host 1 ccw 31 status 0C
entry 9 host 1 ccw 31 status 0C
entry 10 host 1 ccw 31 status 0E
"""

# The frame goes to the second page and back, though nothing was staged in it, so that nothing is destaged first.
SECOND_FROM_AN_UNSTAGED_PAGE = f"""change 3 volume 0 free page 0 frame 0
change 4 volume 0 assign page 1 frame 0
change 5 volume 0 staged cylinder 9
change 6 volume 0 changed cylinder 9
change 7 volume 0 destaged cylinder 9
change 8 volume 0 free page 1 frame 0
change 9 volume 0 assign page 0 frame 0
change 10 volume 0 staged cylinder 0
{SECOND_LEFT}"""

# The same where a blank cylinder was staged.
SECOND_FROM_AN_UNCHANGED_PAGE = f"""change 4 volume 0 free page 0 frame 0
change 5 volume 0 assign page 1 frame 0
change 6 volume 0 staged cylinder 9
change 7 volume 0 changed cylinder 9
change 8 volume 0 destaged cylinder 9
change 9 volume 0 free page 1 frame 0
change 10 volume 0 assign page 0 frame 0
change 11 volume 0 staged cylinder 0
{SECOND_LEFT}"""

# No staging can be synced, so each search fails, and nothing is told as staged.
ALL_SEARCHES = f"""{BOTH_SEARCHES}entry 6 host 1 ccw 07 status 0C
entry 7 host 1 ccw 31 equipment check fault 3
"""
UNSTAGED_PAGES = f"""change 3 volume 0 free page 0 frame 0
change 4 volume 0 assign page 1 frame 0
change 5 volume 0 free page 1 frame 0
change 6 volume 0 assign page 0 frame 0
{BLANK}"""

FIRST_WRITE_STOPPED = "entry 4 host 1 ccw 1D stopped fault 1\n"

# The search on the second page fails. The third program reads the first record.
NO_SECOND_SEARCH = """entry 6 host 1 ccw 31 equipment check fault 1
entry 7 host 1 ccw 07 status 0C
entry 8 host 1 ccw 31 status 0C
entry 9 host 1 ccw 31 status 4C
entry 10 host 1 ccw 06 status 0C data 41
"""

# The frame comes back from the second page, of which nothing was staged.
FIRST_FROM_AN_UNSTAGED_PAGE = f"""change 8 volume 0 free page 1 frame 0
change 9 volume 0 assign page 0 frame 0
change 10 volume 0 staged cylinder 0
{FIRST_LEFT}"""

# The same where a blank cylinder was staged.
FIRST_FROM_AN_UNCHANGED_PAGE = f"""change 9 volume 0 free page 1 frame 0
change 10 volume 0 assign page 0 frame 0
change 11 volume 0 staged cylinder 0
{FIRST_LEFT}"""

# Neither the second page's staging nor the first one's can be synced.
LAST_SEARCHES = """entry 6 host 1 ccw 31 equipment check fault 1
entry 7 host 1 ccw 07 status 0C
entry 8 host 1 ccw 31 equipment check fault 2
"""
FIRST_PAGE_UNSTAGED = f"""change 8 volume 0 free page 1 frame 0
change 9 volume 0 assign page 0 frame 0
{FIRST_LEFT}"""

SECOND_WRITE_STOPPED = "entry 7 host 1 ccw 1D stopped fault 1\n"
NO_LAST_SEARCH = "entry 9 host 1 ccw 31 equipment check fault 1\n"

FIRST_STAGED, SECOND_STAGED = (FRAMES, block_of(0, 0)), (FRAMES, block_of(0, 9))
FIRST_ON_CARTRIDGE, SECOND_ON_CARTRIDGE = ("cartridge_0", 0), ("cartridge_0", 9 * HEADS)

REPLACEMENT_STEPS = [
    # As for one record. No page can be freed where names can't be synced.
    (created(0), REFUSED, BLANK),
    (changed(0), REPLACEMENT.ends(2, "", 1, STOPPED), BLANK),
    ([FILES], REPLACEMENT.ends(2, SEARCH_AND_SEEK, 2, "STOPPED 2\n"), BLANK),
    (writes(*FIRST_STAGED), REPLACEMENT.ends(2, NO_FIRST_SEARCH, 2, SECOND_FROM_AN_UNSTAGED_PAGE), SECOND_LEFT),
    ([synced(FRAMES)], REPLACEMENT.ends(2, ALL_SEARCHES, 2, UNSTAGED_PAGES), BLANK),
    (changed(0), REPLACEMENT.ends(2, "", 2, STOPPED), BLANK),
    ([(READ, *FIRST_STAGED)], REPLACEMENT.ends(2, NO_FIRST_SEARCH, 3, SECOND_FROM_AN_UNCHANGED_PAGE), SECOND_LEFT),
    (changed(0), REPLACEMENT.ends(3, FIRST_WRITE_STOPPED, 3, STOPPED), BLANK),
    (appended(FIRST_STAGED[1])[:3], REPLACEMENT.ends(3, FIRST_WRITE_STOPPED, 4, STOPPED), BLANK),
    (appended(FIRST_STAGED[1])[3:], REPLACEMENT.ends(3, FIRST_WRITE_STOPPED, 4, STOPPED), FIRST_LEFT),
    # The changed cylinder is copied to its cartridge, whose file is made, and stays changed where a call of that
    # fails. Four changes of the row follow, with the writes of 19 blank tracks and their sync before the last.
    (
        [FILES, *copied(FIRST_STAGED, FIRST_ON_CARTRIDGE, kept=0), synced("cartridge_0")],
        REPLACEMENT.ends(5, NO_SECOND_SEARCH, 4, FIRST_LEFT),
        FIRST_LEFT,
    ),
    (changed(0), REPLACEMENT.ends(5, "", 4, STOPPED), FIRST_LEFT),
    (changed(0), REPLACEMENT.ends(5, "", 5, STOPPED), FIRST_LEFT),
    (changed(0), REPLACEMENT.ends(5, "", 6, STOPPED), FIRST_LEFT),
    (writes(*SECOND_STAGED), REPLACEMENT.ends(5, NO_SECOND_SEARCH, 7, FIRST_FROM_AN_UNSTAGED_PAGE), FIRST_LEFT),
    ([synced(FRAMES)], REPLACEMENT.ends(5, LAST_SEARCHES, 7, FIRST_PAGE_UNSTAGED), FIRST_LEFT),
    (changed(0), REPLACEMENT.ends(5, "", 7, STOPPED), FIRST_LEFT),
    # A read for the search; the changed cylinder is told; and two writes with a sync each, for the record.
    (
        [(READ, *SECOND_STAGED)],
        REPLACEMENT.ends(5, NO_SECOND_SEARCH, 8, FIRST_FROM_AN_UNCHANGED_PAGE),
        FIRST_LEFT,
    ),
    (changed(0), REPLACEMENT.ends(6, SECOND_WRITE_STOPPED, 8, STOPPED), FIRST_LEFT),
    (appended(SECOND_STAGED[1])[:3], REPLACEMENT.ends(6, SECOND_WRITE_STOPPED, 9, STOPPED), FIRST_LEFT),
    (appended(SECOND_STAGED[1])[3:], REPLACEMENT.ends(6, SECOND_WRITE_STOPPED, 9, STOPPED), BOTH_LEFT),
    # The second record is copied to its cartridge, and the first comes back from there.
    (
        [*copied(SECOND_STAGED, SECOND_ON_CARTRIDGE, kept=0), synced("cartridge_0")],
        REPLACEMENT.ends(8, NO_LAST_SEARCH, 9, BOTH_LEFT),
        BOTH_LEFT,
    ),
    (changed(0), REPLACEMENT.ends(8, "", 9, STOPPED), BOTH_LEFT),
    (changed(0), REPLACEMENT.ends(8, "", 10, STOPPED), BOTH_LEFT),
    (changed(0), REPLACEMENT.ends(8, "", 11, STOPPED), BOTH_LEFT),
    (
        [*copied(FIRST_ON_CARTRIDGE, FIRST_STAGED), synced(FRAMES)],
        REPLACEMENT.ends(8, NO_LAST_SEARCH, 12, BOTH_LEFT),
        BOTH_LEFT,
    ),
    (changed(0), REPLACEMENT.ends(8, "", 12, STOPPED), BOTH_LEFT),
    # The front of its track was kept, and isn't any more behind a write of the whole block.
    ([(READ, *FIRST_STAGED)], REPLACEMENT.ends(8, NO_LAST_SEARCH, 13, BOTH_LEFT), BOTH_LEFT),
    # Both cylinders are on their cartridge, where the report reads them.
    (reads(*FIRST_ON_CARTRIDGE)[:1], REPLACEMENT.ends(11, "", 13, CUT_BEFORE_THE_TRACK), BOTH_LEFT),
    (
        [*reads(*FIRST_ON_CARTRIDGE)[1:], *reads(*SECOND_ON_CARTRIDGE)[:1]],
        REPLACEMENT.ends(11, "", 13, CUT_BEFORE_THE_SECOND),
        BOTH_LEFT,
    ),
    (reads(*SECOND_ON_CARTRIDGE)[1:], REPLACEMENT.ends(11, "", 13, CUT_BEHIND_BOTH), BOTH_LEFT),
]


@tests_of([("a write and a read", FIRST, FIRST_STEPS), ("replacements", REPLACEMENT, REPLACEMENT_STEPS)])
@unittest.skipUnless(may_trace(), "this machine has no strace, or may not trace")
class FailedCalls(FaultTest):
    """Each of the calls fails once, in a run of its own."""

    def check(self, job, steps):
        made, calls = traced(job.text, self.folder)
        self.assertEqual(made, [call for calls, *_ in steps for call in calls])
        due = [(report, left) for calls, report, left in steps for _ in calls]
        for call, (report, left), told in zip(calls, due, each_failed(job.text, calls), strict=True):
            self.assert_ends(report, left, told, f"where {call} fails")


# A job on the site of the first one reads copy A of 32 rows, and copy B where A is closed, as that of all but the first
# row. It reads the tracks of the cylinder that isn't blank, and for repairs both copies of each row, none of which is of
# version 1. A copy of the first row takes two reads, since its file ends in it. Then the report reads the tracks.
SURVEY = 2 + 31 * len(COPIES)
REPAIRS = (2 + 31) * len(COPIES)
READS_OF_START = SURVEY + HEADS + REPAIRS
LATER_READS = [
    *(READS_OF_START * [REFUSED]),
    *(4 * [TITLE + CUT_BEFORE_THE_TRACK]),
    *((HEADS - 4) * [TITLE + CUT_BEHIND_THE_TRACK]),
]


# The record is looked for on that site, in vain, and the report can't read the first track.
NEITHER_READ = """MSS REPORT 1
entry 1 host 1 mount 0 mounted
entry 2 host 1 ccw 07 status 0C
entry 3 host 1 ccw 31 equipment check fault 1
volume 0 VOL001
STOPPED 2
"""

# Jobs, some behind another, in which two calls fail, by their numbers. The searches of both programs read the track in
# vain. The last blank track isn't written, and behind the 19 of the second staging the row isn't.
CREATED, CHANGED = 6, 4  # writes
LAST_TRACK = CREATED + CHANGED + HEADS
PAIRS = [
    ("both searches", None, FIRST.text, READ, (1, 2), FIRST.ends(2, BOTH_SEARCHES, 2, STAGED_AND_BLANK), BLANK),
    (
        "a track and a row",
        None,
        FIRST.text,
        WRITE,
        (LAST_TRACK, LAST_TRACK + HEADS + 1),
        FIRST.ends(2, SEARCH_AND_SEEK, 2, "STOPPED 2\n"),
        BLANK,
    ),
    (
        "a search and the report",
        FIRST.text,
        one_host_job(READ_RECORD),
        READ,
        (READS_OF_START + 1, READS_OF_START + 2),
        NEITHER_READ,
        RECORD,
    ),
]


@tests_of(PAIRS)
@unittest.skipUnless(may_trace(), "this machine has no strace, or may not trace")
class TwoFailedCalls(FaultTest):
    """Two failed calls have two numbers."""

    def check(self, before, text, name, pair, report, left):
        """No call of the name comes so far behind the second that it would fail too."""
        if before:
            run([PROGRAM, "serial"], self.folder, before)
        _, calls = traced(text, self.folder)
        loaders = next(number for each, number in calls if each == name) - 1
        when = f"{pair[0] + loaders}+{pair[1] - pair[0]}"
        self.assert_ends(report, left, failed(text, [(name, when)], before=before), "")


@unittest.skipUnless(may_trace(), "this machine has no strace, or may not trace")
class FailedReads(FaultTest):
    """Reads of a job on a site that is there."""

    def test_each_read_of_a_start(self):
        """Where it fails, the site isn't taken up, and stays as it is."""
        run([PROGRAM, "serial"], self.folder, FIRST.text)
        before = self.files()
        _, numbers = traced(IDLE, self.folder)
        self.assertNotIn(WRITE, {name for name, _ in numbers})
        calls = [call for call in numbers if call[0] == READ]
        self.assertEqual(len(calls), len(LATER_READS))
        for call, due in zip(calls, LATER_READS, strict=True):
            told = told_by(injected(IDLE, [call], self.folder))
            self.assert_told(f"{due}status {status_of(due)}", told, f"where {call} fails")
            self.assertNotIn(WRITE, Path(self.folder, "calls").read_text(), f"where {call} fails")
        self.assertEqual(self.files(), before)

    def files(self):
        return {file.name: file.read_bytes() for file in self.site.iterdir()}


# A record on cylinder 0; then the one frame goes to another page.
TO_THE_CARTRIDGE = f"""{HEAD}host 1
mount VOL001
program
ccw 31 0000000000
tic 0
ccw 1D 000000000100000141
end
program
ccw 07 000000080000
ccw 31 0008000000
end
done
"""

# A search on cylinder 0, sense, and the same search again.
SEARCH_TWICE = f"""{HEAD}host 1
mount VOL001
program
ccw 31 0000000000
end
program
ccw 04
end
program
ccw 31 0000000000
end
done
"""

# The frame was given to the page before the cartridge was read in vain.
SEARCH_TWICE_TOLD = f"""MSS REPORT 1
entry 1 host 1 mount 0 mounted
entry 2 host 1 ccw 31 equipment check fault 1
entry 3 host 1 ccw 04 status 0C data 10{SENSE}
entry 4 host 1 ccw 31 status 4C
change 1 volume 0 free page 1 frame 0
change 2 volume 0 assign page 0 frame 0
change 3 volume 0 staged cylinder 0
{FIRST_LEFT}"""


@unittest.skipUnless(may_trace(), "this machine has no strace, or may not trace")
class FailedCartridge(FaultTest):
    """A cartridge that can't be read once."""

    def test_each_read_and_write_of_a_staging(self):
        """It is told once, with its sense, and the next search has the cylinder staged anew."""
        run([PROGRAM, "serial"], self.folder, TO_THE_CARTRIDGE)
        made, numbers = traced(SEARCH_TWICE, self.folder)
        copies = copied(FIRST_ON_CARTRIDGE, FIRST_STAGED)
        # Behind the changes of the row, which are the first writes.
        start = made.index(copies[0], made.index((WRITE, "table_a", 0)))
        self.assertEqual(made[start : start + len(copies)], copies)
        calls = numbers[start : start + len(copies)]
        for call, told in zip(calls, each_failed(SEARCH_TWICE, calls, before=TO_THE_CARTRIDGE), strict=True):
            self.assert_ends(SEARCH_TWICE_TOLD, FIRST_LEFT, told, f"where {call} fails")


# Three hosts on volumes of their own take turns, with two recorders, and the first goes on to a fourth volume.

IDLE_HOSTS = """mss 1 frames 8 recorders 2
volume 0 VOL001
volume 1 VOL002
volume 2 VOL003
volume 3 VOL004
done
"""


def on_one_head(text):
    """The same job with each track on head 1, and that of the third host on cylinder 2. It then stands 17 cylinders
    behind that of the first host, so that of these two only the one is kept that was looked at last."""
    return text.replace("00020002", "00020001").replace("00030003", "00020001").replace("cylinder 3", "cylinder 2")


HOSTS_TOLD = (CASES / "three_hosts.report").read_text().splitlines(True)
HOSTS = Job(
    on_one_head((CASES / "three_hosts.job").read_text()),
    "".join(line for line in HOSTS_TOLD if line.startswith("entry ")),
    on_one_head("".join(line for line in HOSTS_TOLD if line.startswith("change "))),
)
VOLUMES = [
    ("volume 0 VOL001\n", "track 1 1\nrecord 0001000101 - 484F535431\n"),
    ("volume 1 VOL002\n", "track 2 1\nrecord 0002000101 - 484F535432\n"),
    ("volume 2 VOL003\n", "track 2 1\nrecord 0002000101 - 484F535433\n"),
    ("volume 3 VOL004\n", "track 1 1\nrecord 0001000101 - 484F535431\n"),
]


def shown(*written):
    """The volumes at the end, of which these have their record."""
    told = [name + (record if number in written else "") for number, (name, record) in enumerate(VOLUMES)]
    return "".join([*told, "END\n"])


def cut(volume, *record):
    """The volumes of a report that ends within one, behind its record or before it."""
    told = [name + record for name, record in VOLUMES[:volume]]
    return "".join([*told, VOLUMES[volume][0], *record, STOPPED])


SOUGHT = ["ccw 1F status 0C", "ccw 07 status 0C", "ccw 23 status 0C"]
WRITTEN = ["ccw 31 status 4C", "ccw 1D status 0C"]
NO_SEARCH = ["ccw 31 equipment check fault 1"]
NOT_FOUND = ["ccw 31 status 0C", "ccw 31 status 0C", "ccw 31 status 0E"]


def answers(host, written, found, last):
    """What a host is told whose two programs end so, and the first one's last program."""
    read = ["ccw 31 status 0C", "ccw 31 status 4C", f"ccw 06 status 0C data 484F53543{host}"]
    moved = ["demount demounted", "mount 3 mounted", *SOUGHT, *last] if host == 1 else []
    told = [f"mount {host - 1} mounted", *SOUGHT, *written, *SOUGHT, *(found or read), *moved]
    return [f"host {host} {text}" for text in told]


def beside(failing, written=WRITTEN, found=None, last=WRITTEN):
    """What hosts are told of which one has its programs end so, and the volumes that are left."""
    is_left = [written == WRITTEN or failing != host for host in (1, 2, 3)] + [last == WRITTEN]
    left = shown(*(number for number, is_there in enumerate(is_left) if is_there))
    ends = {host: (WRITTEN, None, WRITTEN) for host in (1, 2, 3)} | {failing: (written, found, last)}
    told = [line for host, end in ends.items() for line in answers(host, *end)]
    return "\n".join([*told, f"{TITLE}{left}status 0"]), left


# No names can be synced: a copy of each of the first two fails, and the row of the third isn't written.
NO_NAMES = HOSTS.ends(12, "", 6, "STOPPED 3\n")

# No staging can be synced: none of the hosts gets anything.
NO_STAGING = HOSTS.ends(
    12,
    """entry 13 host 1 ccw 31 equipment check fault 1
entry 14 host 2 ccw 31 equipment check fault 2
entry 15 host 3 ccw 31 equipment check fault 3
entry 16 host 1 ccw 1F status 0C
entry 17 host 2 ccw 1F status 0C
entry 18 host 3 ccw 1F status 0C
entry 19 host 1 ccw 07 status 0C
entry 20 host 2 ccw 07 status 0C
entry 21 host 3 ccw 07 status 0C
entry 22 host 1 ccw 23 status 0C
entry 23 host 2 ccw 23 status 0C
entry 24 host 3 ccw 23 status 0C
entry 25 host 1 ccw 31 equipment check fault 4
entry 26 host 2 ccw 31 equipment check fault 5
entry 27 host 3 ccw 31 equipment check fault 6
entry 28 host 1 demount demounted
entry 29 host 1 mount 3 mounted
entry 30 host 1 ccw 1F status 0C
entry 31 host 1 ccw 07 status 0C
entry 32 host 1 ccw 23 status 0C
entry 33 host 1 ccw 31 equipment check fault 7
""",
    6,
    f"""change 7 volume 2 assign page 0 frame 2
change 8 volume 3 assign page 0 frame 3
{shown()}""",
)

# The second host's staging can't be synced, nor the third one's, nor the first one's record.
NO_SECOND_STAGING = HOSTS.ends(
    12,
    """entry 13 host 1 ccw 31 status 4C
entry 14 host 2 ccw 31 equipment check fault 1
entry 15 host 3 ccw 31 equipment check fault 2
entry 16 host 2 ccw 1F status 0C
entry 17 host 3 ccw 1F status 0C
entry 18 host 1 ccw 1D stopped fault 3
""",
    7,
    """change 8 volume 2 assign page 0 frame 2
change 9 volume 0 changed cylinder 1
STOPPED 3
""",
)

# The third host's staging can't be synced, nor the first one's record.
NO_THIRD_STAGING = HOSTS.ends(
    14,
    """entry 15 host 3 ccw 31 equipment check fault 1
entry 16 host 3 ccw 1F status 0C
entry 17 host 1 ccw 1D stopped fault 2
""",
    9,
    """change 10 volume 0 changed cylinder 1
change 11 volume 1 changed cylinder 2
STOPPED 2
""",
)

FIRST_FRAME, SECOND_FRAME, THIRD_FRAME = block_of(0, 1), block_of(1, 2), block_of(2, 2)
FOURTH_FRAME = block_of(3, 1)
TRACKS = [(READ, FRAMES, first + 1) for first in (FIRST_FRAME, SECOND_FRAME, THIRD_FRAME)]


def stops(entries, changes, written=(), then=""):
    """The report of a stop behind so many entries and changes, and the volumes that it leaves."""
    return HOSTS.ends(entries, then, changes, STOPPED), shown(*written)


def stops_in_write(entries, host, changes, written=()):
    return stops(entries, changes, written, f"entry {entries + 1} host {host} ccw 1D stopped fault 1\n")


def stopped_writes(entries, host, changes, written, block):
    """A record's writes and syncs. Behind the last sync, also where that fails, the record is there."""
    calls, last = appended(block), 3 if entries == 42 else host - 1
    return [
        (calls[:3], *stops_in_write(entries, host, changes, written)),
        (calls[3:], *stops_in_write(entries, host, changes, (*written, last))),
    ]


def cut_reads(volume, first, kept=None):
    """The reads of a cylinder for the report, which ends before the track that can't be read: up to head 1 before the
    record."""
    calls, record = reads(FRAMES, first, kept), VOLUMES[volume][1]
    before = [call for call in calls if call[2] <= first + 1]
    told = [HOSTS.ends(43, "", 16, end) for end in (cut(volume), cut(volume, record))]
    return [(before, told[0], shown(0, 1, 2, 3)), (calls[len(before) :], told[1], shown(0, 1, 2, 3))]


# Four rows are created. Two recorders assign and stage side by side, and then one of them does for the third host. In
# one round each host has its changed cylinder told, and in the next each writes its record. Each track is then looked
# at three times, in turns. The tracks of the first host and the third one have one number by 323. They are kept side by
# side all the same, since of the third one alone, which was staged last, it is known that it is short: the one is kept
# whole, and of the other the front. The first host does all that once more, alone.
HOST_STEPS = [
    *((created(volume), REFUSED, shown()) for volume in range(4)),
    (changed(0), *stops(12, 4)),
    (changed(1), *stops(12, 5)),
    ([FILES], NO_NAMES, shown()),
    *(
        ([(WRITE, FRAMES, first + head)], *beside(host, NO_SEARCH, NOT_FOUND))
        for head in range(HEADS)
        for host, first in ((1, FIRST_FRAME), (2, SECOND_FRAME))
    ),
    ([synced(FRAMES)], NO_STAGING, shown()),
    (changed(0), *stops(12, 6)),
    ([synced(FRAMES)], NO_SECOND_STAGING, shown()),
    (changed(1), *stops(12, 7)),
    (changed(2), *stops(12, 8)),
    (writes(FRAMES, THIRD_FRAME), *beside(3, NO_SEARCH, NOT_FOUND)),
    ([synced(FRAMES)], NO_THIRD_STAGING, shown()),
    (changed(2), *stops(12, 9)),
    *(([track], *beside(host, NO_SEARCH, NOT_FOUND)) for host, track in enumerate(TRACKS, 1)),
    *((changed(host - 1), *stops_in_write(15, host, 9 + host)) for host in (1, 2, 3)),
    *stopped_writes(15, 1, 13, (), FIRST_FRAME + 1),
    *stopped_writes(16, 2, 13, (0,), SECOND_FRAME + 1),
    *stopped_writes(17, 3, 13, (0, 1), THIRD_FRAME + 1),
    (changed(3), *stops(41, 13, (0, 1, 2))),
    ([*writes(FRAMES, FOURTH_FRAME), synced(FRAMES)], *beside(1, last=NO_SEARCH)),
    (changed(3), *stops(41, 14, (0, 1, 2))),
    ([(READ, FRAMES, FOURTH_FRAME + 1)], *beside(1, last=NO_SEARCH)),
    (changed(3), *stops_in_write(42, 1, 15, (0, 1, 2))),
    *stopped_writes(42, 1, 16, (0, 1, 2), FOURTH_FRAME + 1),
    *cut_reads(0, FIRST_FRAME, kept=1),
    *cut_reads(1, SECOND_FRAME, kept=1),
    *cut_reads(2, THIRD_FRAME, kept=1),
    *cut_reads(3, FOURTH_FRAME, kept=1),
]


@unittest.skipUnless(may_trace(), "this machine has no strace, or may not trace")
class FailedHosts(FaultTest):
    """Each of the calls of three hosts fails once, in a run of its own."""

    def test_each_call(self):
        """Where the run goes on, one program in all has an entry of the failed call; the others are as without it."""
        made, calls = traced(HOSTS.text, self.folder)
        self.assertEqual(made, [call for calls, *_ in HOST_STEPS for call in calls])
        due = [(report, left) for calls, report, left in HOST_STEPS for _ in calls]
        runs = each_failed(HOSTS.text, calls, after=IDLE_HOSTS)
        for call, (report, left), told in zip(calls, due, runs, strict=True):
            if report.startswith("host "):
                self.assert_told(report, host_lines(told[0]), f"where {call} fails")
                self.assertTrue(told[1].endswith(f"{left}status 0"), f"where {call} fails, it leaves {told[1]}")
            else:
                self.assert_ends(report, left, told, f"where {call} fails")


if __name__ == "__main__":
    unittest.main()
