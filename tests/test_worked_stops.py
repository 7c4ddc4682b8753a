"""What a stop at each moment of a run leaves, and what the next job tells of it, as a person worked it out.

A moment stands behind so many writes and syncs of a run, by the log of its calls that strace tells. A write is loose
until its file is synced. At a moment the loose writes are there, or lost, or something else; and so is the write that
comes next. The files that such a stop leaves are made anew, and a job runs on them. The names of files are firm here;
`test_power_cuts` loses them too.
"""

import os
import shutil
import unittest
from concurrent.futures import ThreadPoolExecutor
from dataclasses import dataclass
from pathlib import Path

from fixtures import CASES, EXAMPLES, PROGRAM, SiteTest, new_folder, one_host_job, run, tests_of, told_by
from test_power_cuts import SITE, parted, traced
from test_stops import may_trace

AT_ONCE = os.cpu_count() or 1
TITLE = "MSS REPORT 1\n"
HEAD = "mss 1 frames 1 recorders 1\nvolume 0 VOL001\n"
ONE_VOLUME = f"{HEAD}done\n"

# How many writes and syncs a session's steps make. A row is created: each copy is marked, and then each is filled and
# opened. A row is changed: each copy gets a slot, by its body and then by its gate. Each of these writes is synced.
CREATE, CHANGE = 12, 8
# The tracks of a cylinder are written where they are copied to, and that is synced.
TRACKS = 19
COPY = TRACKS + 1
# A frame is assigned, a blank cylinder is staged in it, and both are told in the row.
STAGE = CHANGE + COPY + CHANGE
# A record is formatted behind the last one of its track: it is written and synced, and so is its gate. Where others
# stand behind it, its gate is closed and synced before, and theirs are closed.
APPEND, FORMAT = 4, 7
# A record is updated: its bytes are written and synced.
UPDATE = 2

# The moments behind the steps of a session on one volume. A record is there once its gate was opened, before the
# sync.
CREATED = CREATE
STAGED = CREATED + STAGE
CHANGED = STAGED + CHANGE
APPENDED = CHANGED + APPEND
SHOWN = APPENDED - 1


@dataclass(frozen=True)
class Tear:
    """What a stop makes of the loose writes, and of the next one."""

    name: str
    loose: object
    coming: object


def of_bytes(spelled):
    """The loose writes are there. The next one has these bytes, cut or padded with zeros."""
    data = bytes.fromhex(spelled)
    return Tear(f"{spelled} in the next", lambda old: old, lambda old: data[: len(old)].ljust(len(old), b"\0"))


def filled(byte):
    """They all have this byte everywhere."""
    return Tear(f"{byte:02X} everywhere", lambda old: len(old) * bytes([byte]), lambda old: len(old) * bytes([byte]))


WHOLE = Tear("whole", lambda old: old, lambda _: None)
LOST = Tear("lost", lambda _: None, lambda _: None)
FILLED = [filled(0), filled(0xFF)]


@dataclass(frozen=True)
class Stops:
    """How the report of a job begins and ends on what a stop leaves, at each moment from the first to the last."""

    first: int
    last: int
    ends: str
    begins: str = TITLE
    job: str = ONE_VOLUME


def left_by(items, moment, tear):
    """The writes that a stop leaves, each with its file and place."""
    firm = {id(call) for call in parted(items[:moment])[0]}
    done = [(call, call.data if id(call) in firm else tear.loose(call.data)) for call in items[:moment]]
    done += [(call, tear.coming(call.data)) for call in items[moment : moment + 1]]
    return [(call, data) for call, data in done if call.kind == "write" and data is not None]


def lay(folder, before, writes):
    """Makes the files that were there before, with these writes in them."""
    site = Path(folder, SITE)
    shutil.copytree(before, site) if before.exists() else site.mkdir()
    for call, data in writes:
        file = os.open(site / call.name, os.O_WRONLY | os.O_CREAT, 0o644)
        os.pwrite(file, data, call.at)
        os.close(file)


def told_after(before, items, moment, tear, job):
    """What a job tells on what a stop left."""
    with new_folder() as folder:
        lay(folder, before, left_by(items, moment, tear))
        return told_by(run([PROGRAM, "serial"], folder, job))


def items_of(calls):
    """The writes and syncs of a run's files, from its first write on."""
    items = [call for call in calls if call.kind != "make" and "_" in call.name]
    first = next(number for number, call in enumerate(items) if call.kind == "write")
    return items[first:]


def tries(tears, later, table, count, apart):
    """Each moment of the rows, those that are so far apart and the last, with each tear. What a table says is there
    so many items later; behind the last item there is no moment."""
    for stops in table:
        for moment in range(stops.first, stops.last + 1):
            if (moment % apart == 0 or moment == stops.last) and moment + later <= count:
                yield from ((moment + later, tear, stops) for tear in tears)


def volume(*tracks):
    return "\n".join(["", "volume 0 VOL001", *tracks, "END", ""])


ROW_IS_THERE = f"{TITLE}volume 0 VOL001\n"
WRITE_AND_READ = (EXAMPLES / "first.job").read_text()

# The record is found again, and its data are replaced.
UPDATING = f"""{HEAD}host 1
mount VOL001
program
ccw 07 000000050003
ccw 31 0005000301
tic 1
ccw 05 58595A
end
done
"""


def updated(first, last, data):
    return [Stops(first, last, volume("track 5 3", f"record 0005000301 - {data}"), ROW_IS_THERE)]


# Between the update and its sync its bytes may be any, or those of before.
UPDATES = [
    ([of_bytes("FF00FF")], 0, updated(0, 0, "FF00FF")),
    ([WHOLE], 0, updated(1, UPDATE, "58595A")),
    ([filled(0)], 0, updated(1, 1, "000000")),
    ([LOST], 0, updated(0, 1, "414243")),
    ([*FILLED, LOST], 1, updated(1, UPDATE, "58595A")),
]

# The cylinder is told as changed: one copy of the row gets a slot, and then the other. The record is written behind
# them.
ROW_CHANGE = [Stops(STAGED, CHANGED - 1, volume(), ROW_IS_THERE)]
ROW_CHANGES = [
    ([of_bytes("C1"), of_bytes("00"), WHOLE], 0, ROW_CHANGE),
    ([*FILLED, LOST], 1, ROW_CHANGE),
]

# Three records on a track; then a new second one is written behind the first.
THREE_RECORDS = f"""{HEAD}host 1
mount VOL001
program
ccw 31 0000000000
tic 0
ccw 1D 000000000100000141
ccw 1D 000000000200000142
ccw 1D 000000000300000143
end
program
ccw 31 0000000001
tic 0
ccw 1D 000000000200000158
end
done
"""
THREE_APPENDED = CHANGED + 3 * APPEND


def track(*records):
    return volume("track 0 0", *(f"record 000000000{record}" for record in records))


OLD_TRACK, NEW_TRACK = track("1 - 41", "2 - 42", "3 - 43"), track("1 - 41", "2 - 58")

# Behind the three records the gate of the second is closed and synced; that of the third is closed, the new record is
# put, and both are synced; its gate is opened and synced.
FORMATTED = [
    Stops(THREE_APPENDED, THREE_APPENDED, OLD_TRACK, ROW_IS_THERE),
    Stops(THREE_APPENDED + 1, THREE_APPENDED + 5, track("1 - 41"), ROW_IS_THERE),
    Stops(THREE_APPENDED + 6, THREE_APPENDED + FORMAT, NEW_TRACK, ROW_IS_THERE),
]

# A gate of such a byte is no open one. So the track ends behind the first record until the last sync.
FORMAT_FILLED = [
    Stops(THREE_APPENDED, THREE_APPENDED + FORMAT - 1, track("1 - 41"), ROW_IS_THERE),
    Stops(THREE_APPENDED + FORMAT, THREE_APPENDED + FORMAT, NEW_TRACK, ROW_IS_THERE),
]
FORMATS = [([WHOLE], 0, FORMATTED), ([LOST], 1, FORMATTED), (FILLED, 0, FORMAT_FILLED)]

# One frame for two pages: a record on cylinder 0, one on cylinder 8, and the first is read back.
REPLACEMENT = (CASES / "replacement.job").read_text()

# The first record is read.
FIRST_READ = one_host_job("ccw 07 000000000000\nccw 31 0000000001\ntic 1\nccw 06\n")
FIRST_IS_READ = """MSS REPORT 1
entry 1 host 1 mount 0 mounted
entry 2 host 1 ccw 07 status 0C
entry 3 host 1 ccw 31 status 0C
entry 4 host 1 ccw 31 status 4C
entry 5 host 1 ccw 06 status 0C data 41
"""

# A cylinder is destaged, its page freed, and another one staged in the frame.
REPLACE = COPY + 2 * CHANGE + STAGE
REPLACED_ONCE = APPENDED + REPLACE
APPENDED_AGAIN = REPLACED_ONCE + CHANGE + APPEND
SHOWN_AGAIN = APPENDED_AGAIN - 1
RETURNED = APPENDED_AGAIN + REPLACE

# The cylinder is written, destaged, and its page gives the frame to the other one, which is staged, changed and
# written; and the frame goes back.
BOTH_LEFT = volume("track 0 0", "record 0000000001 - 41", "track 8 0", "record 0008000001 - 42")
REPLACED = [
    Stops(0, SHOWN - 1, volume()),
    Stops(SHOWN, SHOWN_AGAIN - 1, track("1 - 41"), FIRST_IS_READ, FIRST_READ),
    Stops(SHOWN_AGAIN, RETURNED, BOTH_LEFT, FIRST_IS_READ, FIRST_READ),
]

# Destaged, freed, assigned and staged: 19 tracks twice, each time with a sync behind them, and four changes of a row.
FIRST_REPLACED = [Stops(APPENDED, REPLACED_ONCE, track("1 - 41"), FIRST_IS_READ, FIRST_READ)]
REPLACEMENTS = [
    ([WHOLE], 0, REPLACED),
    ([*FILLED, LOST], 1, REPLACED),
    ([of_bytes("00"), of_bytes("C1"), of_bytes("FF00FF")], 0, FIRST_REPLACED),
]

# Each host writes a record on its own volume and reads it back; the first then writes it on the fourth volume.
THREE_HOSTS = (CASES / "three_hosts.job").read_text()
FOUR_VOLUMES = """mss 1 frames 8 recorders 2
volume 0 VOL001
volume 1 VOL002
volume 2 VOL003
volume 3 VOL004
done
"""
HOST_RECORDS = [
    "track 1 1\nrecord 0001000101 - 484F535431\n",
    "track 2 2\nrecord 0002000201 - 484F535432\n",
    "track 3 3\nrecord 0003000301 - 484F535433\n",
    "track 1 1\nrecord 0001000101 - 484F535431\n",
]


def volumes(written):
    """Four volumes, of which the first so many have their record."""
    told = [f"volume {n} VOL00{n + 1}\n{record if n < written else ''}" for n, record in enumerate(HOST_RECORDS)]
    return "".join(["\n", *told, "END\n"])


FOUR_CREATED = 4 * CREATE
THREE_STAGED = FOUR_CREATED + 3 * STAGE
THREE_CHANGED = THREE_STAGED + 3 * CHANGE
FIRST_WRITES = THREE_CHANGED + APPEND
SECOND_WRITES = FIRST_WRITES + APPEND
THIRD_WRITES = SECOND_WRITES + APPEND
ALL_WRITTEN = THIRD_WRITES + STAGE + CHANGE + APPEND

# Four rows are created. For each of three hosts a cylinder is staged, then told as changed, and then each writes its
# record, which is there before its last sync. The first does all that once more.
HOSTS_SHOWN = [
    Stops(0, FIRST_WRITES - 2, volumes(0), job=FOUR_VOLUMES),
    Stops(FIRST_WRITES - 1, SECOND_WRITES - 2, volumes(1), job=FOUR_VOLUMES),
    Stops(SECOND_WRITES - 1, THIRD_WRITES - 2, volumes(2), job=FOUR_VOLUMES),
    Stops(THIRD_WRITES - 1, ALL_WRITTEN - 2, volumes(3), job=FOUR_VOLUMES),
    Stops(ALL_WRITTEN - 1, ALL_WRITTEN, volumes(4), job=FOUR_VOLUMES),
]
HOSTS_STOPPED = [([WHOLE], 0, HOSTS_SHOWN), ([*FILLED, LOST], 1, HOSTS_SHOWN)]

# Each a job before, the job that is stopped, its writes and syncs, and tears with what they leave.
STOPPED = [
    ("an update", WRITE_AND_READ, UPDATING, UPDATE, UPDATES, 1),
    ("a change of a row", None, WRITE_AND_READ, APPENDED, ROW_CHANGES, 1),
    ("a format", None, THREE_RECORDS, THREE_APPENDED + FORMAT, FORMATS, 1),
    ("replacements", None, REPLACEMENT, RETURNED, REPLACEMENTS, 1),
    ("three hosts", None, THREE_HOSTS, ALL_WRITTEN, HOSTS_STOPPED, 17),
]


@tests_of(STOPPED)
@unittest.skipUnless(may_trace(), "this machine has no strace, or may not trace")
class WorkedStops(SiteTest):
    """What the next job tells behind a stop."""

    def check(self, earlier, text, count, tables, apart):
        before = Path(self.folder, "before")
        if earlier:
            run([PROGRAM, "serial"], self.folder, earlier)
            shutil.copytree(self.site, before)
        ran, calls = traced(text, self.folder)
        self.assertEqual(ran.returncode, 0)
        items = items_of(calls)
        self.assertEqual(len(items), count, "writes and syncs")
        tried = [each for tears, later, table in tables for each in tries(tears, later, table, count, apart)]
        with ThreadPoolExecutor(AT_ONCE) as pool:
            told = pool.map(lambda each: told_after(before, items, *each[:2], each[2].job), tried)
            for (moment, tear, stops), report in zip(tried, told, strict=True):
                is_right = report.startswith(stops.begins) and report.endswith(f"{stops.ends}status 0")
                self.assertTrue(is_right, f"behind {moment} items, {tear.name}, the next job tells {report}")


if __name__ == "__main__":
    unittest.main()
