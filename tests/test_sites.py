"""The program on sites in files: a job, a second one that reads what the first wrote, the listing; rows of version 1;
folders and files that can't be used; files that can't grow; closed descriptors; two runs at once; and runs that are
killed."""

import fcntl
import os
import resource
import shutil
import signal
import unittest

from fixtures import CASES, EXAMPLES, PROGRAM, READ_RECORD, SiteTest, one_host_job, remove_site, run, tests_of, told_by
from killed_runs import faults_of_kills
from test_slots import ASSIGNED, CHANGED, STAGED, slots_of
from test_spoiled_sites import spelled_row
from test_stops import may_trace

BLOCK = 16_384
FIRST = (EXAMPLES / "first.job").read_bytes()
REPORT = (EXAMPLES / "first.report").read_text()
LISTING = "MSS VOLUMES 1\n"
RECORD = "volume 0 VOL001\ntrack 5 3\nrecord 0005000301 - 414243\nEND\nstatus 0"
MARKED = "volume 0 VOL001 readonly\ntrack 5 3\nrecord 0005000301 - 414243\nEND\nstatus 0"
UPDATE = "ccw 07 000000050003\nccw 31 0005000301\ntic 1\n"
READ_BACK = one_host_job(READ_RECORD)
READ = """MSS REPORT 1
entry 1 host 1 mount 0 mounted
entry 2 host 1 ccw 07 status 0C
entry 3 host 1 ccw 31 status 0C
entry 4 host 1 ccw 31 status 4C
entry 5 host 1 ccw 06 status 0C data 414243
"""
WRITE_ON_READ_ONLY = one_host_job(f"{UPDATE}ccw 05 41\n", "ccw 04\n", mark=" readonly")
PROTECTED = f"""MSS REPORT 1
entry 1 host 1 mount 0 mounted
entry 2 host 1 ccw 07 status 0C
entry 3 host 1 ccw 31 status 0C
entry 4 host 1 ccw 31 status 4C
entry 5 host 1 ccw 05 status 0E
entry 6 host 1 ccw 04 status 0C data 0004{22 * "00"}
"""
TO_MARK = """mss 1 frames 1 recorders 1
volume 0 VOL001 readonly
volume 1 VOL002
volume 2 VOL003 readonly
done
"""
NEW_AND_MARKED = """MSS REPORT 1
change 1 volume 0 create VOL001 0 1
change 2 volume 1 create VOL002 2 3
change 3 volume 2 create VOL003 4 5
change 4 volume 0 protect on
change 5 volume 2 protect on
volume 0 VOL001 readonly
volume 1 VOL002
volume 2 VOL003 readonly
END
status 0"""
LAST_ALONE = "mss 1 frames 1 recorders 1\nvolume 2 VOL003\ndone\n"
LAST_UNMARKED = "MSS REPORT 1\nchange 1 volume 2 protect off\nvolume 2 VOL003\nEND\nstatus 0"
COPIES_FAIL = """MSS REPORT 1
entry 1 host 1 mount 0 mounted
entry 2 host 1 ccw 07 status 0C
entry 3 host 1 ccw 31 equipment check fault 1
entry 4 host 1 ccw 07 status 0C
entry 5 host 1 ccw 31 equipment check fault 2
change 1 volume 0 create VOL001 0 1
change 2 volume 0 assign page 0 frame 0
volume 0 VOL001
END
status 0"""
WRITE_FAILS = """MSS REPORT 1
entry 1 host 1 mount 0 mounted
entry 2 host 1 ccw 07 status 0C
entry 3 host 1 ccw 31 status 4C
entry 4 host 1 ccw 1D stopped fault 1
STOPPED 1
status 5"""
UNREAD = "restart refused volume 0 unread fault 2\nstatus 4"
STOPPED = "restart refused stopped fault 1\nstatus 4"

# Places of a row, and slots of marks.
VERSION, FRAME_OF_PAGE_0, STATE_OF_CYLINDER_5, SLOTS_AT = 1, 12, 69, 512
PROTECT, UNPROTECT = bytes.fromhex("06000100000000"), bytes.fromhex("06000000000000")

# A start syncs the three files that the first job leaves. It writes both copies of a row anew, each by four writes and
# three syncs, and marks each by two writes and two syncs. The mark counts from the tenth write on, that of the gate of
# copy A, which the eleventh sync stands behind.
CALLS_OF_START = [("pwrite64", 2 * 4 + 2 * 2), ("fdatasync", 3 + 2 * 3 + 2 * 2)]
FIRST_MARKED = 11

# Words that are no command.
REFUSED = [
    "",
    "--",
    "-- serial",
    "--order 1 serial",
    "Serial",
    "help",
    "--help",
    "--version",
    "serial serial",
    "serial help",
    "serial --help",
    "serial -h",
    "serial -- --",
    "serial -- x",
    "serial --ord 1",
    "serial --order",
    "serial --order=",
    "serial --order --turns 1",
    "serial --order -- 1",
    "serial --order 1 --order=1",
    "serial --order +1",
    "serial --order 18446744073709551616",
    "serial --order 000000000000000000001",
    "serial --turns 100001",
    "serial --load 0",
    "serial --load 1001",
    "threads 1",
    "show --order 1",
    "threads x",
    "show x",
    "serial x",
    "serial --turns x",
    "serial --turns 5 --turns 5",
    "serial --after 5",
    "serial --after 0 --order 1",
    "serial --copy 32",
    "serial --copy x",
    "serial --copy",
    "serial --copy 0 --load 5",
    "serial --after 4097 --copy 0",
    "serial --copy 0 --after",
    "serial --copy 0 --copy 1",
    "serial --copy 0 --after 1 --after 2",
    "threads --after 5",
    "threads --copy 32",
    "threads --after 4097 --copy 0",
    "threads --copy 0 --copy 1",
    "threads --copy 0 --load 5",
    "show --copy 0",
]


class Histories(SiteTest):
    """What one run writes, the next one reads."""

    def test_a_listing_of_nothing(self):
        self.assert_told(f"{LISTING}END\nstatus 0", self.told("show"))
        self.assertFalse(self.site.exists(), "a listing wrote")

    def test_a_second_job_reads_what_the_first_wrote(self):
        self.assert_told(f"{REPORT}status 0", self.told("serial", text=FIRST))
        self.assert_told(LISTING + RECORD, self.told("show"))
        self.assert_told(READ + RECORD, self.told("serial", text=READ_BACK))
        other = "mss 1 frames 1 recorders 1\nvolume 0 VOL009\ndone\n"
        due = "restart refused volume 0 serial VOL001 asked VOL009\nstatus 4"
        self.assert_told(due, self.told("serial", text=other))
        (self.site / "table_b").unlink()
        self.assert_told(LISTING + RECORD, self.told("show"), "a table file that is gone")

    def test_a_volume_that_is_read_only_in_one_job(self):
        """Its mark comes and goes with the jobs, and its track stays."""
        self.told("serial", text=FIRST)
        due = f"{PROTECTED}change 1 volume 0 protect on\n{MARKED}"
        self.assert_told(due, self.told("serial", text=WRITE_ON_READ_ONLY))
        self.assert_told(LISTING + MARKED, self.told("show"))
        self.assert_told(PROTECTED + MARKED, self.told("serial", text=WRITE_ON_READ_ONLY), "the same job again")
        due = f"{READ}change 1 volume 0 protect off\n{RECORD}"
        self.assert_told(due, self.told("serial", text=READ_BACK))
        self.assert_told(LISTING + RECORD, self.told("show"))

    def test_new_volumes_that_are_read_only(self):
        """One start creates all volumes, and then marks them. A job that has one alone leaves the mark of the other."""
        self.assert_told(NEW_AND_MARKED, self.told("serial", text=TO_MARK))
        self.assert_told(LAST_UNMARKED, self.told("serial", text=LAST_ALONE))
        left = "volume 0 VOL001 readonly\nvolume 1 VOL002\nvolume 2 VOL003\nEND\nstatus 0"
        self.assert_told(LISTING + left, self.told("show"))

    def test_the_same_job_again(self):
        """The same replies, and no change, since its cylinder is staged and changed still."""
        self.assert_told(f"{REPORT}status 0", self.told("serial", text=FIRST))
        due = "".join(line for line in REPORT.splitlines(True) if not line.startswith("change "))
        self.assert_told(f"{due}status 0", self.told("serial", text=FIRST))

    def test_one_copy_of_the_table_that_is_unread(self):
        """It changes no listing, and keeps a run from writing to the other one."""
        self.told("serial", text=FIRST)
        (self.site / "table_a").unlink()
        (self.site / "table_a").mkdir()
        self.assert_told(LISTING + RECORD, self.told("show"))
        self.assert_told(STOPPED, self.told("serial", text=FIRST))

    def test_two_runs_of_one_job_are_the_same(self):
        text = (EXAMPLES / "hosts.job").read_bytes()
        one = self.told("serial", text=text)
        for _ in range(9):
            self.assert_told(one, self.told_on_blank("serial", text=text))

    def test_where_records_stand(self):
        """The cylinders of a frame stand behind one another, 19 blocks each, and so do the 202 of a cartridge. The
        records stand in two frames, and on their cartridges once another job takes both."""
        records = ["00c900000100000141", "00ca00000100000142", "019300120100000143"]
        frames = [("staging_0", 19), ("staging_0", 38), ("staging_0", 227)]
        cartridges = [("cartridge_0", 3819), ("cartridge_1", 0), ("cartridge_1", 3837)]
        for path in (CASES / "cartridges.job", CASES / "left/cartridges.job"):
            is_left = path.parent != CASES
            due = path.with_suffix(".report").read_text()
            self.assert_told(f"{due}status 0", self.told("serial", text=path.read_bytes()))
            for record, frame, cartridge in zip(records, frames, cartridges, strict=True):
                self.assertTrue(is_left or self.has(*frame, record), f"{record} isn't in its frame")
                self.assertEqual(is_left, self.has(*cartridge, record), f"{record} on its cartridge")

    def has(self, name, block, record):
        """Whether the first record of a block is open, and is this one."""
        path = self.site / name
        if not path.exists():
            return False
        with path.open("rb") as file:
            file.seek(BLOCK * block)
            held = file.read(BLOCK)
        return held[129:130] == b"\xc1" and held[256:265].hex() == record


class OldRows(SiteTest):
    """The site of the first job with its row in version 1, whose slots tell the frame and the state of its cylinder.
    The next job has the volume read-only."""

    def make(self):
        """Makes that site."""
        remove_site(self.folder)
        self.assertEqual(self.ran("serial", text=FIRST).returncode, 0)
        for path in self.copies():
            row = bytearray(path.read_bytes())
            self.assertEqual((row[VERSION], slots_of(row)), (2, [ASSIGNED, STAGED, CHANGED]))
            row[VERSION] = 1
            path.write_bytes(row)

    def copies(self):
        return [self.site / name for name in ("table_a", "table_b")]

    def assert_new(self, *slots):
        """That both copies have the row of the first job in a body of version 2, and these slots alone."""
        due = bytearray(spelled_row("VOL001", 0, 1))
        due[FRAME_OF_PAGE_0], due[STATE_OF_CYLINDER_5] = 0, 4
        for path in self.copies():
            row = path.read_bytes()
            self.assertEqual((row[:SLOTS_AT].hex(), slots_of(row)), (due.hex(), [*slots]), path.name)

    def test_a_mark_and_no_mark(self):
        """Both copies are written anew in version 2, which isn't told, and the mark comes. It goes with the next job."""
        self.make()
        self.assert_told(LISTING + RECORD, self.told("show"))
        due = f"{PROTECTED}change 1 volume 0 protect on\n{MARKED}"
        self.assert_told(due, self.told("serial", text=WRITE_ON_READ_ONLY))
        self.assert_new(PROTECT)
        due = f"{READ}change 1 volume 0 protect off\n{RECORD}"
        self.assert_told(due, self.told("serial", text=READ_BACK))
        self.assert_new(PROTECT, UNPROTECT)

    @unittest.skipUnless(may_trace(), "this machine has no strace, or may not trace")
    def test_kills_within_the_start(self):
        """The track stays at each of its writes and syncs, and the same job takes the site up. No more calls come."""
        for call, count in CALLS_OF_START:
            for number in range(1, count + 1):
                self.make()
                self.assertEqual(self.status_of_kill(call, number), -signal.SIGKILL, f"killed at {call} {number}")
                self.assert_taken_up(number >= FIRST_MARKED, f"killed at {call} {number}")
            self.make()
            self.assertEqual(self.status_of_kill(call, count + 1), 0, f"there is a {call} {count + 1}")

    def status_of_kill(self, call, number):
        """How the next job ends where it is killed at the call with this number."""
        tracing = ["strace", "--quiet=all", "--output=calls", f"--inject={call}:signal=KILL:when={number}"]
        return run([*tracing, PROGRAM, "serial"], self.folder, WRITE_ON_READ_ONLY).returncode

    def assert_taken_up(self, is_marked, name):
        """That the site shows the mark or shows none, and that the next job sets it where it isn't there."""
        self.assert_told(LISTING + (MARKED if is_marked else RECORD), self.told("show"), name)
        change = "" if is_marked else "change 1 volume 0 protect on\n"
        self.assert_told(PROTECTED + change + MARKED, self.told("serial", text=WRITE_ON_READ_ONLY), f"{name}, again")
        self.assertEqual([path.read_bytes()[VERSION] for path in self.copies()], [2, 2], f"{name}, the versions")


class Words(SiteTest):
    """What is a command."""

    def test_options_in_another_order(self):
        self.assert_told(f"{REPORT}status 0", self.told("serial", "--turns=0", "--order", "7", "--", text=FIRST))

    def test_threads_behind_a_mark(self):
        self.assert_told(f"{REPORT}status 0", self.told("threads", "--", text=FIRST))

    def test_a_name_that_is_no_text(self):
        """The program's own name may be any bytes."""
        self.told("serial", text=FIRST)
        folder = os.path.join(os.fsencode(self.folder), b"\xe9")
        os.mkdir(folder)
        named = shutil.copy(os.fsencode(PROGRAM), os.path.join(folder, b"mss_cli"))
        self.assert_told(LISTING + RECORD, told_by(run([named, b"show"], self.folder)))

    def test_a_closed_error_output(self):
        told = told_by(run([PROGRAM, "show"], self.folder, stderr=None, preexec_fn=lambda: os.close(2)))
        self.assert_told(f"{LISTING}END\nstatus 0", told)


@tests_of([(f"{number:02} {words}", words) for number, words in enumerate(REFUSED, 1)])
class RefusedWords(SiteTest):
    """Words that are no command: nothing is touched."""

    def check(self, words):
        self.assert_told("words refused\nstatus 1", self.told(*words.split(), text=FIRST))
        self.assertFalse(self.site.exists(), "a folder was made")


class Devices:
    """Where devices, input and output fail, a run in threads tells the same as one without."""

    word = None

    def limited(self, kilobytes):
        """The first job where no file may grow past so many kilobytes."""

        def limit():
            resource.setrlimit(resource.RLIMIT_FSIZE, (1024 * kilobytes, 1024 * kilobytes))
            signal.signal(signal.SIGXFSZ, signal.SIG_IGN)

        return self.told(self.word, text=FIRST, preexec_fn=limit)

    def test_a_folder_that_is_a_file(self):
        self.site.touch()
        self.assert_told(STOPPED, self.told(self.word, text=FIRST))
        self.assert_told(UNREAD, self.told("show"))

    def test_a_file_that_is_a_folder(self):
        (self.site / "table_a").mkdir(parents=True)
        self.assert_told(STOPPED, self.told(self.word, text=FIRST))

    def test_a_full_device(self):
        with open("/dev/full", "wb") as full:
            self.assertEqual(self.ran(self.word, text=FIRST, stdout=full).returncode, 7)

    def test_a_table_that_fails(self):
        self.assert_told(STOPPED, self.limited(0))

    def test_copies_and_a_write_that_fail(self):
        """The first job's cylinder stands behind the first megabyte of its file, and the table before it. A copy that
        fails is an equipment check, and a host's write that fails ends the session."""
        self.assert_told(COPIES_FAIL, self.limited(1024))
        lines = [line for line in REPORT.splitlines(True) if " create " not in line and " assign " not in line]
        staged = "".join(lines).replace("change 3 ", "change 1 ").replace("change 4 ", "change 2 ")
        self.assert_told(f"{staged}status 0", self.told(self.word, text=FIRST), "a job behind them")
        self.assert_told(WRITE_FAILS, self.limited(1024), "a write that fails")
        self.assert_told(LISTING + RECORD, self.told("show"), "what is left")

    def test_a_closed_output(self):
        """A descriptor that is closed at the start never becomes a file of the site."""
        ran = self.ran(self.word, text=FIRST, stdout=None, preexec_fn=lambda: os.close(1))
        self.assertEqual(ran.returncode, 7)
        self.assert_told(LISTING + RECORD, self.told("show"))

    def test_a_closed_input(self):
        told = self.told(self.word, stdin=None, preexec_fn=lambda: os.close(0))
        self.assert_told("input fault\nstatus 2", told)

    def test_a_folder_that_is_in_use(self):
        """While a run holds the lock of the folder, another's calls are faults."""
        self.site.mkdir()
        folder = os.open(self.site, os.O_RDONLY)
        self.addCleanup(os.close, folder)
        fcntl.flock(folder, fcntl.LOCK_EX)
        self.assert_told(STOPPED, self.told(self.word, text=FIRST))
        self.assert_told(UNREAD, self.told("show"))


class SerialDevices(Devices, SiteTest):
    word = "serial"


class ThreadedDevices(Devices, SiteTest):
    word = "threads"


KILLED = [EXAMPLES / "format.job", EXAMPLES / "update.job", EXAMPLES / "replacement.job", CASES / "three_hosts.job"]


@tests_of([(path.stem, path) for path in KILLED])
class KilledRuns(SiteTest):
    """Each of 25 runs that are killed leaves the volumes of a moment of its history."""

    def check(self, path):
        faults, killed = faults_of_kills(path.read_bytes(), 25, "serial")
        self.assertEqual(faults, [])
        self.assertTrue(killed, "no run was killed")


if __name__ == "__main__":
    unittest.main()
