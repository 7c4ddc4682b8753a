"""tools/ckd-image: volumes to an image and back, what can't be carried, and images beside Hercules' own tools."""

import unittest
from functools import cache
from pathlib import Path

from fixtures import EXAMPLES, PROGRAM, TOOLS, SiteTest, Test, new_folder, run, tests_of, tool_is_there
from formats.images import CYLINDER_BYTES, HEADER_BYTES, TRACK_BYTES, read_image, track_bytes
from formats.jobs import TEXT_LIMIT, read_job
from formats.track_jobs import ENTRY_LIMIT, jobs

TOOL = TOOLS / "ckd-image"
PLACE = (5, 3)
AT = HEADER_BYTES + (5 * 19 + 3) * TRACK_BYTES  # where that track stands
RECORD = (bytes.fromhex("0005000301"), b"", b"ABC")
HEADER = bytes.fromhex("434B445F50333730 13000000 00340000 30 00 0000").ljust(HEADER_BYTES, b"\0")
# By hand: home address, R0, the record of the first example, the end.
FIRST = bytes.fromhex("0000050003 0005000300000008 0000000000000000 0005000301000003414243 FFFFFFFFFFFFFFFF")


def record(number, length):
    """A record that has its track's address and no key."""
    return (bytes.fromhex(f"00050003{number:02X}"), b"", length * b"A")


@cache
def blank_image():
    return HEADER + b"".join(track_bytes((cylinder, head), []) for cylinder in range(404) for head in range(19))


def image_of(track):
    """An image in which one track is given by its bytes, and the others are blank."""
    return blank_image()[:AT] + track.ljust(TRACK_BYTES, b"\0") + blank_image()[AT + TRACK_BYTES :]


def changed(at, given):
    """An image with these bytes at a place."""
    image = image_of(track_bytes(PLACE, [RECORD]))
    return image[:at] + given + image[at + len(given) :]


# Images, each with what is told of it.
UNFIT = [
    ("no image", lambda: b"MSS REPORT 1\n", "it is no CKD image: it begins with b'MSS REPO' and not b'CKD_P370'"),
    ("a header cut off", lambda: HEADER[:20], "it ends within its header"),
    ("the compressed form", lambda: changed(0, b"CKD_C370"), "it is in the compressed form CKD_C370"),
    ("a shadow file", lambda: changed(0, b"CKD_S370"), "it is in the compressed form CKD_S370"),
    ("another device", lambda: changed(16, b"\x50"), "it is no 3330: the type is 50, with 19 heads"),
    ("other heads", lambda: changed(8, b"\x0f"), "with 15 heads and tracks of 13,312 bytes"),
    ("a first file", lambda: changed(17, b"\x01\x20\x00"), "it is one of several files of a volume"),
    ("a second file", lambda: changed(17, b"\x02"), "it is one of several files of a volume"),
    ("a cylinder less", lambda: changed(0, b"")[:-CYLINDER_BYTES], "it has 403 cylinders"),
    ("a model 11", lambda: changed(0, b"") + 404 * CYLINDER_BYTES * b"\0", "it has 808 cylinders"),
    ("an end cut off", lambda: changed(0, b"")[:-1], "it has 404.00 cylinders"),
    ("a flag", lambda: changed(AT, b"\x02"), "cylinder 5, head 3: its home address is 0200050003 and not 0000050003"),
    ("another address", lambda: changed(AT + 4, b"\x04"), "cylinder 5, head 3: its home address is 0000050004"),
    ("another R0", lambda: changed(AT + 20, b"\x01"), "cylinder 5, head 3: its R0 is 00050003000000080000000000000001"),
    ("a long record", lambda: changed(AT + 27, b"\x34\x00"), "cylinder 5, head 3: record 1 runs past the end"),
    ("no end", lambda: image_of(FIRST[:21] + 1662 * b"\0"), "cylinder 5, head 3: what would be a count runs past"),
    ("98 records", lambda: image_of(track_bytes(PLACE, 98 * [record(1, 0)])), "it has 98 records, and 97 is the most"),
    ("a high cost", lambda: image_of(track_bytes(PLACE, [record(1, 13031)])), "its records cost 13,166, and a track"),
    ("track overflow", lambda: changed(AT + 21, b"\x80"), "cylinder 5, head 3: record 1 overflows to the next track"),
]

# Texts that show no volume to pack, each with what is told.
UNSHOWN = [
    ("a job", (EXAMPLES / "first.job").read_text(), "line 1: a report begins with MSS REPORT 1"),
    ("a refusal", "job refused line 7 Shape\n", "line 1: a report begins with MSS REPORT 1"),
    ("no volume", "MSS VOLUMES 1\nEND\n", "it has no volume"),
    (
        "two volumes",
        "MSS VOLUMES 1\nvolume 0 VOL001\nvolume 3 VOL002\nEND\n",
        "--volume has to tell one of its volumes: 0, 3",
    ),
    ("a stop", "MSS VOLUMES 1\nvolume 0 VOL001\nSTOPPED 1\n", "show its volumes whole: it ends with STOPPED 1"),
    ("no end", "MSS VOLUMES 1\nvolume 0 VOL001\n", "it doesn't show its volumes whole: it ends with no last line"),
    ("an odd digit", "MSS VOLUMES 1\nvolume 0 VOL001\ntrack 5 3\nrecord 0005000301 - 41424\nEND\n", "line 4: record"),
    ("another line", "MSS VOLUMES 1\nvolume 0 VOL001\nfirst\nEND\n", "line 3: first"),
    ("a far track", "MSS VOLUMES 1\nvolume 0 VOL001\ntrack 404 0\nEND\n", "cylinder 404, head 0: a listing has each"),
    (
        "track overflow",
        "MSS VOLUMES 1\nvolume 0 VOL001\ntrack 0 0\nrecord 8000000001 - 41\nEND\n",
        "cylinder 0, head 0: record 1 overflows to the next track, by bit 80 of its ID's first byte",
    ),
]


class ImageTest(SiteTest):
    """A test of files in a folder."""

    def setUp(self):
        folder = new_folder()
        self.addCleanup(folder.cleanup)
        self.folder = folder.name

    def path(self, name):
        return Path(self.folder, name)

    def tool(self, *words, text=b"", status=0):
        ran = run([TOOL, *words], self.folder, text)
        self.assertEqual(ran.returncode, status, ran.stderr)
        return (ran.stdout if status == 0 else ran.stderr).decode()

    def pack(self, listing, name):
        self.tool("pack", "-", name, text=listing)
        return self.path(name).read_bytes()

    def tracks(self, name):
        with self.path(name).open("rb") as file:
            return read_image(file)

    def listing_after(self, folder):
        """Runs the jobs of a folder, and lists the volumes."""
        self.assertTrue(PROGRAM.exists(), f"there is no {PROGRAM}: ./mss builds it")
        for job in sorted(self.path(folder).iterdir()):
            told = self.told("serial", text=job.read_bytes())
            self.assertTrue(told.endswith("\nEND\nstatus 0"), told[-300:])
            self.assertNotIn(" status 0E", told)
        return self.ran("show").stdout


@tests_of(UNFIT)
class UnfitImages(ImageTest):
    """Images that can't be carried are refused in one line, and nothing is made."""

    def check(self, image, told):
        self.path("unfit.img").write_bytes(image())
        line = self.tool("unpack", "unfit.img", "jobs", "--serial", "VOL001", status=1)
        self.assertTrue(line.startswith("ckd-image: unfit.img: ") and line.count("\n") == 1, line)
        self.assertIn(told, line)
        self.assertFalse(self.path("jobs").exists())


@tests_of(UNSHOWN)
class UnshownVolumes(ImageTest):
    """So are listings."""

    def check(self, listing, told):
        line = self.tool("pack", "-", "made.img", text=listing, status=1)
        self.assertTrue(line.startswith("ckd-image: -: ") and line.count("\n") == 1, line)
        self.assertIn(told, line)
        self.assertFalse(self.path("made.img").exists())


class Files(ImageTest):
    """What is made, and what isn't touched."""

    def test_the_image_of_the_first_report(self):
        image = self.pack((EXAMPLES / "first.report").read_bytes(), "first.img")
        self.assertEqual(len(image), 102_183_424)
        self.assertTrue(image == image_of(FIRST))

    def test_a_volume_of_several(self):
        listing = "MSS VOLUMES 1\nvolume 0 VOL001\nvolume 3 VOL002\ntrack 5 3\nrecord 0005000301 - 414243\nEND\n"
        self.tool("pack", "-", "made.img", "--volume", "3", text=listing)
        self.assertEqual(self.tracks("made.img"), {PLACE: [RECORD]})

    def test_alternate_cylinders_that_are_empty(self):
        alternates = [track_bytes((cylinder, head), []) for cylinder in range(404, 411) for head in range(19)]
        image = image_of(track_bytes(PLACE, [RECORD])) + b"".join(alternates)
        self.path("made.img").write_bytes(image)
        self.assertEqual(self.tracks("made.img"), {PLACE: [RECORD]})
        used = image[:-TRACK_BYTES] + track_bytes((410, 18), [RECORD])
        self.path("used.img").write_bytes(used)
        line = self.tool("unpack", "used.img", "jobs", "--serial", "VOL001", status=1)
        self.assertIn("cylinder 410, head 18: it is an alternate track with records", line)

    def test_what_is_there_stays(self):
        self.path("there").mkdir()
        self.path("there.img").write_bytes(image_of(FIRST))
        self.tool("pack", EXAMPLES / "first.report", "there.img", status=2)
        self.tool("unpack", "there.img", "there", "--serial", "VOL001", status=2)
        self.assertEqual(list(self.path("there").iterdir()), [])
        self.assertTrue(self.path("there.img").read_bytes() == image_of(FIRST))

    def test_files_and_words_that_are_none(self):
        told = self.tool("unpack", "none.img", "jobs", status=2)
        self.assertEqual(told, "ckd-image: none.img: No such file or directory\n")
        for words in ("", "pack", "unpack a b --frames 201", "unpack a b --serial vol001", "pack a b --volume 32"):
            self.tool(*words.split(), status=2)

    def test_an_image_without_a_label(self):
        self.path("made.img").write_bytes(image_of(FIRST))
        self.assertIn("give one by --serial", self.tool("unpack", "made.img", "jobs", status=1))


class Jobs(Test):
    """The jobs of tracks: good ones within the limits, and in the order of the tracks."""

    def texts(self, tracks):
        texts = list(jobs(3, "VOL001", 2, tracks))
        for text in texts:
            self.assertLessEqual(len(text), TEXT_LIMIT)
            job = read_job(text.encode())
            items = [item for host in job.hosts for item in host.items]
            commands = sum(word.code is not None for item in items for word in item.words)
            self.assertLessEqual(1 + commands, ENTRY_LIMIT)
        return texts

    def test_no_track(self):
        self.assertEqual(self.texts({}), ["mss 1 frames 2 recorders 1\nvolume 3 VOL001\ndone\n"])

    def test_many_tracks(self):
        tracks = {(number // 19, number % 19): [record(1, 1)] for number in range(1024)}
        self.assertEqual([text.count("ccw 1D") for text in self.texts(tracks)], [1023, 1])

    def test_many_records(self):
        tracks = {(number, 0): [record(at, 0) for at in range(1, 98)] for number in range(42)}
        self.assertEqual([text.count("ccw 1D") for text in self.texts(tracks)], [41 * 97, 97])

    def test_long_records(self):
        data = bytes(range(1, 251)) * 52
        tracks = {(number, 0): [(bytes(5), b"", data)] for number in range(200)}
        self.assertEqual([text.count("ccw 1D") for text in self.texts(tracks)], [160, 40])

    def test_how_arguments_are_spelled(self):
        records = [record(1, 300), (RECORD[0], b"K", bytes(300)), (RECORD[0], b"", b"AB\0\0"), (RECORD[0], b"", b"")]
        text = self.texts({PLACE: records})[0]
        words = [line.removeprefix("ccw 1D 00050003010") for line in text.splitlines() if line.startswith("ccw 1D")]
        self.assertEqual(words, ["0012C fill 41 300", "1012C4B", "000044142", "00000"])


class Journeys(ImageTest):
    """To the program and back."""

    def carried(self, name):
        """What comes back of an image once its jobs are run."""
        self.tool("unpack", name, "jobs", *([] if name != "made.img" else ["--serial", "VOL009"]))
        back = self.pack(self.listing_after("jobs"), "back.img")
        self.assertEqual(self.tracks("back.img"), self.tracks(name))
        return back

    def test_listing_image_jobs_and_back(self):
        """Tracks with keys, with records of zeros, with none, and full ones, on both ends of the volume."""
        tracks = {
            (0, 0): [(b"\0\0\0\0\x01", b"KEY", b"DATA"), (b"\0\0\0\0\x02", b"", b""), (b"\xff\1\2\3\4", b"K", b"")],
            PLACE: [record(1, 13030)],
            (403, 18): [record(number, 0) for number in range(1, 98)],
            (200, 0): [(b"\0\xc8\0\0\x01", bytes(255), bytes(1000)), (b"\0\xc8\0\0\0", b"", 8 * b"\xff")],
        }
        lines = ["MSS VOLUMES 1", "volume 0 VOL009"]
        for (cylinder, head), records in sorted(tracks.items()):
            lines.append(f"track {cylinder} {head}")
            lines += [" ".join(["record", *(part.hex().upper() or "-" for part in parts)]) for parts in records]
        image = self.pack("\n".join([*lines, "END", ""]), "made.img")
        self.assertEqual(self.tracks("made.img"), tracks)
        self.assertTrue(self.carried("made.img") == image)

    @unittest.skipUnless(tool_is_there("dasdinit"), "this machine has no dasdinit, of Hercules")
    def test_images_of_dasdinit(self):
        for words in (["-r", "made.img", "3330-1"], ["label.img", "3330-1", "HERC01"]):
            self.assertEqual(run(["dasdinit", *words], self.folder).returncode, 0)
        image = self.path("label.img").read_bytes()
        self.assertIn("volume 0 HERC01, 1 track with 3 records", self.tool("unpack", "label.img", "told"))
        self.assertTrue(self.carried("label.img") == image)
        self.assertEqual(self.tracks("made.img"), {})

    @unittest.skipUnless(tool_is_there("dasdload"), "this machine has no dasdload, of Hercules")
    def test_data_sets_of_dasdload(self):
        """Hercules' tools list and read what went through the program."""
        lines = [f"LINE {number:03} OF A TEXT" for number in range(35)]
        self.path("text").write_bytes("".join(line.ljust(80) for line in lines).encode("cp037"))
        control = "HERC05 3330-1 *\nsysvtoc vtoc trk 2\nmy.text seq text trk 1 0 0 ps fb 80 800 0\n"
        self.path("control").write_text(control)
        self.assertEqual(run(["dasdload", "control", "loaded.img"], self.folder).returncode, 0)
        self.carried("loaded.img")
        told = run(["dasdls", "back.img"], self.folder).stdout.decode()
        self.assertIn("back.img: VOLSER=HERC05\nMY.TEXT", told)
        run(["dasdseq", "-ascii", "back.img", "my.text"], self.folder)
        self.assertEqual(self.path("my.text").read_text().splitlines(), lines)


if __name__ == "__main__":
    unittest.main()
