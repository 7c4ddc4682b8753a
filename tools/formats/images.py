"""A 3330 volume as a file of the Hercules emulator, in its CKD form without compression. docs/IMAGES.md tells the form.

A volume is given and taken as its tracks that have records, by cylinder and head. A record is its ID, key and data.
"""

import os

from .plain import CAPACITY, CYLINDERS, HEADS, Record
from .progress import quiet

ALTERNATES = 7  # cylinders that an image may have behind the others
MOST_RECORDS = 97
DEVICE, SEQUENCE = 16, 17  # where the header has the type of the device, and the number of the file
HEADER_BYTES = 512
TRACK_BYTES = 13_312
CYLINDER_BYTES = HEADS * TRACK_BYTES
R0_DATA = bytes(8)
TRACK_END = 8 * b"\xff"

HEADER = (
    b"CKD_P370" + HEADS.to_bytes(4, "little") + TRACK_BYTES.to_bytes(4, "little") + b"\x30"
).ljust(HEADER_BYTES, b"\0")  # fmt: skip


class ImageFault(Exception):
    """Why a file is no image that can be carried."""


class TrackFault(ImageFault):
    """The same, of one track."""

    def __init__(self, place, reason):
        super().__init__(f"cylinder {place[0]}, head {place[1]}: {reason}")


def place_bytes(place):
    cylinder, head = place
    return cylinder.to_bytes(2, "big") + head.to_bytes(2, "big")


def why_unfit(records):
    """Why these can't be the records of a track, both of an image and of a volume here; none where they can."""
    if len(records) > MOST_RECORDS:
        return f"it has {len(records)} records, and {MOST_RECORDS} is the most"
    cost = sum(Record(*record).cost() for record in records)
    if cost > CAPACITY:
        return f"its records cost {cost:,}, and a track has room for {CAPACITY:,}"
    for number, (identity, _, _) in enumerate(records, 1):
        if 0x80 <= identity[0] < 0xFF:
            return f"record {number} overflows to the next track, by bit 80 of its ID's first byte"
    return None


def track_bytes(place, records):
    """A track of an image."""
    home = place_bytes(place)
    parts = [b"\0" + home, Record(home + b"\0", b"", R0_DATA).count() + R0_DATA]
    for record in records:
        parts += [Record(*record).count(), record[1], record[2]]
    return b"".join([*parts, TRACK_END]).ljust(TRACK_BYTES, b"\0")


def write_image(file, tracks, watch=quiet):
    """Writes the image of a volume, all of whose tracks are fit."""
    file.write(HEADER)
    for cylinder in watch("cylinders written", range(CYLINDERS)):
        places = [(cylinder, head) for head in range(HEADS)]
        file.write(b"".join(track_bytes(place, tracks.get(place, [])) for place in places))


def take(track, at, length, what):
    """The bytes of a track from a place on, of which its end may leave too few."""
    if at + length > TRACK_BYTES:
        raise ImageFault(f"{what} runs past the end of the track")
    return track[at : at + length]


def records_of(track, place):
    """The records of a track of an image."""
    home = place_bytes(place)
    if track[:1] != b"\0" or track[1:5] != home:
        raise ImageFault(f"its home address is {track[:5].hex().upper()} and not 00{home.hex().upper()}")
    r0 = Record(home + b"\0", b"", R0_DATA).count() + R0_DATA
    at = 5 + len(r0)
    if track[5:at] != r0:
        raise ImageFault(f"its R0 is {track[5:at].hex().upper()} and not {r0.hex().upper()}")
    records = []
    while (count := take(track, at, 8, "what would be a count")) != TRACK_END:
        key_length, data_length = count[5], int.from_bytes(count[6:8], "big")
        rest = take(track, at + 8, key_length + data_length, f"record {len(records) + 1}")
        records.append((count[:5], rest[:key_length], rest[key_length:]))
        at += 8 + len(rest)
    return records


def check_header(header):
    """Refuses a header that isn't that of a 3330 in one file."""
    name, kind = header[:8], header[DEVICE:SEQUENCE].hex()
    if name[:5] in (b"CKD_C", b"CKD_S"):
        raise ImageFault(f"it is in the compressed form {name.decode('latin-1')}; `dasdcopy -o CKD` makes a plain one")
    if name != HEADER[:8]:
        raise ImageFault(f"it is no CKD image: it begins with {name!r} and not {HEADER[:8]!r}")
    if len(header) < HEADER_BYTES:
        raise ImageFault("it ends within its header")
    heads, length = (int.from_bytes(header[at : at + 4], "little") for at in (8, 12))
    if header[8:SEQUENCE] != HEADER[8:SEQUENCE]:
        raise ImageFault(f"it is no 3330: the type is {kind}, with {heads} heads and tracks of {length:,} bytes")
    if header[SEQUENCE] > 1 or header[SEQUENCE + 1 : SEQUENCE + 3] != b"\0\0":
        raise ImageFault("it is one of several files of a volume")


def cylinders_of(file):
    """How many cylinders an image has, whose header is read."""
    length = os.fstat(file.fileno()).st_size - HEADER_BYTES
    cylinders, over = divmod(length, CYLINDER_BYTES)
    if over or cylinders not in (CYLINDERS, CYLINDERS + ALTERNATES):
        held = f"{length / CYLINDER_BYTES:.2f}" if over else cylinders
        raise ImageFault(f"it has {held} cylinders; a 3330 model 1 has {CYLINDERS}, and {ALTERNATES} alternate ones")
    return cylinders


def read_track(file, place):
    """The next track of an image."""
    try:
        records = records_of(file.read(TRACK_BYTES), place)
        reason = why_unfit(records)
        if place[0] >= CYLINDERS and records:
            reason = "it is an alternate track with records"
    except ImageFault as fault:
        reason = str(fault)
    if reason:
        raise TrackFault(place, reason)
    return records


def read_image(file, watch=quiet):
    """The tracks of an image that have records. The first track that is unfit, or damaged, is told as a TrackFault."""
    check_header(file.read(HEADER_BYTES))
    tracks = {}
    for cylinder in watch("cylinders read", range(cylinders_of(file))):
        for head in range(HEADS):
            if records := read_track(file, (cylinder, head)):
                tracks[cylinder, head] = records
    return tracks
