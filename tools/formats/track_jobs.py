"""Jobs that write tracks to a volume by ordinary channel programs: as many as the limits of a job and a session ask
for."""

from .fields import hexadecimal
from .jobs import ITEM_LIMIT, TEXT_LIMIT
from .plain import Record
from .progress import quiet

ENTRY_LIMIT = 4_096
LEAST_FILL = 8  # equal bytes at the end of an argument that are spelled by `fill`


def record_word(record):
    """The command that writes a record. Zeros at the end of its data needn't be given."""
    identity, key, data = record
    given = (key + data).rstrip(b"\0")
    word = f"ccw 1D {hexadecimal(Record(*record).count())}"
    run = len(given) - len(given.rstrip(given[-1:]))
    if run < LEAST_FILL:
        return f"{word}{hexadecimal(given)}"
    return f"{word}{hexadecimal(given[:-run])} fill {given[-1]:02X} {run}"


def program(place, records):
    """The lines of the program that formats a track with these records, behind its R0."""
    cylinder, head = place
    track = f"{cylinder:04X}{head:04X}"
    words = [f"ccw 07 0000{track}", f"ccw 31 {track}00", "tic 1", *map(record_word, records)]
    return "\n".join(["program", *words, "end", ""])


def jobs(volume, serial, frames, tracks, watch=quiet):
    """The texts of the jobs that write these tracks, in their order, to a volume that is new; always one at least."""
    head = f"mss 1 frames {frames} recorders 1\nvolume {volume} {serial}\n"
    opening, closing = f"{head}host 1\nmount {serial}\n", "done\n"
    if not tracks:
        yield head + closing
        return
    text, items, entries = opening, 1, 1
    for place, records in watch("tracks put into jobs", sorted(tracks.items())):
        lines, due = program(place, records), 2 + len(records)
        is_full = len(text) + len(lines) + len(closing) > TEXT_LIMIT
        if is_full or items == ITEM_LIMIT or entries + due > ENTRY_LIMIT:
            yield text + closing
            text, items, entries = opening, 1, 1
        text, items, entries = text + lines, items + 1, entries + due
    yield text + closing
