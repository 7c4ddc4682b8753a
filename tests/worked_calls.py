"""The calls on files that jobs make on blank devices, step by step, as a person worked them out.

Copy A of a row stands in `table_a`, copy B in `table_b`, each page of these jobs in `staging_0`. A file is made at
its first write, and the names in the folder are synced before that write. The tracks that a host looked at are kept, as
many as 17 cylinders have, and are read again without a call.
"""

READ, WRITE, SYNC, NAMES = "pread64", "pwrite64", "fdatasync", "fsync"
CALLS = (READ, WRITE, SYNC, NAMES)
SITE = "mss.site"
HEADS = 19
COPIES = ("table_a", "table_b")
FRAMES = "staging_0"

# The names of the site's files, and that of its folder.
FILES, FOLDER = (NAMES, SITE, None), (NAMES, "..", None)


def synced(unit):
    return (SYNC, unit, None)


def firm(unit, block):
    """A write into a block, and the sync behind it."""
    return [(WRITE, unit, block), synced(unit)]


def created(volume):
    """Both copies of a row are marked; then each is filled, and opened. A copy is read before it is marked."""
    first, second = (firm(unit, volume) for unit in COPIES)
    if volume == 0:  # which makes the files
        marked = [FILES, FOLDER, *first, FILES, *second]
    else:
        marked = [(READ, "table_a", volume), *first, (READ, "table_b", volume), *second]
    return [*marked, *first, *first, *second, *second]


def changed(volume):
    """Each copy of a row gets a slot, by its body and then by its gate."""
    return [call for unit in COPIES for call in 2 * firm(unit, volume)]


def block_of(frame, cylinder, head=0):
    return (8 * frame + cylinder % 8) * HEADS + head


def reads(unit, first, kept=None):
    """The reads of a cylinder's tracks, by its first block; that of the head that is kept is none."""
    return [(READ, unit, first + head) for head in range(HEADS) if head != kept]


def writes(unit, first):
    return [(WRITE, unit, first + head) for head in range(HEADS)]


def copied(source, target, kept=None):
    """Each track is read and written."""
    pairs = zip(reads(*source), writes(*target), strict=True)
    return [call for head, pair in enumerate(pairs) for call in pair if head != kept or call[0] == WRITE]


def appended(block):
    """A record is written behind the others of its track, and then its gate."""
    return 2 * firm(FRAMES, block)
