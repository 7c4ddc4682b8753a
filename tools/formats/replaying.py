"""Whether a report is one that plain volumes give: each reply, each change of the table, the volumes at the end, and the
copy of one of them where the report has it."""

from dataclasses import dataclass, field

from .following import followed, unfinished
from .plain import EQUIPMENT_CHECK, NO_SPACE, Machine
from .progress import quiet

CARTRIDGES = 2
OF_PAGE = 8


class Differs(Exception):
    """Where a report isn't what plain volumes give."""


@dataclass(frozen=True)
class AskedCopy:
    """The copy that the words of a run ask for: of a volume, behind so many entries."""

    volume: int
    after: int


@dataclass
class Table:
    """What the changes so far made of blank devices."""

    created: dict = field(default_factory=dict)  # the serial of each volume
    read_only: set = field(default_factory=set)
    frames: dict = field(default_factory=dict)  # the page, with its volume, that has each frame
    staged: dict = field(default_factory=dict)  # by volume and cylinder, where it has a copy, whether that was changed


def replay(job, report, watch=quiet, asked=None):
    """Goes through a report of a job, which has the copy that is asked for where the words of its run are known. What
    plain volumes don't give is told as Differs."""
    machine = Machine(job.volumes, job.read_only)
    sources, following = followed(job, report)
    if len(sources) < len(report.entries):
        raise Differs(f"entry {len(sources) + 1} doesn't follow from the job")
    for entry, source in zip(watch("entries replayed", report.entries), sources):
        due = reply(machine, entry, source)
        if due != entry.text:
            raise Differs(f"entry {entry.number} is {entry.text}, and plain volumes give {due}")
    host = unfinished(report, following)
    if host is not None:
        raise Differs(f"host {host} has more to do behind END")
    replay_changes(job, report)
    if report.last in ("END", "LIMIT"):
        compare_volumes(job, machine, report)
        if asked is not None:
            compare_words(report, asked)
        if report.copy is not None:
            compare_copy(job, report, sources)


def reply(machine, entry, source):
    """The text that is due for an entry."""
    if entry.call == "mount":
        return f"mount {entry.volume}{' bind' if entry.bind else ''} {machine.mount(entry.host, entry.volume)}"
    if entry.call == "demount":
        return f"demount {machine.demount(entry.host)}"
    if entry.call == "break":
        machine.break_off(entry.host)
        return entry.text  # which of both it is, its program tells
    if entry.reply in ("equipment check", "no space"):
        machine.fail(entry.host, EQUIPMENT_CHECK if entry.reply == "equipment check" else NO_SPACE)
        return entry.text
    if entry.reply == "stopped":
        return entry.text
    status, data = machine.command(entry.host, entry.code, source.word.argument(), not source.is_last)
    told = f" data {data.hex().upper()}" if data else ""
    return f"ccw {entry.code:02X} status {status:02X}{told}"


def replay_changes(job, report):
    """Each change is one that the table allows, on blank devices; frames are those of the job."""
    table = Table()
    for change in report.changes:
        if not is_allowed(job, change, table):
            raise Differs(f"change {change.number}: {change.text} isn't allowed there")
    if report.changes and table.created != job.volumes:
        raise Differs("not every volume is created")
    if report.changes and table.read_only != job.read_only:
        raise Differs("not every read-only volume is marked")


def is_allowed(job, change, table):
    page = (change.volume, change.page if change.cylinder is None else change.cylinder // OF_PAGE)
    cylinder = (change.volume, change.cylinder)
    frame = next((frame for frame, other in table.frames.items() if other == page), None)
    if change.kind == "create":
        table.created[change.volume] = change.serial
        first = CARTRIDGES * (len(table.created) - 1)
        return job.volumes.get(change.volume) == change.serial and change.cartridges == (first, first + 1)
    if change.kind == "protect":
        return change.read_only and is_marked_next(job, change.volume, table)
    if change.kind == "assign":
        is_free = frame is None and change.frame not in table.frames and change.frame < job.frames
        table.frames[change.frame] = page
        return is_free
    if change.kind == "free":
        pages = [other for other in table.staged if (other[0], other[1] // OF_PAGE) == page]
        is_clean = frame == change.frame and not any(table.staged[other] for other in pages)
        table.frames.pop(frame, None)
        for other in pages:
            del table.staged[other]
        return is_clean
    allowed = {"staged": None, "changed": False, "destaged": True}[change.kind]
    was = table.staged.get(cylinder)
    table.staged[cylinder] = change.kind == "changed"
    return frame is not None and was is allowed


def is_marked_next(job, volume, table):
    """Marks a volume as read-only. Marks come behind all creations, in order of number, and before pages get frames."""
    due = min(job.read_only - table.read_only, default=None)
    table.read_only.add(volume)
    return volume == due and table.created == job.volumes and not table.frames


def compare_volumes(job, machine, report):
    if len(report.volumes) != len(job.volumes):
        raise Differs(f"it has {len(report.volumes)} volumes, and the job {len(job.volumes)}")
    for (number, serial), volume in zip(sorted(job.volumes.items()), report.volumes, strict=True):
        if (volume.number, volume.serial) != (number, serial):
            raise Differs(f"volume {volume.number} {volume.serial} isn't of the job")
        if volume.read_only != (number in job.read_only):
            raise Differs(f"volume {number} has another mark")
        if not are_tracks(volume.tracks, machine.volumes[number]):
            raise Differs(f"volume {number} has other tracks")


def are_tracks(told, volume):
    """Whether these are the tracks of a plain volume that aren't blank, by cylinder and head."""
    due = {
        place: [(record.identity, record.key, record.data) for record in track]
        for place, track in volume.items()
        if track
    }
    return [((track.cylinder, track.head), track.records) for track in told] == sorted(due.items())


def compare_words(report, asked):
    """The copy is the one that is asked for, or was wanted behind more entries than there are."""
    copy, point = report.copy, min(asked.after, len(report.entries))
    if copy is None:
        raise Differs(f"it has no copy, and one of volume {asked.volume} is asked for")
    if copy.volume != asked.volume:
        raise Differs(f"it has {copy.heading()}, and volume {asked.volume} is asked for")
    if copy.after not in (None, point):
        raise Differs(f"it has {copy.heading()}, and the copy is due after {point}")


def compare_copy(job, report, sources):
    """The copy is of a volume that is there, and has its tracks as they are after the entries before it."""
    copy = report.copy
    if copy.is_absent() == (copy.volume in job.volumes):
        has = "has" if copy.is_absent() else "has no"
        raise Differs(f"it has {copy.heading()}, and the job {has} volume {copy.volume}")
    if copy.after is None:
        return
    if copy.after > len(report.entries):
        raise Differs(f"it has {copy.heading()}, and {len(report.entries)} entries")
    machine = Machine(job.volumes, job.read_only)
    for entry, source in list(zip(report.entries, sources))[: copy.after]:
        reply(machine, entry, source)
    if not are_tracks(copy.tracks, machine.volumes[copy.volume]):
        raise Differs(f"{copy.heading()} has other tracks than volume {copy.volume} has there")
