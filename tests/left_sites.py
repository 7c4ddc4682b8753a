"""What a site may show that a run left, and what it shows."""

from formats.following import sources_of
from formats.plain import Machine
from formats.replaying import reply
from formats.reports import ReportFault, read_volumes


def tracks_of(volumes):
    """The tracks that aren't blank, by volume, cylinder and head."""
    return {
        (number, *place): [(record.identity, record.key, record.data) for record in track]
        for number, tracks in volumes.items()
        for place, track in tracks.items()
        if track
    }


def moments(job, report):
    """The tracks after each entry of the history, from none on, and those within a formatting."""
    return [tracks for tracks, _ in told_moments(job, report)]


def told_moments(job, report):
    """The same, each with whether it is one after an entry."""
    machine, last = Machine(job.volumes, job.read_only), {}
    allowed = [(last, True)]
    for entry, source in zip(report.entries, sources_of(job, report), strict=True):
        reply(machine, entry, source)
        now = tracks_of(machine.volumes)
        if now != last:
            allowed += [(cut, False) for place in now for cut in cuts(last, now, place)]
            allowed.append((now, True))
            last = now
    return allowed


def cuts(last, now, place):
    """What a track may be while the record behind those that stay is formatted."""
    before, after = last.get(place, []), now[place]
    if before != after and before[: len(after) - 1] == after[:-1]:
        rest = {other: track for other, track in last.items() if other != place}
        yield {**rest, place: after[:-1]} if after[:-1] else rest


def listed(text):
    """The tracks of a listing; none of a text that is no whole one."""
    try:
        volumes = read_volumes(text)
    except ReportFault:
        return None
    return {(volume.number, track.cylinder, track.head): track.records for volume in volumes for track in volume.tracks}


def on_volume(tracks, number):
    return {place: records for place, records in tracks.items() if place[0] == number}


def are_moments(told, allowed, is_one_history):
    """Whether these volumes are those of one of the moments, all at once or each for itself."""
    if told is None or is_one_history:
        return told in allowed
    volumes = {place[0] for tracks in (told, *allowed) for place in tracks}
    return all(any(on_volume(told, number) == on_volume(at, number) for at in allowed) for number in volumes)
