"""Loads: jobs that are drawn from a number."""

from .draws import words_of


def load(order, programs):
    """The text of a load's job."""
    words = words_of(order)
    scripts = [[f"host {host}", f"mount LOAD0{host - 1}"] for host in range(1, 5)]
    for number in range(programs):
        cylinder, head, choice = next(words) % 404, next(words) % 19, next(words)
        track = f"{cylinder:04X}{head:04X}"
        last = "ccw 16" if choice % 2 else f"ccw 1D {track}01000004{choice:08X}"
        lines = ["program", f"ccw 07 0000{track}", f"ccw 31 {track}00", "tic 1", last, "end"]
        scripts[number % 4] += lines
    volumes = [f"volume {number} LOAD0{number}" for number in range(4)]
    lines = [line for script in scripts for line in script]
    return "\n".join(["mss 1 frames 24 recorders 2", *volumes, *lines, "done", ""])
