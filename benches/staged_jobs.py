#!/usr/bin/env -S python3 -B
"""Makes the text of a job that is staged: which cylinders, for how many entries.

usage: staged_jobs.py (one|four|scan) ENTRIES

one   one host over ten cylinders in turn, with a frame for each page: each is staged once, then written and read
four  four hosts on a volume each, over four pages each, on eight frames: nearly each program replaces a page
scan  one host that searches all tracks of a cylinder for a key, cylinder after cylinder, on 24 frames
"""

import sys


def place(cylinder, head):
    return f"{cylinder:04X}{head:04X}"


def visit(cylinder, head):
    """A program of four entries: R1 of a track is written, and R0 is read."""
    at = place(cylinder, head)
    words = [f"ccw 07 0000{at}", f"ccw 31 {at}00", "tic 1", f"ccw 1D {at}01000004C1C2C3C4", "ccw 16"]
    return ["program", *words, "end"]


def search(cylinder):
    """A program of two entries: a search for a key over all tracks of a cylinder, which has none."""
    return ["program", f"ccw 07 0000{place(cylinder, 0)}", "ccw A9 C1", "end"]


def job(frames, volumes, hosts):
    lines = [f"mss 1 frames {frames} recorders 2", *(f"volume {number} VOL{number:03}" for number in range(volumes))]
    for number, programs in enumerate(hosts):
        lines += [f"host {number + 1}", f"mount VOL{number:03}"]
        lines += [line for program in programs for line in program]
    return "\n".join([*lines, "done"]) + "\n"


def main(kind, entries):
    if kind == "one":
        return job(24, 1, [[visit(8 * (n % 10), n % 19) for n in range(entries // 4)]])
    if kind == "four":
        return job(8, 4, [[visit(8 * (n % 4), n % 19) for n in range(entries // 16)] for _ in range(4)])
    return job(24, 1, [[search(n % 404) for n in range(entries // 2)]])


if __name__ == "__main__":
    sys.stdout.write(main(sys.argv[1], int(sys.argv[2])))
