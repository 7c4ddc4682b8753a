"""Runs that are killed at random moments, and what is wrong with the sites that they leave.

Whatever the moment, the listing has to show the volumes after the first so many entries of the run's history, or those
within the entry that comes next: a write that formats a track leaves the track of before, or cut before the new record.
Of a run in threads, whose hosts each have volumes of their own, that has to hold of each volume.
"""

import random
import signal
import subprocess
import time

from fixtures import LONGEST, PROGRAM, new_folder, run, run_on_blank
from formats.jobs import read_job
from formats.reports import read_report
from left_sites import are_moments, listed, moments

SEED = 3850
TRIES = 40  # at most so many runs for each that is to be killed, since some end before


def kill_one(word, text, longest, draw):
    """Kills a run on a new site at a random moment, and lists what is left: how the run ended, and the listing."""
    with new_folder() as folder:
        command = [PROGRAM, word]
        killed = subprocess.Popen(command, stdin=subprocess.PIPE, stdout=subprocess.DEVNULL, cwd=folder)
        killed.stdin.write(text)
        killed.stdin.close()
        time.sleep(draw.random() * longest)
        killed.send_signal(signal.SIGKILL)
        ended = killed.wait(LONGEST)
        return ended, run([PROGRAM, "show"], folder)


def faults_of_kills(text, count, word):
    """What is wrong with sites of which so many runs were killed, and how many were."""
    job = read_job(text)
    with new_folder() as folder:
        whole = run_on_blank([PROGRAM, "serial"], text, folder)
        start = time.monotonic()
        run_on_blank([PROGRAM, word], text, folder)
        longest = time.monotonic() - start
    allowed = moments(job, read_report(whole.stdout))
    draw = random.Random(SEED)
    faults = []
    killed = runs = 0
    while killed < count and runs < TRIES * count:
        ended, shown = kill_one(word, text, longest, draw)
        killed += ended == -signal.SIGKILL
        runs += 1
        if shown.returncode != 0 or not are_moments(listed(shown.stdout), allowed, word == "serial"):
            faults.append(f"run {runs} leaves {shown.stdout[:300]}")
    return faults, killed
