"""The texts of the jobs that benches/floors times beside those of this folder."""

from staged_jobs import main as staged_job
from staged_jobs import visit

ARGUMENT_LIMIT, ARGUMENTS_LIMIT = 65_798, 268_435_456  # bytes: of one argument, and of those of a job
TEXT_LIMIT = 4_194_304  # bytes of a job's text
PROGRAM_WORDS = 256


def text(*lines):
    return "\n".join([*lines, "done", ""])


def programs(word, count):
    """One host with so many words in programs of 256. It has no volume, so each program ends with its first command."""
    lines = ["mss 1 frames 1 recorders 1", "host 1"]
    while count > 0:
        length = min(PROGRAM_WORDS, count)
        lines += ["program", *[word] * length, "end"]
        count -= length
    return text(*lines)


def no_operations():
    """One host with 4,095 commands that do nothing, in programs of 256, on a volume of its own."""
    lines = ["mss 1 frames 24 recorders 2", "volume 0 VOL000", "host 1", "mount VOL000"]
    for length in [256] * 15 + [255]:
        lines += ["program", *["ccw 03"] * length, "end"]
    return text(*lines)


def four_hosts():
    """Four hosts on a volume each, over four pages each, all of which have frames: 1,000 programs of four entries."""
    return staged_job("four", 4000).replace("frames 8", "frames 24")


def short_words():
    return programs("ccw 31 0000000000", 230_000)


def bare_words():
    return programs("ccw 03", 262_144)


def filled_arguments():
    """As many bytes of arguments as a job may have, in few lines."""
    return programs(f"ccw 03 fill C1 {ARGUMENT_LIMIT}", ARGUMENTS_LIMIT // ARGUMENT_LIMIT)


def empty_lines():
    job = text("mss 1 frames 1 recorders 1")
    return "\n" * (TEXT_LIMIT - len(job)) + job


def volumes(count):
    """Nothing but so many volumes."""
    return text("mss 1 frames 24 recorders 2", *(f"volume {number} VOL{number:03}" for number in range(count)))


def cylinders(count):
    """One host that writes a record on each of so many cylinders in a row, and reads R0."""
    visits = [line for number in range(count) for line in visit(number, number % 19)]
    return text(*volumes(1).splitlines()[:-1], "host 1", "mount VOL000", *visits)
