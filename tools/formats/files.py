"""Files that a tool is given."""

import sys


def read_bytes(name):
    """The bytes of a file, or of standard input where the name is -."""
    if name == "-":
        return sys.stdin.buffer.read()
    with open(name, "rb") as file:
        return file.read()


def lines_of(text):
    """Each line ends with a line feed; a last line without one counts."""
    lines = text.split(b"\n")
    return lines[:-1] if lines[-1] == b"" else lines
