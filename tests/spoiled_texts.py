"""What becomes of a job's text line by line."""


def variants(line):
    """What comes in place of a line: none, twice, cut, or with other bytes."""
    half = len(line) // 2
    return [
        [],
        [line, line],
        [line[:half]],
        [line + b" "],
        [line.replace(b" ", b"  ", 1)],
        [line.upper()],
        [line.replace(b"1", b"9")],
        [line + b"0"],
        [line + b" readonly"],
        [line[:half] + b"\t" + line[half + 1 :]],
        [b" ".join(line.split(b" ")[::-1])],
        [b"tic 1"],
    ]


def spoiled(text):
    """The text, and what becomes of it."""
    yield text
    lines = text.split(b"\n")[:-1]
    for at, line in enumerate(lines):
        if not line.startswith(b"#"):
            for replacing in variants(line):
                yield b"\n".join(lines[:at] + replacing + lines[at + 1 :]) + b"\n"
            yield b"\n".join([*lines[:at], line])
