"""Bad jobs, each with the line and the kind that refuse it."""

HEAD = "mss 1 frames 1 recorders 1\n"
HOST = f"{HEAD}volume 0 VOL001\nhost 1\n"
OPEN = f"{HOST}program\n"

# All arguments together have 268,435,456 bytes at most: here 4,079 of 65,798 bytes, and one of 45,414.
LONGEST = "ccw 03 fill 00 65798\n"
FULL = HOST + 15 * f"program\n{256 * LONGEST}end\n" + "program\n" + 239 * LONGEST

# The longest text has 4,194,304 bytes.
SKIPPED = f"#{1022 * 'x'}\n"  # of 1,024 bytes
BIG = 4095 * SKIPPED

REFUSED = [
    # Each kind of refusal.
    (1, "BadByte", "mss 1 frames\t1 recorders 1\ndone\n"),
    (2, "BadByte", f"{HEAD}done\x7f\n"),
    (2, "BadByte", f"{HEAD}\x80\ndone\n"),
    (3, "BadByte", f"{HEAD}volume 0 VOL001\nhost 1\0\ndone\n"),
    (3, "After", f"{HEAD}done\nhost 1\n"),
    (3, "After", f"{HEAD}done\ndone\n"),
    (4, "After", f"{HEAD}done\n# skipped\nx\n"),
    (1, "Unknown", "done\n"),
    (2, "Unknown", f"{HEAD}mss 1 frames 1 recorders 1\n"),
    (2, "Unknown", f"{HEAD} done\n"),
    (5, "Unknown", f"{OPEN}mount VOL001\n"),
    (1, "Shape", "mss 1 frames 01 recorders 1\n"),
    (1, "Shape", "mss 1 frames 1 recorders 1 \n"),
    (2, "Shape", f"{HEAD}volume 0 vol001\n"),
    (2, "Shape", f"{HEAD}volume 0  VOL001\n"),
    (2, "Shape", f"{HEAD}volume 0 VOL001 writable\n"),
    (2, "Shape", f"{HEAD}volume 0 VOL001 readonly readonly\n"),
    (2, "Shape", f"{HEAD}volume 0 readonly\n"),
    (4, "Shape", f"{HOST}mount VOL001 bound\n"),
    (5, "Shape", f"{OPEN}ccw 0\n"),
    (5, "Shape", f"{OPEN}ccw 07 000\n"),
    (5, "Shape", f"{OPEN}ccw 1D fill 00\n"),
    (1, "Range", "mss 2 frames 1 recorders 1\n"),
    (1, "Range", "mss 1 frames 201 recorders 1\n"),
    (1, "Range", "mss 1 frames 1 recorders 0\n"),
    (2, "Range", f"{HEAD}volume 32 VOL001\n"),
    (2, "Range", f"{HEAD}volume 32 VOL001 readonly\n"),
    (2, "Range", f"{HEAD}host 9\n"),
    (5, "Range", f"{OPEN}tic 256\n"),
    (5, "Range", f"{OPEN}ccw 1D fill 00 65799\n"),
    (3, "Twice", f"{HEAD}volume 0 VOL001\nvolume 0 VOL002\n"),
    (3, "Twice", f"{HEAD}volume 0 VOL001\nvolume 1 VOL001\n"),
    (3, "Twice", f"{HEAD}volume 0 VOL001\nvolume 0 VOL001 readonly\n"),
    (4, "Twice", f"{HOST}host 1\n"),
    (4, "Absent", f"{HOST}mount VOL002\n"),
    (3, "Absent", f"{HEAD}host 1\nmount VOL001\n"),
    (5, "Absent", f"{HOST}mount VOL001\nmount VOL00A bind\n"),
    (5, "Count", f"{OPEN}end\n"),
    (261, "Count", OPEN + 256 * "ccw 03\n" + "ccw 03\nend\n"),
    (1028, "Count", HOST + 1024 * "demount\n" + "demount\n"),
    (1028, "Count", HOST + 1024 * "demount\n" + "program\n"),
    (5, "Count", f"{OPEN}ccw 1D 00 fill 00 65798\n"),
    (1, "Ended", ""),
    (2, "Ended", HEAD),
    (5, "Ended", OPEN),
    (5, "Ended", OPEN.removesuffix("\n")),
    # Lines that begin like a command in its commonest spelling.
    (4, "Unknown", f"{HOST}ccw 03\n"),
    (5, "Shape", f"{OPEN}ccw 0300\n"),
    (5, "Shape", f"{OPEN}ccw 03 0\n"),
    (5, "Shape", f"{OPEN}ccw 03  00\n"),
    (6, "Ended", f"{OPEN}ccw 03 fill 00 1\n"),
    # Jobs without a volume, and with lines that are skipped.
    (2, "BadByte", f"{HEAD}host\t1\n"),
    (4, "After", f"{HEAD}done\n\nhost 1\n"),
    (2, "Unknown", "# first\nhost 1\n"),
    (3, "Twice", f"{HEAD}host 1\nhost 1\n"),
    (4, "Count", f"{HEAD}host 1\nprogram\nend\n"),
    (3, "Ended", f"{HEAD}host 1\n"),
    # The arguments of a job together.
    (4114, "Count", f"{FULL}ccw 03 fill 00 45415\n"),
    (4115, "Ended", f"{FULL}ccw 03 fill 00 45414\n"),
    # Of two kinds in a line the earlier is told, and of two lines the first.
    (3, "BadByte", f"{HEAD}done\nhost\t1\n"),
    (3, "After", f"{HEAD}done\nnothing of the kind\n"),
    (2, "Unknown", f"{HEAD}mount vol001 \n"),
    (1, "Shape", "mss 2 frames 1 recorder 1\n"),
    (2, "Shape", f"{HEAD}volume 32 VOL001 read-only\n"),
    (3, "Range", f"{HEAD}volume 0 VOL001\nvolume 32 VOL001\n"),
    (1, "Range", "mss 1 frames 0 recorders 1\nx\n"),
    (1028, "Absent", HOST + 1024 * "demount\n" + "mount VOL002\n"),
    # More than the longest text are told before all others; exactly so many bytes are read.
    (0, "TooBig", 4096 * f"#{1023 * 'x'}\n"),
    (0, "TooBig", HEAD + BIG + 1025 * "\n"),
    (0, "TooBig", "x" + 4096 * SKIPPED),
    (4097, "Ended", 4096 * SKIPPED),
]

# The same by name: the kind, and the number in the table.
TABLE = [
    (f"{number:02} {kind}", f"job refused line {line} {kind}\nstatus 3", text.encode("latin-1"))
    for number, (line, kind, text) in enumerate(REFUSED, 1)
]
