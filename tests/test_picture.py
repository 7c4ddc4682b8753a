"""tools/picture: the bars and the marks of three reports are those that were worked out by hand, and stand where they
belong; each example has a picture, which is XML; and those that lie beside a report are drawn of it."""

import unittest
import xml.etree.ElementTree as xml

from fixtures import CASES, EXAMPLES, TOOLS, Test, run, tests_of

SVG = "{http://www.w3.org/2000/svg}"

# Volume, page, frame, and the changes from which and to which it has the frame.
PAGES = {
    "replacement": [(0, 0, 0, 2, 6), (0, 1, 0, 7, 11), (0, 0, 0, 12, None)],
    "bind": [(0, 0, 0, 4, 8), (1, 0, 1, 6, None), (2, 0, 0, 9, None)],
    "earlier": [(0, 3, 5, 0, 2), (0, 4, 5, 3, None)],
}

# Kind, change and cylinder.
MARKS = {
    "replacement": [
        ("staged", 3, 0),
        ("changed", 4, 0),
        ("destaged", 5, 0),
        ("staged", 8, 8),
        ("changed", 9, 8),
        ("destaged", 10, 8),
        ("staged", 13, 0),
    ],
    "bind": [("staged", 5, 0), ("staged", 7, 0), ("staged", 10, 0)],
    "earlier": [("destaged", 1, 31), ("staged", 4, 39)],
}

# A report that begins with a page in its frame.
EARLIER = """MSS REPORT 1
change 1 volume 0 destaged cylinder 31
change 2 volume 0 free page 3 frame 5
change 3 volume 0 assign page 4 frame 5
change 4 volume 0 staged cylinder 39
END
"""

REPORTS = {
    "replacement": (CASES / "replacement.report").read_bytes(),
    "bind": (CASES / "bind.report").read_bytes(),
    "earlier": EARLIER.encode(),
}


def drawing(report):
    """The picture of a report."""
    ran = run([TOOLS / "picture", "-"], None, report)
    if ran.returncode != 0:
        raise AssertionError(ran.stderr)
    return ran.stdout


def numbers(element, *names):
    return tuple(int(element.get(f"data-{name}")) if element.get(f"data-{name}") else None for name in names)


def place(mark):
    """The middle of a mark."""
    x, y = mark.get("transform").removeprefix("translate(").rstrip(")").split(" ")
    return float(x), float(y)


def stands_on(mark, bar):
    x, y = place(mark)
    left, top, width, height = (float(bar.get(name)) for name in ("x", "y", "width", "height"))
    return left <= x <= left + width and top <= y <= top + height


@tests_of([(name, name) for name in REPORTS])
class WorkedPictures(Test):
    """Pictures that were worked out."""

    def check(self, name):
        drawn = xml.fromstring(drawing(REPORTS[name]))
        bars = [element for element in drawn.iter(f"{SVG}rect") if element.get("class") == "page"]
        marks = [element for element in drawn.iter(f"{SVG}path") if element.get("class")]
        pages = [numbers(bar, "volume", "page", "frame", "from", "to") for bar in bars]
        self.assertEqual(sorted(pages, key=str), sorted(PAGES[name], key=str))
        told = [(mark.get("class"), *numbers(mark, "change", "cylinder")) for mark in marks]
        self.assertEqual(sorted(told, key=lambda mark: mark[1]), MARKS[name])
        for mark in marks:
            change, cylinder = numbers(mark, "change", "cylinder")
            pages = [numbers(bar, "page") for bar in bars if stands_on(mark, bar)]
            self.assertEqual(pages, [(cylinder // 8,)], f"change {change} doesn't stand on its page")


@tests_of([(path.stem, path) for path in sorted(EXAMPLES.glob("*.report"))])
class Examples(Test):
    """Pictures of the examples: each entry is drawn, and a picture that lies there is the one that is drawn."""

    def check(self, report):
        picture = drawing(report.read_bytes())
        entries = sum(rect.get("class") == "entry" for rect in xml.fromstring(picture).iter(f"{SVG}rect"))
        self.assertEqual(entries, sum(line.startswith("entry ") for line in report.read_text().splitlines()))
        kept = report.with_suffix(".svg")
        if kept.exists():
            self.assert_told(kept.read_text(), picture.decode())


if __name__ == "__main__":
    unittest.main()
