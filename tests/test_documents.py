"""Compares the documents with the repository: each definition that docs/PROMISE.md quotes stands in the file that it
names, each wrong body that it names is a must-fail edit of that crate, each link of a document leads to a file, and
each name in code that a document about the repository has is that of something in the repository.
"""

import re
import unittest

from fixtures import CASES, TOOLS, TOP, Test, run, tests_of
from refused_texts import REFUSED
from test_audit_drawn import DRAWN as DRAWN_SITES
from test_copies import RUNS as COPIED_RUNS
from test_images import UNFIT
from test_model import DRAWN
from test_threads import RUNS
from test_worked_jobs import ROWS

DOCUMENTS = [TOP / "README.md", TOP / "benches/README.md", *sorted((TOP / "docs").glob("*.md"))]
PROMISE = TOP / "docs/PROMISE.md"
PROVED = (TOP / "docs/PROVED.md").read_text()
SITES = sorted((CASES / "spoiled").glob("*.site"))
# Those that tell of the repository as it is. The others speak of jobs and formats, or of what proving taught.
ABOUT_CODE = ["ANSWERS", "ARCHITECTURE", "DECISIONS", "PROMISE", "PROVED", "TESTING"]
NAME = r"[A-Za-z_][A-Za-z0-9_]*"
SCRIPTS = ["tests", "tools", "benches"]
PARTS = ["src", "specs", "proofs", "must-fail"]


def words_of(text):
    return " ".join(text.split())


def names_of_repository():
    """Every word of the sources and scripts, and every part of a path."""
    files = [TOP / "crates.txt", *(path for folder in SCRIPTS for path in (TOP / folder).rglob("*"))]
    for folder in PARTS:
        files += (TOP / "crates").glob(f"*/{folder}/**/*")
    names = {"HANDLES"}
    for file in files:
        names.update(re.split(r"[/.]", str(file.relative_to(TOP))))
        if file.is_file():
            names.update(re.findall(NAME, file.read_text(errors="replace")))
    return names


class Quotes(Test):
    """What docs/PROMISE.md says of files."""

    def test_quotes_stand_in_their_files(self):
        quotes = re.findall(r"^File: `([^`]+)`\n\n((?:    .*\n|\n(?=    ))+)", PROMISE.read_text(), re.M)
        self.assertTrue(quotes, "docs/PROMISE.md quotes nothing")
        for name, quote in quotes:
            self.assertTrue((TOP / name).is_file(), f"there is no {name}")
            is_there = words_of(quote) in words_of((TOP / name).read_text())
            self.assertTrue(is_there, f"{name} says otherwise than {words_of(quote)[:60]}..")

    def test_wrong_bodies_are_edits(self):
        named = re.findall(r"`(\w+)` of (\w+)", words_of(PROMISE.read_text()))
        edits = [f"crates/{crate}/must-fail/{edit}.edit" for edit, crate in named]
        self.assertEqual([edit for edit in edits if not (TOP / edit).is_file()], [])


def anchors_of(document):
    """What a link can name of a document: its headings, as they are spelled there."""
    headings = re.findall(r"^#+ (.*)$", document.read_text(), re.M)
    return {re.sub(r"[^a-z0-9 _-]", "", heading.lower()).replace(" ", "-") for heading in headings}


def is_dead(document, link):
    """Whether a link of a document leads to no file of the repository, or to no heading there."""
    name, _, anchor = link.partition("#")
    target = document.parent / name if name else document
    return not target.exists() or (anchor != "" and anchor not in anchors_of(target))


@tests_of([(str(path.relative_to(TOP)), path) for path in DOCUMENTS])
class Links(Test):
    """Links to files of the repository, and to headings in them, lead there."""

    def check(self, document):
        links = re.findall(r"\]\(([^)\s]+)\)", document.read_text())
        self.assertEqual([link for link in links if "://" not in link and is_dead(document, link)], [])


def refused_sites():
    """How many spoiled sites a look or a run refuses."""
    return sum(bool(re.search(r"^(show|serial) 4$", path.read_text(), re.M)) for path in SITES)


# What docs/TESTING.md tells of the tests, where the first words stand before the count, and how many there are.
COUNTS = [
    ("worked jobs", r"(\d+) worked jobs", len(ROWS)),
    ("bad jobs", r"(\d+) bad jobs", len(REFUSED)),
    ("drawn jobs", r"(\d+) (?:drawn jobs|jobs drawn)", DRAWN),
    ("drawn sites", r"(\d+) drawn sites", DRAWN_SITES),
    ("runs in threads", r"(\d+) drawn runs of threads", RUNS),
    ("copies in threads", r"(\d+) copies of drawn jobs in threads", COPIED_RUNS),
    ("refused sites", r"(\d+) (?:are|have to be) refused by their first fault", refused_sites()),
    ("sound sites", r"and (\d+) are sound still", len(SITES) - refused_sites()),
    ("images", r"(\d+) kinds of images that can't be carried", len(UNFIT)),
]


@tests_of(COUNTS)
class Counts(Test):
    """Counts of tests are right."""

    def check(self, pattern, count):
        told = re.findall(pattern, words_of((TOP / "docs/TESTING.md").read_text()))
        self.assertTrue(told, "the document tells no such count")
        self.assertEqual(set(told), {str(count)})


class Figures(Test):
    """Those of crates are what tools/figures counts; with --renew it puts them there."""

    def test_figures_of_crates(self):
        counted = run([TOOLS / "figures"], None).stdout.decode()
        self.assert_told(counted, PROVED[PROVED.index("## Figures") :])


class Names(Test):
    """Names in code are those of something in the repository."""

    def test_names_are_known(self):
        names = names_of_repository()
        unknown = []
        for document in ABOUT_CODE:
            for told in re.findall(r"`([^`\n]+)`", (TOP / f"docs/{document}.md").read_text()):
                if re.fullmatch(rf"{NAME}(::{NAME})*", told) and not names.issuperset(told.split("::")):
                    unknown.append(f"{document}: {told}")
        self.assertEqual(unknown, [])


class Families(Test):
    """Each crate stands in the list of families, once."""

    def test_each_crate_once(self):
        listed = re.findall(r"^- `(\w+)`:", (TOP / "crates/README.md").read_text(), re.M)
        crates = [folder.name for folder in (TOP / "crates").iterdir() if folder.is_dir()]
        self.assertEqual(sorted(listed), sorted(crates))


if __name__ == "__main__":
    unittest.main()
