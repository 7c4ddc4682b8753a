"""The program at its edge, which no clause sees whole: words that are no command, an output that takes nothing, an
input without an end, and less and less memory."""

import resource
import unittest

from fixtures import CRATE, SiteTest, remove_site, tests_of, told_by

JOB = CRATE / "stdin"
REPORT = CRATE / "stdout"
NOT_LOADED = 127  # the loader's status, where it has too little memory to begin the program
# The room for the blocks that a site keeps takes 5,168 of them, whether it is used or not.
KILOBYTES = [100, 200, 300, 400, 800, 2000, 4000, 5150, 5200, 5250, 5300, 5350, 5400, 5500, 5600, 5800, 6000, 8000, 64000]
REFUSED = "words refused\nstatus 1"


class Edges(SiteTest):
    """Words, outputs and inputs."""

    def test_no_word(self):
        self.assert_told(REFUSED, self.told(text=JOB.read_bytes()))

    def test_a_word_too_many(self):
        self.assert_told(REFUSED, self.told("serial", "serial", text=JOB.read_bytes()))

    def test_its_stored_run(self):
        self.assert_told(f"{REPORT.read_text()}status 0", self.told("serial", text=JOB.read_bytes()))

    def test_a_full_device(self):
        with open("/dev/full", "wb") as full:
            self.assertEqual(self.ran("serial", text=JOB.read_bytes(), stdout=full).returncode, 7)

    def test_an_input_without_an_end(self):
        """No more is read than tells that a job is too big."""
        with open("/dev/zero", "rb") as zeros:
            self.assert_told("job refused line 0 TooBig\nstatus 3", self.told("serial", stdin=zeros))


@tests_of([("serial", "serial"), ("threads", "threads")])
class LittleMemory(SiteTest):
    """Whatever memory there is, a run puts the whole report and ends with 0, or tells the want of memory, or puts
    nothing, and ends with 8. In threads too, a run that memory leaves in the midst has to end."""

    def check(self, word):
        seen = set()
        for kilobytes in KILOBYTES:
            remove_site(self.folder)
            seen.add(self.outcome(word, kilobytes))
        self.assertLessEqual({"nothing", "whole"}, seen)

    def outcome(self, word, kilobytes):
        limit = 1024 * kilobytes

        def limited():
            resource.setrlimit(resource.RLIMIT_DATA, (limit, limit))

        ran = self.ran(word, text=JOB.read_bytes(), preexec_fn=limited)
        if ran.returncode == NOT_LOADED:
            return "not loaded"
        outcomes = {
            "status 8": "nothing",
            "want of memory\nstatus 8": "wanting",
            f"{REPORT.read_text()}status 0": "whole",
        }
        told = told_by(ran)
        self.assertIn(told, outcomes, f"with {kilobytes} kilobytes")
        return outcomes[told]


if __name__ == "__main__":
    unittest.main()
