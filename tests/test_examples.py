"""The jobs of `examples/`, each of which has to print the report beside it."""

import unittest

from fixtures import EXAMPLES, SiteTest, tests_of


@tests_of([(path.stem, path) for path in sorted(EXAMPLES.glob("*.job"))])
class Examples(SiteTest):
    """Jobs with their reports."""

    def check(self, job):
        due = job.with_suffix(".report").read_text()
        self.assert_told(f"{due}status 0", self.told("serial", text=job.read_bytes()))


if __name__ == "__main__":
    unittest.main()
