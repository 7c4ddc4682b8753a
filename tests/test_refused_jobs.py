"""Bad jobs, which the program refuses at their first bad line."""

import unittest

from fixtures import SiteTest, tests_of
from refused_texts import TABLE


@tests_of(TABLE)
class RefusedJobs(SiteTest):
    """The line and the kind that are told, and the status."""

    def check(self, due, text):
        self.assert_told(due, self.told("serial", text=text))


if __name__ == "__main__":
    unittest.main()
