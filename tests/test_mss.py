"""The script `mss`, on a copy of it without a program: its usage, a machine without rt, and builds that only tell what
a real one does."""

import shutil
import unittest
from pathlib import Path

from fixtures import TOP, Test, new_folder, run

USAGE = """usage: mss serial <JOB         runs a job, and prints its report; docs/JOBS.md tells how to write one
       mss policy RULES <JOB   the same, by rules of replacement; docs/POLICIES.md tells which there are
       mss compare <JOB        what four such choices bring about, on devices in memory
       mss threads <JOB        the same, with a thread for each host and each recorder
       mss show                lists the volumes that the jobs so far left in mss.site
       mss audit               lists all that is wrong with mss.site; docs/SITES.md tells what to do
"""
NO_RT = "mss: there is no rt on the PATH, which has to prove and build mss_cli first\n"
BUILDING = "mss: proving low, crate 1 of 3, 0 minutes so far\n"
# All that the script may find on the PATH.
NEEDED = ["bash", "env", "dirname", "readlink", "find", "date", "mkdir", "touch", "grep", "chmod"]
# A build that tells lines of a real one, and ends with a status.
BUILD = r"""#!/usr/bin/env bash
echo 'mss: proving low, crate 1 of 3, 0 minutes so far' >&2
echo 'fn low::one: proved'
mkdir -p "{out}"
printf '#!/usr/bin/env bash\nexit 6\n' >"{out}/mss_cli"
chmod +x "{out}/mss_cli"
exit {status}
"""


def write_script(path, text):
    path.write_text(text)
    path.chmod(0o755)


class Script(Test):
    """What the script tells, and how it ends."""

    def setUp(self):
        folder = new_folder()
        self.addCleanup(folder.cleanup)
        self.place = Path(folder.name)
        self.out = self.place / "crates/mss_cli/out"
        for name in ("crates/mss_cli/src", "crates/mss_cli/specs", "crates/mss_cli/proofs", "bare", "tools"):
            (self.place / name).mkdir(parents=True)
        shutil.copy(TOP / "mss", self.place)
        for name in ("crates.txt", "crates/mss_cli/src/main.rt"):
            (self.place / name).touch()
        for name in NEEDED:
            (self.place / "bare" / name).symlink_to(shutil.which(name))

    def check(self, status, errors, *words):
        ran = run([self.place / "mss", *words], None, env={"PATH": str(self.place / "bare")})
        self.assert_told(errors, ran.stderr.decode())
        self.assertEqual(ran.returncode, status)

    def give_rt(self):
        write_script(self.place / "bare/rt", "#!/usr/bin/env bash\n")

    def give_build(self, status):
        write_script(self.place / "tools/build", BUILD.format(out=self.out, status=status))

    def test_no_words(self):
        self.check(1, USAGE)
        self.assertFalse(self.out.exists(), "something was built")

    def test_a_call_for_help(self):
        self.check(0, USAGE, "--help")
        self.assertFalse(self.out.exists(), "something was built")

    def test_no_rt(self):
        self.check(125, NO_RT, "serial")
        self.assertFalse(self.out.exists(), "something was built")

    def test_a_failed_build(self):
        self.give_rt()
        self.give_build(1)
        self.check(125, f"{BUILDING}mss: the build failed; {self.out}/build.log says why\n", "serial")

    def test_a_build(self):
        self.give_rt()
        self.give_build(0)
        self.check(6, BUILDING, "serial")
        self.check(6, "", "serial")
        self.assertIn("fn low::one: proved\n", (self.out / "build.log").read_text())


if __name__ == "__main__":
    unittest.main()
