"""The tests, which `python3 -m unittest discover tests` runs. As a package they find each other all the same."""

import sys
from pathlib import Path

sys.path.insert(0, str(Path(__file__).resolve().parent))
