"""All tests of Python, so that `python3 -m unittest discover` runs them here too."""
import sys
from pathlib import Path

sys.path.insert(0, str(Path(__file__).resolve().parent / "python"))

from tests import load_tests  # noqa: E402

__all__ = ["load_tests"]
