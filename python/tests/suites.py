"""The suites of tests: of the tools, and of frames. A warning is an error in all. A test that can't run here says why.

Frames need pandas and the library. They and tools/answers need a built program. Variables of the environment say how
much is drawn at random: tools/check-answers and tools/check-frames set them.
"""
import importlib.util
import os
import sys
import unittest
import warnings
from pathlib import Path
from typing import Dict, List, Type

from ruzgalt import which

HERE = Path(__file__).resolve().parent
TOP = HERE.parents[1]
# The tests of frames that need neither pandas nor a program.
ALONE = "test_without_pandas"
# Random frames bring warnings of possible mistakes too.
RANDOM = "labels|test_random_|test_split|test_hostile|test_rows|test_classes|test_threads"


class LeftOut(unittest.TestCase):
    """Replaces tests that can't run here."""

    def __init__(self, name: str, reason: str) -> None:
        super().__init__()
        self.name, self.reason = name, reason

    def runTest(self) -> None:
        self.skipTest(self.reason)

    def __str__(self) -> str:
        return self.name


class OfTools(unittest.TestSuite):
    """Tests that take each warning for an error."""

    def run(self, result: unittest.TestResult, debug: bool = False) -> unittest.TestResult:
        with warnings.catch_warnings():
            self.set_filters()
            return super().run(result, debug)

    def set_filters(self) -> None:
        warnings.simplefilter("error")


class OfFrames(OfTools):
    """Tests that take a warning for an error if a line of the package causes it: other packages may warn too."""

    def set_filters(self) -> None:
        warnings.filterwarnings("error", module=r"ruzgalt\.")
        if has_pandas():
            from ruzgalt import Doubt
            warnings.filterwarnings("error", category=Doubt)
            warnings.filterwarnings("ignore", category=Doubt, module=RANDOM)


KINDS: Dict[str, Type[unittest.TestSuite]] = {"tools": OfTools, "frames": OfFrames}


def has_pandas() -> bool:
    return importlib.util.find_spec("pandas") is not None


def of_all(loader: unittest.TestLoader) -> unittest.TestSuite:
    """The tests of the tools and of frames, as unittest discovers them."""
    set_environment()
    return unittest.TestSuite(of_module(kind, module, loader) for kind in KINDS for module in modules_of(kind))


def set_environment() -> None:
    """Sets what tools/check-frames sets, also for the processes that tests start."""
    path = [str(TOP / "python"), *filter(None, [os.environ.get("PYTHONPATH")])]
    os.environ["PYTHONPATH"] = os.pathsep.join(path)
    for threads in ("OMP_NUM_THREADS", "OPENBLAS_NUM_THREADS"):
        os.environ.setdefault(threads, "1")
    files = {"DIPQ": "crates/dipq/out/dipq", "DIPQ_LIVE": "crates/dipq_live/out/dipq_live",
             "RUZGALT_LIBRARY": f"out/{which.LIBRARY}"}
    for (variable, file), crate in zip(files.items(), ("dipq", "dipq_live", "libruzgalt")):
        if which.is_built(crate):
            os.environ.setdefault(variable, str(TOP / file))


def modules_of(kind: str) -> List[str]:
    """The modules of a suite, the largest first, since these take longest."""
    if kind == "frames" and missing_to_frames():
        return [ALONE, kind]
    files = HERE.glob("test_*.py" if kind == "tools" else "frames/test_*.py")
    found = sorted(files, key=lambda file: -file.stat().st_size)
    return [f"tests.{file.stem}" if kind == "tools" else file.stem for file in found]


def of_module(kind: str, module: str, loader: unittest.TestLoader = unittest.defaultTestLoader) -> unittest.TestSuite:
    """The tests of a module of a suite. A module may leave itself out if a package isn't installed."""
    if kind == "frames" and str(HERE / kind) not in sys.path:
        # Modules of these tests find one another by their folder.
        sys.path.insert(0, str(HERE / kind))
    suite = KINDS[kind]
    if module == kind:
        return suite([LeftOut(kind, missing_to_frames())])
    if kind == "tools" and "answers" in module and missing_program():
        return suite([LeftOut(module, missing_program())])
    try:
        return suite([loader.loadTestsFromName(module)])
    except unittest.SkipTest as reason:
        return suite([LeftOut(module, str(reason))])


def missing_to_frames() -> str:
    """Returns the missing package of tests of frames, and how to install it, or an empty text."""
    if not has_pandas():
        return "pandas isn't installed: apt-get install python3-pandas"
    return missing_program() or missing_library()


def missing_program() -> str:
    return "" if "DIPQ" in os.environ else "no program is built: ./dipq </dev/null builds it"


def missing_library() -> str:
    return "" if "RUZGALT_LIBRARY" in os.environ else "no library is made: `make library` makes it"
