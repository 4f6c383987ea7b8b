"""Which program answers scripts, which library answers the calls of frames, and which version all of this is."""
import os
import shutil
import signal
import subprocess
import sys
import time
from datetime import datetime, timezone
from functools import lru_cache
from pathlib import Path
from typing import List, Optional

from ruzgalt.errors import Stopped

# The folder that has python/: a clone, or what `make install` made.
TOP = Path(__file__).resolve().parents[2]
# A wheel has the programs and the library in the package.
WITHIN = Path(__file__).resolve().with_name("bin")
LIBRARY = "libruzgalt.so"
# A built or installed package has its version in this file; a clone hasn't.
WRITTEN = Path(__file__).with_name("VERSION")


def program() -> str:
    """The program that DIPQ names in the environment, or the one that came with the package, or dipq on the PATH."""
    return os.environ.get("DIPQ") or own() or shutil.which("dipq") or "dipq"


def live() -> str:
    """The program that stays alive: the one that DIPQ_LIVE names in the environment, or the one next to the program."""
    return os.environ.get("DIPQ_LIVE") or f"{program()}-live"


def library() -> str:
    """The library that RUZGALT_LIBRARY names, or the one that came with the package, or the clone's."""
    return os.environ.get("RUZGALT_LIBRARY") or own(LIBRARY) or str(TOP / "out" / LIBRARY)


def own(name: str = "dipq") -> Optional[str]:
    """The program or library that came with the package: within it, or next to the folder python/."""
    return next((str(place / name) for place in (WITHIN, TOP) if (place / name).is_file()), None)


def crate_of(command: str) -> str:
    """The crate of a clone's own command or library, or nothing for another one.

    A clone's command checks all sources before each run, and builds the program if they have changed.
    """
    crates = {"dipq": "dipq", "dipq-live": "dipq_live", f"out/{LIBRARY}": "libruzgalt"}
    own = {str(TOP / file): crate for file, crate in crates.items()}
    return own.get(command, "") if (TOP / "crates").is_dir() else ""


def is_built(crate: str = "dipq") -> bool:
    """Whether the clone's program or library is built from the sources that are there.

    The sources are read once a second at most, since that takes ten times as long as a short answer.
    """
    return is_built_at(TOP, crate, int(time.monotonic()))


@lru_cache(maxsize=3)
def is_built_at(top: Path, crate: str, second: int) -> bool:
    words = [str(top / "tools" / "is-built"), str(top), crate]
    try:
        return subprocess.run(words, stdout=subprocess.DEVNULL, stderr=subprocess.DEVNULL).returncode == 0
    except FileNotFoundError:
        return False
    except OSError as error:
        raise Stopped(f"{words[0]} couldn't look whether {crate} is built: {error.strerror}") from None


def words_of(command: str) -> List[str]:
    """Returns what runs a program. A clone's is built, as is_built found."""
    crate = crate_of(command)
    return [str(TOP / "tools" / "with-allocator"), str(TOP / "crates" / crate / "out" / crate)] if crate else [command]


IS_INSTALLED = Path("".join(sys.argv[:1])).name.startswith("dipq-")
ANSWERS, LOAD, PROGRAM = (
    ("dipq-answers", "dipq-load", "dipq") if IS_INSTALLED else ("tools/answers", "tools/csv-to-load", "./dipq")
)
# What a tool says begins with its name.
ANSWERS_SAY, LOAD_SAYS = Path(ANSWERS).name, Path(LOAD).name


def dipq() -> int:
    return become("dipq")


def dipq_live() -> int:
    return become("dipq-live")


def become(name: str) -> int:
    """Becomes a program that came with the package, so that its signals and its status are what the caller sees."""
    file = own(name)
    if file is None:
        sys.exit(f"{name}: the package has no program: install its wheel, or call {name} by its path")
    # Python ignores these signals, and the program would inherit that.
    for ignored in (signal.SIGPIPE, signal.SIGXFSZ):
        signal.signal(ignored, signal.SIG_DFL)
    try:
        os.execv(file, [file, *sys.argv[1:]])
    except OSError as error:
        sys.stderr.write(f"{file}: {error.strerror}\n")
        return 3


def version() -> str:
    """Returns the version: one for all that is made of a commit, the commit's time in UTC, as 20241231.235959.

    It is in the package's file. Otherwise it is the time of SOURCE_DATE_EPOCH, or of the clone's last commit, with
    +changed if files were changed since.
    """
    if WRITTEN.is_file():
        return WRITTEN.read_text().strip()
    set_time = os.environ.get("SOURCE_DATE_EPOCH")
    if set_time:
        return of_time(int(set_time))
    # A package in another project's folder isn't of that project's commit.
    if (TOP / ".git").exists() and (TOP / "crates").is_dir():
        try:
            is_changed = git("--no-optional-locks", "status", "--porcelain")
            return of_time(int(git("log", "-1", "--format=%ct"))) + "+changed" * bool(is_changed)
        except (OSError, subprocess.CalledProcessError):
            pass
    return "0+unknown"


def of_time(seconds: int) -> str:
    """Returns the version of a time, without zeros before the time of day, which pip drops too."""
    moment = datetime.fromtimestamp(seconds, timezone.utc)
    return f"{moment:%Y%m%d}.{int(f'{moment:%H%M%S}')}"


def git(*words: str) -> str:
    ran = subprocess.run(["git", "-C", str(TOP), *words], stdout=subprocess.PIPE, stderr=subprocess.DEVNULL, check=True)
    return ran.stdout.decode()
