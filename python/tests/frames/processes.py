"""Which programs a process runs, and waiting."""
import time
from pathlib import Path


def children(pid):
    """The processes that a process started, of all its threads."""
    found = []
    for answered in Path(f"/proc/{pid}/task").glob("*/children"):
        try:
            found += map(int, answered.read_text().split())
        except OSError:
            pass
    return found


def is_running(pid):
    """Whether there is such a process, and it isn't only waited for."""
    try:
        return Path(f"/proc/{pid}/stat").read_text().rpartition(")")[2].split()[0] != "Z"
    except OSError:
        return False


def wait_for(condition, seconds):
    """Whether it came true in that time."""
    end = time.monotonic() + seconds
    while time.monotonic() < end:
        if condition():
            return True
        time.sleep(0.01)
    return False
