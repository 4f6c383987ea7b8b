"""A scheduler of Dask and workers, each a process of its own, on the loopback."""
import os
import signal
import subprocess
import sys
import tempfile
from pathlib import Path

import ruzgalt
from processes import wait_for

COMMON = ["--no-dashboard"]
HERE = Path(__file__).resolve().parent
PACKAGE = Path(ruzgalt.__file__).resolve().parents[1]


def environment():
    """In which a worker finds the package, and the modules of tests, too."""
    path = [str(HERE), str(PACKAGE), *filter(None, [os.environ.get("PYTHONPATH")])]
    return {**os.environ, "PYTHONPATH": os.pathsep.join(path)}


class Cluster:
    """Used as a context: the processes end with it."""

    def __init__(self, workers):
        self.folder = tempfile.TemporaryDirectory(prefix="frames-")
        self.count, self.processes, self.workers = workers, [], []

    def __enter__(self):
        # An address file has the port that the system chose.
        file = Path(self.folder.name) / "scheduler.json"
        self.start("dask_scheduler", "--host", "127.0.0.1", "--port", "0", "--scheduler-file", str(file))
        if not wait_for(lambda: file.exists() and file.stat().st_size, 60):
            raise RuntimeError(self.said())
        self.file = str(file)
        for _ in range(self.count):
            self.add_worker()
        return self

    def __exit__(self, *_):
        for process in self.processes:
            process.send_signal(signal.SIGKILL)
        for process in self.processes:
            process.wait()
        self.folder.cleanup()

    def start(self, module, *words, **variables):
        log = Path(self.folder.name) / f"{module}-{len(self.processes)}.log"
        with log.open("wb") as said:
            words = [sys.executable, "-m", f"distributed.cli.{module}", *COMMON, *words]
            env = {**environment(), **variables}
            self.processes.append(subprocess.Popen(words, stdout=said, stderr=said, cwd=self.folder.name, env=env))
        return self.processes[-1]

    def add_worker(self, *words, **variables):
        """A worker with these words more, and variables of its environment."""
        usual = ["--nthreads", "1", "--no-nanny", "--memory-limit", "1GB", "--local-directory", self.folder.name]
        given = ["--scheduler-file", self.file, *usual, *words]
        self.workers.append(self.start("dask_worker", *given, **variables))

    def kill(self, process):
        """Kills a worker at once."""
        os.kill(process.pid, signal.SIGKILL)
        process.wait()
        self.workers.remove(process)

    def said(self):
        return "\n".join(log.read_text()[-2000:] for log in sorted(Path(self.folder.name).glob("*.log")))
