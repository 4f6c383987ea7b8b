"""Puts the programs and the library into the wheel, and says on which machines they run; see pyproject.toml."""
import atexit
import re
import shutil
import subprocess
import sys
import tempfile
from pathlib import Path
from platform import machine
from typing import Tuple

from setuptools import Distribution, setup
from setuptools.command.build_py import build_py

try:
    from setuptools.command.bdist_wheel import bdist_wheel
except ImportError:  # Before setuptools 70 it was of the package wheel.
    from wheel.bdist_wheel import bdist_wheel

TOP = Path(__file__).resolve().parent
# The programs by their commands.
CRATES = {"dipq": "dipq", "dipq-live": "dipq_live"}
PROGRAMS = {name: TOP / "crates" / crate / "out" / crate for name, crate in CRATES.items()}
LIBRARY = TOP / "out" / "libruzgalt.so"
BUILT = [*PROGRAMS.values(), LIBRARY]
sys.path.insert(0, str(TOP / "python"))

from ruzgalt.which import version  # noqa: E402


class Package(Distribution):
    """It goes to the folder for what runs on one kind of machine."""

    def has_ext_modules(self) -> bool:
        return True


class WithProgram(build_py):
    """The package's files, the programs, their commands, the library and the version. In place it has a clone's."""

    def run(self) -> None:
        if not self.editable_mode:
            refuse_unbuilt()
        super().run()
        if not self.editable_mode:
            package = Path(self.build_lib, "ruzgalt")
            (package / "VERSION").write_text(f"{version()}\n")
            for name, program in PROGRAMS.items():
                add_program(package, name, program)
            shutil.copyfile(LIBRARY, package / "bin" / LIBRARY.name)


class OfPlatform(bdist_wheel):
    """A wheel of any Python, for the machines that the programs and the library run on."""

    def get_tag(self) -> Tuple[str, str, str]:
        return "py3", "none", platform() if all(map(Path.is_file, BUILT)) else "any"


def refuse_unbuilt() -> None:
    """Ends if a program or the library isn't built, or is built from other sources than those that are here."""
    builds = {crate: (name, f"./{name} </dev/null") for name, crate in CRATES.items()}
    for crate, (name, build) in {**builds, "libruzgalt": (LIBRARY.name, "make library")}.items():
        if subprocess.run([TOP / "tools" / "is-built", TOP, crate], stderr=subprocess.DEVNULL).returncode:
            sys.exit(f"ruzgalt: a wheel has {name} in it, which isn't built here: `{build}` builds it")


def add_program(package: Path, name: str, built: Path) -> None:
    """Puts a program and the command that runs it into the package."""
    command, program = package / "bin" / name, package / "libexec" / name
    for place in (command, program):
        place.parent.mkdir(exist_ok=True)
    shutil.copyfile(built, program)
    words = [str(TOP / "tools" / "command-of"), f"../libexec/{name}"]
    command.write_bytes(subprocess.run(words, stdout=subprocess.PIPE, check=True).stdout)
    for place in (command, program):
        place.chmod(0o755)


def platform() -> str:
    """Machines with this processor, and a C library that has all calls of the programs and the library."""
    data = b"".join(map(Path.read_bytes, BUILT))
    major, minor = max((int(major), int(minor)) for major, minor in re.findall(rb"GLIBC_(\d+)\.(\d+)", data))
    return f"manylinux_{major}_{minor}_{machine()}"


# Nothing is left in the repository, nor taken from what an earlier build left.
built = tempfile.mkdtemp()
atexit.register(shutil.rmtree, built, True)
setup(
    version=version(),
    distclass=Package,
    cmdclass={"build_py": WithProgram, "bdist_wheel": OfPlatform},
    options={"build": {"build_base": built}, "egg_info": {"egg_base": built}},
)
