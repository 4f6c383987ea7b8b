"""Modules import one way: folders of the package have an order, and a module imports only from earlier ones."""
import ast
import unittest
from pathlib import Path
from typing import Dict, Iterator, Set

from tests.support import TOP

PACKAGE = TOP / "python" / "ruzgalt"
# Modules at the top come first. Frames and stores need pandas, and import from all of these.
ORDER = ["", "kernel", "script", "lint", "load", "report", "cli"]


def modules() -> Iterator[Path]:
    return (file for file in sorted(PACKAGE.rglob("*.py")) if file.parent.name in ORDER)


def folder_of(name: str) -> str:
    """Returns the folder of a module that is imported."""
    parts = name.split(".")[1:]
    return parts[0] if parts and parts[0] in ORDER else ""


def imported_by(file: Path) -> Set[str]:
    """Returns the modules of the package that a file imports; a name of a module counts as it."""
    found = set()
    for node in ast.walk(ast.parse(file.read_text(encoding="utf-8"))):
        if isinstance(node, ast.ImportFrom) and (node.module or "").split(".")[0] == "ruzgalt":
            for name in node.names:
                whole = f"{node.module}.{name.name}"
                is_module = (PACKAGE.parent / f"{whole.replace('.', '/')}.py").is_file()
                found.add(whole if is_module else str(node.module))
    return found


class Imports(unittest.TestCase):
    def test_a_folder_imports_only_from_those_before_it(self) -> None:
        for file in modules():
            own = ORDER.index(file.relative_to(PACKAGE).parts[0])
            for name in imported_by(file):
                with self.subTest(file.name, imports=name):
                    self.assertLessEqual(ORDER.index(folder_of(name)), own)

    def test_frames_import_nothing_of_stores(self) -> None:
        for file in PACKAGE.joinpath("frames").glob("*.py"):
            self.assertEqual([name for name in imported_by(file) if name.startswith("ruzgalt.store")], [], file)

    def test_no_module_imports_itself_through_others(self) -> None:
        graph = {name_of(file): imported_by(file) for file in modules()}
        for name in graph:
            self.assertNotIn(name, reached(graph, name))

    def test_no_two_modules_of_the_tools_have_one_name(self) -> None:
        names = [file.stem for file in modules() if file.stem not in ("__init__", "answers")]
        self.assertEqual(len(names), len(set(names)), sorted(names))


def name_of(file: Path) -> str:
    return "ruzgalt." + ".".join(file.relative_to(PACKAGE).with_suffix("").parts)


def reached(graph: Dict[str, Set[str]], name: str) -> Set[str]:
    """Returns all modules that a module imports, itself or through others."""
    found: Set[str] = set()
    new = set(graph.get(name, ()))
    while new:
        found |= new
        new = {other for one in new for other in graph.get(one, ())} - found
    return found


if __name__ == "__main__":
    unittest.main()
