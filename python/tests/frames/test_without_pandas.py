"""The package without pandas: the modules of the tools work, and frames say which packages to install."""
import os
import subprocess
import sys
import tempfile
import unittest
from pathlib import Path
from unittest import mock

import ruzgalt

TOP = Path(__file__).resolve().parents[3]
# What of a process is everybody's.
HOST = """
import csv, gc, locale, signal, sys, warnings
def host():
    signals = [signal.getsignal(one) for one in signal.valid_signals()]
    settings = csv.field_size_limit(), gc.isenabled(), gc.get_threshold(), locale.setlocale(locale.LC_ALL)
    return settings, signals, warnings.filters[:], sys.path[:]
before = host()"""


class WithoutPandas(unittest.TestCase):
    def run_lines(self, lines):
        """What Python prints of these lines, where importing pandas or numpy fails as if they weren't there."""
        with tempfile.TemporaryDirectory() as folder:
            for name in ("pandas", "numpy"):
                text = f"raise ModuleNotFoundError(\"No module named '{name}'\", name='{name}')\n"
                Path(folder, f"{name}.py").write_text(text)
            path = os.pathsep.join([folder, str(TOP / "python")])
            words = [sys.executable, "-c", lines]
            ran = subprocess.run(words, env={**os.environ, "PYTHONPATH": path}, capture_output=True)
        return ran.stdout.decode(), ran.stderr.decode()

    def test_modules_of_the_tools_are_imported(self):
        lines = "from ruzgalt import answers; from ruzgalt.cli import answers as tool; print('yes')"
        self.assertEqual(self.run_lines(lines), ("yes\n", ""))

    def test_frames_say_which_packages_to_install(self):
        for name in set(ruzgalt.__all__) - {"frames", "__version__"}:
            printed, said = self.run_lines(f"import ruzgalt; print('imported'); ruzgalt.{name}")
            self.assertEqual(printed, "imported\n")
            self.assertIn("ImportError: ruzgalt." + name + " needs", said)
            self.assertIn("apt-get install python3-pandas", said)

    def test_importing_it_imports_nothing_of_frames_and_changes_nothing_of_the_host(self):
        lines = f"""{HOST}
import ruzgalt
print(host() == before, "join" in dir(ruzgalt), sorted(one for one in sys.modules if one.startswith("ruzgalt.")))
"""
        self.assertEqual(self.run_lines(lines), ("True True []\n", ""))

    def test_neither_do_the_modules_of_the_tools_nor_a_script_with_a_long_field_that_they_read(self):
        lines = f"""{HOST}
import importlib, pathlib
from ruzgalt import answers
for file in sorted(pathlib.Path(answers.__file__).parents[1].rglob("*.py")):
    if file.parent.name not in ("convert", "frames", "kernel", "ruzgalt", "store"):
        importlib.import_module(f"ruzgalt.{{file.parent.name}}.{{file.stem}}")
script = b"table,t,name,text\\nload,t\\nrow,2024-01-01,2024-01-02," + 200_000 * b"x" + b"\\nend\\n"
[_, load] = answers.of(script, b"ok,1\\nerror,3,TooLong\\n")
print(host() == before, load.refused.name)
try:
    list(load.command.rows)
except Exception as reason:
    print(type(reason).__name__, reason)
"""
        remedy = "is a quote missing? csv.field_size_limit(..) takes longer fields"
        reason = f"Misfit line 3: field larger than field limit (131072); {remedy}"
        self.assertEqual(self.run_lines(lines), (f"True TooLong\n{reason}\n", ""))

    def test_calls_that_cannot_be_had_are_not_listed(self):
        with mock.patch.object(ruzgalt, "find_spec", return_value=None):
            self.assertEqual(dir(ruzgalt), ["__version__"])

    def test_other_names_are_no_attributes(self):
        _, said = self.run_lines("import ruzgalt; ruzgalt.nothing")
        self.assertIn("AttributeError: module 'ruzgalt' has no attribute 'nothing'", said)


if __name__ == "__main__":
    unittest.main()
