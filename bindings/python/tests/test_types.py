"""Types: mypy --strict finds nothing in the package, and no annotation is Any."""
import ast
import os
import subprocess
import sys
import tempfile
import unittest

import gullyfork
from common import ROOT

SOURCES = os.path.join(ROOT, "bindings", "python")


class Types(unittest.TestCase):
    def test_no_any(self):
        folder = os.path.join(SOURCES, "src", "gullyfork")
        for name in sorted(os.listdir(folder)):
            if name.endswith(".py"):
                with open(os.path.join(folder, name), encoding="utf-8") as f:
                    found = [n.lineno for n in ast.walk(ast.parse(f.read())) if isinstance(n, ast.Name) and n.id == "Any"]
                self.assertEqual(found, [], name)

    def test_mypy(self):
        try:
            import mypy  # noqa: F401
        except ImportError:
            self.skipTest("needs mypy")
        with tempfile.TemporaryDirectory() as folder:
            p = subprocess.run([sys.executable, "-m", "mypy", "--cache-dir", folder], cwd=SOURCES, capture_output=True, text=True)
        self.assertEqual(p.returncode, 0, p.stdout + p.stderr)

    def test_every_name_of_all_is_there(self):
        for name in gullyfork.__all__:
            self.assertTrue(hasattr(gullyfork, name), name)


if __name__ == "__main__":
    unittest.main()
