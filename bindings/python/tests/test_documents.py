"""The examples: of every module's doc strings, and of the documents' Python blocks; doc strings in numpydoc form; the page of all names."""
import contextlib
import doctest
import importlib
import inspect
import io
import os
import pkgutil
import pydoc
import re
import subprocess
import sys
import tempfile
import unittest

import numpy as np

import gullyfork
from common import ROOT, phono3py_files, phonopy_files

try:
    import h5py
    import phonopy
except ImportError:
    phonopy = None

try:
    import spglib
except ImportError:
    spglib = None

FLAGS = doctest.ELLIPSIS


def modules():
    names = [m.name for m in pkgutil.iter_modules(gullyfork.__path__) if m.name not in ("__main__", "libgullyfork") and (phonopy or m.name != "phonopy")]
    return [gullyfork, *(importlib.import_module(f"gullyfork.{name}") for name in names)]


class DocStrings(unittest.TestCase):
    def test_modules(self):
        run = 0
        for module in modules():
            with self.subTest(module.__name__):
                failed, tried = doctest.testmod(module, optionflags=FLAGS)
                self.assertEqual(failed, 0)
                run += tried
        self.assertGreater(run, 80)

    def test_every_call_has_an_example(self):
        for name in gullyfork.__all__:
            call = getattr(gullyfork, name)
            if inspect.isfunction(call):
                self.assertIn(">>>", call.__doc__, name)

    def public(self):
        """Every public function and method with its name."""
        for module in modules():
            short = module.__name__.split(".")[-1]
            if short.startswith("_") or short == "gullyfork":
                continue
            for name in module.__all__:
                x = getattr(module, name)
                if inspect.isfunction(x):
                    yield f"{short}.{name}", x
                elif inspect.isclass(x) and x.__module__.startswith("gullyfork"):
                    yield from ((f"{short}.{name}.{k}", getattr(x, k)) for k, m in vars(x).items()
                                if not k.startswith("_") and isinstance(m, (type(self.public), classmethod, type(modules))))

    def test_numpydoc(self):
        """A sentence first; every parameter by its name; what is returned, where it is not None."""
        seen = 0
        for name, call in self.public():
            with self.subTest(name):
                doc = inspect.getdoc(call)
                self.assertRegex(doc.split("\n")[0], r"^[A-Z].*[.:]")
                sections = dict(zip(*[iter(re.split(r"^(\w+)\n-{3,}\n", doc, flags=re.M)[1:])] * 2))
                named = set(re.findall(r"\w+", " ".join(re.findall(r"^(\S.*?)(?: : .*)?$", sections.get("Parameters", ""), re.M))))
                signature = inspect.signature(call)
                self.assertLessEqual({p for p in signature.parameters if p not in ("self", "cls")}, named)
                seen += 1
        self.assertGreater(seen, 50)

    def test_help_is_a_page(self):
        """help(gullyfork) begins with a page that names every call and every module, and what `import gullyfork` brings is there."""
        doc = inspect.getdoc(gullyfork)
        self.assertLess(len(doc.split("\n")), 66)
        self.assertIn(doc.split("\n")[0], pydoc.render_doc(gullyfork, renderer=pydoc.plaintext))
        short = doc.replace("set_permutation_symmetry_fc3, .._fc4", "set_permutation_symmetry_fc3, set_permutation_symmetry_fc4")
        for name in gullyfork.__all__:
            x = getattr(gullyfork, name)
            if inspect.isfunction(x):
                stem = re.sub(r"_fc[34]$", "", name)
                self.assertTrue(name in short or f"{stem}_fc" in short, name)
            if inspect.ismodule(x):
                self.assertTrue(f"gullyfork.{name}" in doc or set(x.__all__) & set(gullyfork.__all__), name)
        said = subprocess.run([sys.executable, "-c", "import gullyfork; print(gullyfork.files, gullyfork.check, gullyfork.certificate, gullyfork.roll)"],
                              capture_output=True, text=True)
        self.assertEqual((said.returncode, said.stdout.count("<module")), (0, 4), said.stderr)


class Documents(unittest.TestCase):
    def setUp(self):
        """The documents are read in a folder that has what their examples name: a crystal with its forces."""
        self.room = tempfile.TemporaryDirectory()
        self.addCleanup(self.room.cleanup)
        self.addCleanup(os.chdir, os.getcwd())
        os.chdir(self.room.name)

    def run_file(self, path):
        failed, tried = doctest.testfile(path, module_relative=False, encoding="utf-8", optionflags=FLAGS)
        self.assertEqual(failed, 0)
        self.assertGreater(tried, 4)

    @unittest.skipUnless(phonopy, "needs phonopy and h5py")
    def test_readme(self):
        phono3py_files(".")
        phonopy_files(".")
        with contextlib.redirect_stderr(io.StringIO()):
            self.run_file(os.path.join(ROOT, "bindings", "python", "README.md"))

    def test_page_of_all_names(self):
        p = subprocess.run([sys.executable, os.path.join(ROOT, "docs", "python-api"), "--check"], capture_output=True, text=True)
        self.assertEqual((p.returncode, p.stderr), (0, ""))

    def test_how_to_add_a_call(self):
        """The block of the README that is no dialogue: a function as a call's is written."""
        with open(os.path.join(ROOT, "bindings", "python", "README.md"), encoding="utf-8") as f:
            plain = [b for b in re.findall(r"```python\n(.*?)```", f.read(), re.S) if not b.startswith(">>>")]
        self.assertEqual(len(plain), 1)
        names = {"np": np, "_arrays": gullyfork._arrays, "run": gullyfork._run.run}
        exec(plain[0], names)
        fc = np.random.default_rng(2).standard_normal((3, 3, 3, 3))
        self.assertEqual(names["row_sums_fc2"](fc).tobytes(), gullyfork.row_sums_fc2(fc).tobytes())

    def test_guide(self):
        self.run_file(os.path.join(ROOT, "docs", "GUIDE.md"))

    @unittest.skipUnless(spglib, "needs spglib")
    def test_table_of_faults(self):
        """Which report finds which fault: what samples/faults.py prints is the table of the guide."""
        p = subprocess.run([sys.executable, os.path.join(ROOT, "samples", "faults.py")], capture_output=True, text=True)
        self.assertEqual((p.returncode, p.stderr), (0, ""))
        with open(os.path.join(ROOT, "docs", "GUIDE.md"), encoding="utf-8") as f:
            guide = f.read()
        begin = guide.index(p.stdout.split("\n")[0])
        self.assertEqual(guide[begin:].split("\n\n")[0] + "\n", p.stdout)

    def test_first_page(self):
        self.run_file(os.path.join(ROOT, "README.md"))


if __name__ == "__main__":
    unittest.main()
