"""Sets in files: what is written is read back bit for bit, phonopy reads and writes the same, and what is wrong is said with its place."""
import contextlib
import io
import json
import os
import pathlib
import shutil
import tempfile
import unittest

import numpy as np

import gullyfork as gf
from gullyfork import files
from gullyfork.__main__ import main
from common import CIRCLE, SAMPLE, phono3py_files, random, same_bits

try:
    import h5py
except ImportError:
    h5py = None
try:
    from phonopy.file_IO import parse_FORCE_CONSTANTS, read_force_constants_hdf5, write_FORCE_CONSTANTS, write_force_constants_to_hdf5
except ImportError:
    write_FORCE_CONSTANTS = None


class Room(unittest.TestCase):
    def setUp(self):
        self.room = tempfile.TemporaryDirectory()
        self.addCleanup(self.room.cleanup)

    def path(self, name):
        return os.path.join(self.room.name, name)

    def unreadable(self, words, call):
        with self.assertRaises(files.Unreadable) as caught:
            call()
        self.assertIn(words, str(caught.exception))


class Sets(Room):
    SETS = {"full2": random(3, 3, 3, 3), "compact2": random(1, 3, 3, 3), "full3": random(2, 2, 2, 3, 3, 3), "compact3": random(1, 2, 2, 3, 3, 3)}

    def test_and_back(self):
        for ending in (".npy", ".hdf5") if h5py else (".npy",):
            for name, fc in self.SETS.items():
                path = self.path(name + ending)
                files.write(path, fc, p2s=[0] if "compact" in name else None, unit="eV/angstrom^2")
                found = files.read(path)
                self.assertTrue(same_bits(found.array, fc))
                self.assertEqual((found.order, found.full), (int(name[-1]), "full" in name))
                if ending == ".hdf5":
                    self.assertEqual(found.unit, "eV/angstrom^2")
                    self.assertEqual(None if found.p2s is None else found.p2s.tolist(), [0] if "compact" in name else None)

    def test_text(self):
        exact = np.round(random(2, 4, 3, 3) * 2**20) / 2**20 / 8  # few digits, so the text has them all
        files.write(self.path("FORCE_CONSTANTS"), exact, p2s=[3, 1])
        found = files.read(self.path("FORCE_CONSTANTS"))
        self.assertEqual(found.p2s.tolist(), [3, 1])
        np.testing.assert_allclose(found.array, exact, rtol=0, atol=5e-16)
        with self.assertRaisesRegex(ValueError, "give p2s"):
            files.write(self.path("F"), exact)
        with self.assertRaisesRegex(ValueError, "second order"):
            files.write(self.path("F"), self.SETS["full3"])
        self.assertEqual(os.listdir(self.room.name), ["FORCE_CONSTANTS"])

    @unittest.skipUnless(write_FORCE_CONSTANTS and h5py, "needs phonopy and h5py")
    def test_beside_phonopy(self):
        full, compact, p2s = random(4, 4, 3, 3), random(2, 4, 3, 3), np.array([0, 3], "intc")
        for fc, rows in ((full, None), (compact, p2s)):
            write_FORCE_CONSTANTS(fc, self.path("theirs"), p2s_map=rows)
            files.write(self.path("ours"), fc, p2s=rows, overwrite=True)
            self.assertEqual(pathlib.Path(self.path("theirs")).read_bytes(), pathlib.Path(self.path("ours")).read_bytes())
            self.assertTrue(same_bits(files.read(self.path("theirs")).array, parse_FORCE_CONSTANTS(self.path("ours"), p2s_map=rows)))
            write_force_constants_to_hdf5(fc, self.path("theirs.hdf5"), p2s_map=rows, physical_unit="eV/angstrom^2")
            found = files.read(self.path("theirs.hdf5"))
            self.assertTrue(same_bits(found.array, fc))
            self.assertEqual(found.unit, "eV/angstrom^2")
            files.write(self.path("ours.hdf5"), fc, p2s=rows, unit="eV/angstrom^2", overwrite=True)
            self.assertTrue(same_bits(read_force_constants_hdf5(self.path("ours.hdf5"), p2s_map=rows), fc))

    @unittest.skipUnless(h5py, "needs h5py")
    def test_names_of_phono3py(self):
        for name, fc in (("fc2", self.SETS["compact2"]), ("fc3", self.SETS["compact3"])):
            with h5py.File(self.path("x.hdf5"), "w") as f:
                f["p2s_map"] = np.array([0], "intc")
                f[name] = fc
            found = files.read(self.path("x.hdf5"))
            self.assertTrue(same_bits(found.array, fc))
            self.assertEqual(found.p2s.tolist(), [0])

    def test_nothing_is_overwritten(self):
        for name in ("FORCE_CONSTANTS", "a.npy", *(["a.hdf5"] if h5py else [])):
            path = self.path(name)
            files.write(path, self.SETS["full2"])
            before = pathlib.Path(path).read_bytes()
            with self.assertRaises(FileExistsError):
                files.write(path, self.SETS["full2"] * 2)
            self.assertEqual(pathlib.Path(path).read_bytes(), before)
            with self.assertRaises(ValueError):
                files.write(path, np.zeros((2, 3)), overwrite=True)
            self.assertEqual(pathlib.Path(path).read_bytes(), before)
            files.write(path, self.SETS["full2"] * 2, overwrite=True)
            self.assertNotEqual(pathlib.Path(path).read_bytes(), before)
        self.assertFalse([f for f in os.listdir(self.room.name) if f.endswith(".new")])

    def test_damaged_text(self):
        files.write(self.path("F"), random(2, 3, 3, 3), p2s=[0, 2])
        lines = pathlib.Path(self.path("F")).read_text().split("\n")
        cases = (
            (lambda t: t[:-1], "line 24: the file ends where block 3 of row 2, of 2 x 3 blocks, is expected"),
            (lambda t: t[:7], "line 7: the file ends where block 2 of row 1, of 2 x 3 blocks, is expected"),
            (lambda t: [*t, "", "1 1"], "line 27: 1 stands after the last of 2 x 3 blocks"),
            (lambda t: ["", *t[1:]], "line 3: 3 words where a pair of atoms is expected"),
            (lambda t: ["2 3 4", *t[1:]], "line 1: 3 words where one or two numbers of atoms are expected"),
            (lambda t: ["2 three", *t[1:]], "line 1: '2 three' are no whole numbers"),
            (lambda t: ["0 3", *t[1:]], "line 1: a number of atoms is not above 0"),
            (lambda t: [*t[:2], "1.0 2.0", *t[3:]], "line 3: 2 words where three numbers are expected"),
            (lambda t: [*t[:2], "1.0 2.0 x", *t[3:]], "line 3: '1.0 2.0 x' are no numbers"),
            (lambda t: [*t[:5], "1 3", *t[6:]], "line 6: the pair 1 3 stands where 1 2 is expected"),
            (lambda t: [*t[:13], "5 1", *t[14:]], "line 18: the pair 3 2 stands where 5 2 is expected"),
            (lambda t: [*t[:13], "x", *t[14:]], "line 14: 1 words where a pair of atoms is expected"),
            (lambda t: [line.replace("3 ", "1 ") if len(line) == 3 else line for line in t], "the rows are of atoms 1, 1"),
        )
        for change, words in cases:
            with self.subTest(words):
                pathlib.Path(self.path("F")).write_text("\n".join(change(lines)))
                self.unreadable(words, lambda: files.read(self.path("F")))

    def test_other_files(self):
        self.unreadable("No such file", lambda: files.read(self.path("nowhere")))
        self.unreadable("read_delivery", lambda: files.read(self.room.name))
        pathlib.Path(self.path("b")).write_bytes(b"\xff\xfe\x00\x01")
        self.unreadable("neither a text", lambda: files.read(self.path("b")))
        pathlib.Path(self.path("empty")).write_bytes(b"")
        self.unreadable("line 1: the file ends where a line of the number of atoms is expected", lambda: files.read(self.path("empty")))
        for a, words in ((np.zeros((2, 3)), "the shape (2, 3) is of no set"), (np.zeros((3, 2, 3, 3)), "more atoms in the first place"),
                         (np.zeros((2, 2, 3, 3), complex), "complex128"), (np.zeros((2, 2, 3, 3), int), "int64"), (np.zeros((1, 2, 3, 3, 3, 3)), "no set")):
            np.save(self.path("a.npy"), a)
            self.unreadable(words, lambda: files.read(self.path("a.npy")))
        np.save(self.path("a.npy"), np.array([{}], object), allow_pickle=True)
        self.unreadable("a.npy", lambda: files.read(self.path("a.npy")))
        np.save(self.path("a.npy"), random(2, 2, 3, 3))
        whole = pathlib.Path(self.path("a.npy")).read_bytes()
        pathlib.Path(self.path("a.npy")).write_bytes(whole[:-8])
        self.unreadable("a.npy", lambda: files.read(self.path("a.npy")))
        np.save(self.path("a.npy"), random(2, 2, 3, 3).astype(">f8"))  # another byte order that the file names: read as it is meant
        self.assertTrue(same_bits(files.read(self.path("a.npy")).array, random(2, 2, 3, 3)))

    @unittest.skipUnless(h5py, "needs h5py")
    def test_damaged_hdf5(self):
        with h5py.File(self.path("x.hdf5"), "w") as f:
            f["other"] = [1]
        self.unreadable("but other", lambda: files.read(self.path("x.hdf5")))
        with h5py.File(self.path("x.hdf5"), "w") as f:
            f["fc3"] = np.zeros((1, 1, 3, 3))
        self.unreadable("fc3 holds a set of order 2", lambda: files.read(self.path("x.hdf5")))
        with h5py.File(self.path("x.hdf5"), "w") as f:
            f["force_constants"], f["p2s_map"] = np.zeros((1, 2, 3, 3)), [0, 1, 2]
        self.unreadable("p2s_map has 3 atoms, the set 1 rows", lambda: files.read(self.path("x.hdf5")))
        whole = pathlib.Path(self.path("x.hdf5")).read_bytes()
        pathlib.Path(self.path("x.hdf5")).write_bytes(whole[:len(whole) // 2])
        self.unreadable("x.hdf5", lambda: files.read(self.path("x.hdf5")))


@unittest.skipUnless(write_FORCE_CONSTANTS and h5py, "needs phonopy and h5py")
class Phono3py(Room):
    """Files with phono3py's layout: fc3.hdf5 of one supercell (dim), fc2.hdf5 of another (dim-fc2), and one yaml that has both."""

    def setUp(self):
        super().setUp()
        self.ph = phono3py_files(self.room.name)

    def check(self, *words):
        out, err = io.StringIO(), io.StringIO()
        with contextlib.redirect_stdout(out), contextlib.redirect_stderr(err):
            status = main(["check", *words, "--cell", self.path("phono3py.yaml"), "--json"])
        self.assertEqual(err.getvalue(), "")
        said = json.loads(out.getvalue())
        return status, {m["name"]: m for m in said["sets"][0]["measures"]}

    def test_each_with_its_supercell(self):
        small, large = (gf.check.read_cell(self.path("phono3py.yaml"), *of) for of in ((3, 8), (2, 64)))
        self.assertEqual((small.tables.counts, large.tables.counts), ((8, 2, 4), (64, 2, 32)))
        self.assertEqual(gf.check.read_cell(self.path("phono3py.yaml"), 2).tables, large.tables)  # second order is dim-fc2's
        self.assertEqual(gf.check.read_cell(self.path("phono3py.yaml"), 2, 8).tables, small.tables)  # unless it has the other's atoms
        status, seen = self.check(self.path("fc2.hdf5"))
        self.assertEqual(status, 0, seen)
        self.assertEqual((seen["tables"]["words"], seen["highest"]["value"] > 10), ("32 shifts, every rule is kept", True))
        status, seen = self.check(self.path("fc3.hdf5"))
        self.assertEqual(status, 1)  # a little noise
        self.assertEqual({name for name, m in seen.items() if m["fault"]}, {"drift", "exchange"})
        self.assertLess(seen["crystal"]["value"], 1e-2)

    def test_symmetrized(self):
        """Full and compact: clean afterwards, with everything of the file's but the numbers; and the numbers are numpy's."""
        t = gf.check.read_cell(self.path("phono3py.yaml"), 3).tables
        compact = files.read(self.path("fc3.hdf5")).array
        with h5py.File(self.path("full.hdf5"), "w") as f:
            f.create_dataset("fc3", data=gf.compact_to_full_fc3(compact, t), compression="gzip")
            f.create_dataset("version", data=np.string_("2.5.1"))
        for name in ("fc3.hdf5", "full.hdf5"):
            self.check(self.path(name), "--symmetrize", self.path("out-" + name))
            status, seen = self.check(self.path("out-" + name))
            self.assertEqual(status, 0, seen)
            self.assertEqual(seen["audit"]["value"], 0)
            with h5py.File(self.path("out-" + name), "r") as f:
                self.assertEqual((f["fc3"].compression, f["version"][()], "p2s_map" in f), ("gzip", b"2.5.1", name == "fc3.hdf5"))
        full = files.read(self.path("full.hdf5")).array
        for leg in range(3):
            full -= full.mean(axis=leg, keepdims=True)
        orders = ((0, 1, 2), (0, 2, 1), (1, 0, 2), (1, 2, 0), (2, 0, 1), (2, 1, 0))
        full = np.mean([full.transpose(*p, *(3 + k for k in p)) for p in orders], axis=0)
        np.testing.assert_allclose(files.read(self.path("out-full.hdf5")).array, full, atol=1e-15)
        np.testing.assert_allclose(files.read(self.path("out-fc3.hdf5")).array, full[t.p2s], atol=1e-15)

    def test_written_as_phono3py_reads_it(self):
        """Datasets by phono3py's names: fc3, or force_constants, and p2s_map where the set is compact."""
        for name, key, shape in (("fc3.hdf5", "fc3", (2, 8, 8, 3, 3, 3)), ("fc2.hdf5", "force_constants", (2, 64, 3, 3))):
            found = files.read(self.path(name))
            files.write(self.path("again.hdf5"), found.array, found.p2s, overwrite=True)
            with h5py.File(self.path("again.hdf5"), "r") as f, h5py.File(self.path(name), "r") as was:
                self.assertEqual(f[key].shape, shape)
                self.assertTrue(same_bits(f[key][()], was[key][()]))
                self.assertEqual(f["p2s_map"][()].tolist(), was["p2s_map"][()].tolist())
        self.assertTrue(same_bits(read_force_constants_hdf5(self.path("again.hdf5"), p2s_map=found.p2s), found.array))

    def test_shengbte(self):
        """FORCE_CONSTANTS_3RD, written from a set with every image that is nearest, is read back as that set; damage is named by its line."""
        cell = gf.check.read_cell(self.path("phono3py.yaml"), 3)
        t, fc3 = cell.tables, files.read(self.path("fc3.hdf5")).array
        images = [list(self.images(cell, int(t.p2s[p]), a)) for p in range(2) for a in range(8)]
        blocks = []
        for p, a, b in np.ndindex(2, 8, 8):
            near = [(u, v) for u in images[8 * p + a] for v in images[8 * p + b]]
            for u, v in near:
                lines = [" ".join(f"{x:.10e}" for x in w) for w in (u, v)] + [f"{p + 1} {t.s2pp[a] + 1} {t.s2pp[b] + 1}"]
                lines += [f"{i + 1} {j + 1} {k + 1} {float(fc3[p, a, b, i, j, k]) / len(near)!r}" for i, j, k in np.ndindex(3, 3, 3)]
                blocks.append(f"\n{len(blocks) + 1}\n" + "\n".join(lines) + "\n")
        path = pathlib.Path(self.path("FORCE_CONSTANTS_3RD"))
        path.write_text(f"{len(blocks)}\n" + "".join(blocks))
        self.assertGreater(len(blocks), 128)  # some stand on the border
        self.assertTrue(files.is_shengbte(path) and not files.is_shengbte(self.path("FORCE_CONSTANTS")) and not files.is_shengbte(self.path("fc3.hdf5")))
        np.testing.assert_allclose(files.read_shengbte(path, cell).array, fc3, atol=1e-15)
        status, seen = self.check(str(path), "--symmetrize", self.path("from.hdf5"))
        self.assertEqual({name for name, m in seen.items() if m["fault"]}, {"drift", "exchange"})
        self.assertEqual(self.check(self.path("from.hdf5"))[0], 0)
        good = path.read_text()
        first = good.split("\n")
        for k, line, words in ((2, "2", "block 1 of .* does not begin with its number"), (3, "0.5 0 0", "no such atom there"),
                               (5, "1 1 3", "three atoms from 1 to 2"), (6, "1 2 1 0.0", "the directions 1 1 1 are expected"), (0, str(len(blocks) + 1), "ends where")):
            path.write_text("\n".join([*first[:k], line, *first[k + 1:]]))
            with self.assertRaisesRegex(files.Unreadable, words):
                files.read_shengbte(path, cell)

    def images(self, cell, first, a):
        """The lattice vectors from the representative of atom a to its images that are nearest to the first atom."""
        own = cell.positions[cell.tables.p2s[cell.tables.s2pp[a]]]
        around = np.array(list(np.ndindex(3, 3, 3))) - 1
        d = (cell.positions[a] - cell.positions[first] + around) @ cell.lattice
        far = np.sqrt((d ** 2).sum(axis=1))
        return ((cell.positions[a] + around[k] - own) @ cell.lattice for k in np.flatnonzero(far < far.min() + 1e-6))

    def test_rows_of_another_supercell(self):
        with h5py.File(self.path("fc3.hdf5"), "r+") as f:
            f["p2s_map"][...] = [0, 5]
        status, seen = self.check(self.path("fc3.hdf5"))
        self.assertEqual((status, seen["tables"]["fault"]), (1, True))


class Deliveries(Room):
    def test_and_back(self):
        d = files.read_delivery(SAMPLE)
        d.tables.check()
        self.assertEqual((d.fc2.shape, d.fc3.shape, d.elements[0], d.elements[-1]), ((16, 16, 3, 3), (2, 16, 16, 3, 3, 3), "Mg", "O"))
        files.write_delivery(self.path("out"), d)
        for name in ("tables.txt", "cell.txt", "fc2.f64", "fc3.f64"):
            self.assertEqual(pathlib.Path(SAMPLE, name).read_bytes(), pathlib.Path(self.path("out"), name).read_bytes(), name)
        with self.assertRaises(FileExistsError):
            files.write_delivery(self.path("out"), d)
        files.write_delivery(self.path("out"), d._replace(fc2=d.fc2 * 2), overwrite=True)
        self.assertTrue(same_bits(files.read_delivery(self.path("out")).fc2, d.fc2 * 2))
        with self.assertRaisesRegex(ValueError, "fc3 has the shape"):
            files.write_delivery(self.path("other"), d._replace(fc3=d.fc3[:1]))
        self.assertFalse(os.path.exists(self.path("other")))

    def test_damaged(self):
        cases = (
            ("tables.txt", lambda t: t + "perms 0 1\n", "tables.txt, line 15: perms stands after"),
            ("tables.txt", lambda t: t.replace("p2s 0 8", "p2s 0 8 9"), "tables.txt, line 4: p2s has 3 entries, n_patom asks for 2"),
            ("tables.txt", lambda t: t.replace("n_satom 16", "n_satom 1x"), "tables.txt, line 1: '1x' are no whole numbers"),
            ("tables.txt", lambda t: t.replace("n_satom 16", "n_satom -1"), "tables.txt, line 1: n_satom is -1"),
            ("tables.txt", lambda t: "", "tables.txt, line 1: the file ends where a line n_satom is expected"),
            ("cell.txt", lambda t: t + "O 0 0 0\n", "cell.txt, line 20: O stands after"),
            ("cell.txt", lambda t: t.replace("0.75 0.75 0.75", "nan 0.75 0.75"), "a number is not finite"),
            ("cell.txt", lambda t: t.replace("O 0.75 0.75 0.75\n", ""), "cell.txt, line 18: the file ends where atom 15"),
            ("fc2.f64", None, "it has 18424 bytes, the counts ask for 2304 numbers of 8 bytes, 18432"),
        )
        for name, change, words in cases:
            with self.subTest(words):
                shutil.rmtree(self.path("in"), ignore_errors=True)
                shutil.copytree(SAMPLE, self.path("in"))
                path = pathlib.Path(self.path("in"), name)
                if change:
                    path.write_text(change(path.read_text()))
                else:
                    path.write_bytes(path.read_bytes()[:-8])
                self.unreadable(words, lambda: files.read_delivery(self.path("in")))
        self.unreadable("No such file", lambda: files.read_delivery(self.path("nowhere")))


class FromPrimitive(unittest.TestCase):
    def test_tables(self):
        try:
            from phonopy.harmonic.force_constants import get_nsym_list_and_s2pp
            from test_phonopy import CELLS, cell
        except (ImportError, unittest.SkipTest):
            self.skipTest("needs phonopy")
        for name in CELLS:
            p = cell(name).primitive
            t = gf.Tables.of(p)
            s2pp, nsym_list = get_nsym_list_and_s2pp(p.s2p_map, p.p2p_map, p.atomic_permutations)
            self.assertEqual(t, gf.Tables(p.p2s_map, s2pp, nsym_list, p.atomic_permutations))
            t.check()

    def test_broken(self):
        class Primitive:
            p2s_map, s2p_map, p2p_map, atomic_permutations = [0], [0, 0, 0], {0: 0}, CIRCLE[3]

        self.assertEqual(gf.Tables.of(Primitive), gf.Tables(*CIRCLE))
        Primitive.atomic_permutations = CIRCLE[3][:2]
        with self.assertRaisesRegex(ValueError, "no shift sends atom 1 to atom 0"):
            gf.Tables.of(Primitive)


if __name__ == "__main__":
    unittest.main()
