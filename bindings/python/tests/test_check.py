"""The checker on good and on damaged files: one verdict each, by its status and its words."""
import contextlib
import io
import json
import os
import pathlib
import shutil
import subprocess
import tempfile
import unittest

import numpy as np

import gullyfork as gf
from gullyfork import check, crystal, files
from gullyfork.__main__ import main
from common import ROOT, SAMPLE, grid_tables, random, same_bits

try:
    import test_phonopy
except unittest.SkipTest:
    test_phonopy = None
try:
    import h5py
except ImportError:
    h5py = None
try:
    import matplotlib
except ImportError:
    matplotlib = None


def clean2(n=6):
    fc = random(n, n, 3, 3)
    gf.perm_trans_symmetrize_fc(fc, 30)
    fc += fc.transpose(1, 0, 3, 2)
    return fc / 2


class Room(unittest.TestCase):
    def setUp(self):
        self.room = tempfile.TemporaryDirectory()
        self.addCleanup(self.room.cleanup)

    def path(self, name):
        return os.path.join(self.room.name, name)

    def run_main(self, *words):
        out, err = io.StringIO(), io.StringIO()
        with contextlib.redirect_stdout(out), contextlib.redirect_stderr(err):
            try:
                status = main(list(words))
            except SystemExit as e:  # argparse
                status = e.code
        return status, out.getvalue(), err.getvalue()

    def run_check(self, *words):
        return self.run_main("check", *words)


class Checks(Room):
    def judged(self, status, words, fc, *more, ending=".npy"):
        path = self.path("set" + ending)
        files.write(path, fc, overwrite=True, p2s=np.arange(len(fc)))
        before = pathlib.Path(path).read_bytes()
        got, out, err = self.run_check(path, *more)
        self.assertEqual(got, status, out + err)
        self.assertIn(words, out.split("\n")[-2] if status < 2 else err)
        self.assertEqual(pathlib.Path(path).read_bytes(), before)
        return out

    def test_clean(self):
        out = self.judged(0, "VERDICT clean", clean2())
        self.assertIn("full set of order 2 (.npy), 6 x 6 atoms, 324 numbers", out)
        for measure in check.MEASURES:
            self.assertRegex(out, rf"\n(ok|-|\?) +{measure.name} ")
        self.judged(0, "clean", clean2(), ending="FORCE_CONSTANTS")

    def test_damaged_second_order(self):
        fc = clean2()
        fc[1, 2, 0, 1] += 1e-3  # one number moved
        out = self.judged(1, "VERDICT sums over an atom that are not zero; numbers that change when atoms are exchanged", fc)
        self.assertRegex(out, r"FAULT drift +\S+ +of the largest, at most 1e-06; worst sum 1.000e-03 along rows, atom 1, xy \[proved\]")
        self.assertIn("widest difference 1.000e-03 at atoms 1 2, xy", out)
        self.judged(0, "clean", fc, "--tolerance", "0.1")
        for x, words in ((np.nan, "1 NaN, 0 infinite, the first at atoms 3 1, zx"), (-np.inf, "0 NaN, 1 infinite")):
            fc = clean2()
            fc[3, 1, 2, 0] = x
            out = self.judged(1, "VERDICT numbers that are not finite", fc)
            self.assertIn(words, out)
            self.assertRegex(out, r"\? +drift +not worked out: a number is not finite")
        self.judged(1, "numbers of no possible size", clean2().byteswap())
        fc = clean2()
        fc[2] = 0
        self.assertIn("1 of 6 rows: 2; 6 of 36 blocks are zero", self.judged(1, "rows that are zero throughout", fc))

    def test_third_order(self):
        fc3 = random(3, 3, 3, 3, 3, 3)
        gf.set_permutation_symmetry_fc3(fc3)
        self.assertIn("no number changes, in any order of its legs [proved]", self.judged(1, "VERDICT sums over an atom that are not zero", fc3))
        fc3[0, 1, 2, 0, 0, 0] += 1.0
        self.judged(1, "numbers that change when atoms are exchanged", fc3)
        self.assertIn("2 of 2 rows: 0, 1", self.judged(1, "rows that are zero throughout", np.zeros((2, 2, 2, 3, 3, 3))))

    def test_fourth_order(self):
        fc4 = random(2, 2, 2, 2, 3, 3, 3, 3)
        out = self.judged(1, "sums over an atom that are not zero; numbers that change", fc4, "--symmetrize", self.path("out.npy"))
        self.assertRegex(out, r"drift .*over leg [0-3], atoms \d \d \d, [xyz]{4} \[proved\]")
        self.assertRegex(out, r"symmetrizing .* \[proved\]")
        self.assertEqual(self.run_check(self.path("out.npy"))[0], 0)
        self.assertTrue(gf.audit_fc4(files.read(self.path("out.npy")).array).alike)

    def test_compact_without_a_cell(self):
        t = grid_tables((3, 1, 1), 2)
        fc = random(2, 6, 3, 3)
        gf.perm_trans_symmetrize_compact_fc(fc, t, 20)
        out = self.judged(1, "sums over an atom that are not zero", fc + 1.0)
        self.assertRegex(out, r"\? +tables +none: --cell gives them")
        self.assertRegex(out, r"\? +exchange +not known without shift tables")
        self.assertRegex(out, r"drift .* over leg 1, atom \d, [xyz]{2}; over the first leg not known without shift tables \[numpy\]")

    def test_every_kind_of_set_can_be_made_clean(self):
        """Full and compact, orders 2 to 4: what symmetrizing leaves is clean, and alike by the proved audit."""
        for grid, p in (((2, 1, 1), 2), ((3, 1, 1), 1), ((2, 2, 1), 1)):
            t = grid_tables(grid, p)
            for order in (2, 3, 4):
                for tables in (None, t):
                    fc = random(t.n_satom if tables is None else p, *[t.n_satom] * (order - 1), *[3] * order)
                    finding = check.check(files.ForceConstants(fc, "a set"), tables)
                    self.assertEqual([r.name for r in finding.readings if r.fault], ["drift", "exchange"], (order, tables))
                    after = check.check(files.ForceConstants(finding.symmetrized, "a set"), tables)
                    self.assertEqual(after.faults, [], (order, tables))
                    self.assertEqual(after.reading("audit").value, 0)
                    self.assertLess(after.reading("drift").value, 1e-14)

    def test_sums_and_orders_beside_the_read_out(self):
        """What the measures see in a compact set is what they see in the set that it reads out to."""
        for order, name in ((2, "compact_to_full_fc2"), (3, "compact_to_full_fc3"), (4, "compact_to_full_fc4")):
            t = grid_tables((2, 2, 1), 1)
            fc = random(1, *[4] * (order - 1), *[3] * order)
            full = getattr(gf, name)(fc, t)
            compact, whole = (check.check(files.ForceConstants(a, ""), b) for a, b in ((fc, t), (full, None)))
            for measure in ("drift", "exchange"):
                self.assertAlmostEqual(compact.reading(measure).value, whole.reading(measure).value, 12)
            orders = {tuple(np.round(other.ravel(), 9)) for other in check.look.exchanged(fc, t)}
            self.assertEqual(len(orders), [1, 5, 23][order - 2])  # every other order of the legs, each once

    def test_a_measure_is_one_entry(self):
        """A report that is added to the table is printed, judged, and in the JSON."""
        added = check.Measure("trace", "", "numpy", lambda s: check.Seen(float(np.abs(s.fc).sum()), "a sum"), lambda b: None, lambda b: 1.0, "too much")
        measures = check.MEASURES
        try:
            check.MEASURES = (*measures, added)
            self.assertRegex(self.judged(1, "VERDICT too much", clean2()), r"FAULT trace +\S+ +, at most 1; a sum \[numpy\]")
        finally:
            check.MEASURES = measures

    def test_delivery(self):
        status, out, _ = self.run_check(SAMPLE)
        self.assertEqual(status, 1)  # as from a fit that knows nothing of symmetry
        self.assertIn("fc2.f64: sums over an atom that are not zero", out)
        self.assertEqual(out.count("8 shifts, every rule is kept"), 2)
        status, out, _ = self.run_check(SAMPLE, "--symmetrize", self.path("out"))
        self.assertEqual(status, 1)
        self.assertIn("\nwritten ", out)
        d, was = files.read_delivery(self.path("out")), files.read_delivery(SAMPLE)
        expected = was.fc2.copy()
        gf.perm_trans_symmetrize_fc(expected, 3)
        self.assertTrue(same_bits(d.fc2, expected))
        third = was.fc3.copy()
        gf.perm_trans_symmetrize_compact_fc3(third, was.tables)
        self.assertTrue(same_bits(d.fc3, third))
        self.assertTrue(gf.audit_compact_fc3(d.fc3, d.tables).alike)
        status, out, err = self.run_check(self.path("out"))
        self.assertEqual(status, 0, out + err)  # clean, at the default tolerance
        self.assertEqual(out.count("no number changes, in any order of its legs"), 2)
        self.assertIn("leave --cell out", self.run_check(SAMPLE, "--cell", "phonopy.yaml")[2])
        for tolerance in ("-1", "nan", "inf", "x"):
            self.assertEqual(self.run_check(SAMPLE, "--tolerance", tolerance)[0], 2)
        status, out, err = self.run_check(SAMPLE, "--symmetrize", self.path("out"))
        self.assertEqual(status, 2)
        self.assertIn("is there already", err)
        self.assertEqual(self.run_check(SAMPLE, "--symmetrize", self.path("out"), "--overwrite")[0], 1)

    def test_swapped_leg_before_symmetrizing(self):
        """x and y exchanged in one block of third order, and then symmetrized: alike and without drift, but not of this crystal."""
        d = files.read_delivery(SAMPLE)
        k = np.unravel_index(np.abs(d.fc3).argmax(), d.fc3.shape)[:3]
        d.fc3[k] = d.fc3[k].transpose(1, 0, 2)[[1, 0, 2]]
        files.write_delivery(self.path("in"), d)
        self.run_check(self.path("in"), "--symmetrize", self.path("out"))
        status, out, _ = self.run_check(self.path("out"))
        self.assertEqual(status, 1)
        self.assertEqual(out.split("\n")[-2], "VERDICT fc3.f64: numbers that do not obey the crystal's operations")

    def test_damaged_delivery(self):
        shutil.copytree(SAMPLE, self.path("in"))
        path = pathlib.Path(self.path("in"), "tables.txt")
        good = path.read_text()
        path.write_text(good.replace("nsym_list 0 1 2", "nsym_list 0 2 1"))
        status, out, _ = self.run_check(self.path("in"))
        self.assertEqual(status, 1)
        self.assertIn("the shift tables break a rule: nsym_list: entry 1 is 2", out)
        self.assertIn("fc3.f64: tables of another cell, or that break a rule", out)
        path.write_text(good + "more\n")
        status, out, err = self.run_check(self.path("in"))
        self.assertEqual((status, out), (2, ""))
        self.assertIn("tables.txt, line 15", err)

    def test_unreadable(self):
        self.assertEqual(self.run_check(self.path("nowhere"))[0], 2)
        files.write(self.path("F"), clean2())
        text = pathlib.Path(self.path("F")).read_text()
        pathlib.Path(self.path("F")).write_text(text[:len(text) // 2])  # cut off
        status, out, err = self.run_check(self.path("F"))
        self.assertEqual((status, out), (2, ""))
        self.assertIn("of 6 x 6 blocks, is expected", err)
        self.judged(2, "no such file", clean2(), "--cell", self.path("nowhere.yaml"))
        pathlib.Path(self.path("bad.yaml")).write_text("- 1\n")
        self.judged(2, "phonopy cannot read it", clean2(), "--cell", self.path("bad.yaml"))
        self.assertEqual(self.run_check()[0], 2)

    def test_beyond_the_limit(self):
        self.judged(2, "refusal 1", np.zeros((1025, 1025, 3, 3)) + np.eye(3))

    def test_json(self):
        fc = clean2()
        fc[1, 2, 0, 1] += 1e-3
        said = json.loads(self.judged_json(fc))
        self.assertEqual((said["verdict"], len(said["faults"])), ("faults", 2))
        one, = said["sets"]
        self.assertEqual((one["order"], one["kind"], one["atoms"]), (2, "full", [6, 6]))
        measures = {m["name"]: m for m in one["measures"]}
        self.assertEqual(list(measures), [m.name for m in check.MEASURES])
        self.assertEqual((measures["drift"]["fault"], measures["drift"]["most"], measures["drift"]["by"]), (True, 1e-6, "proved"))
        self.assertEqual((measures["crystal"]["value"], measures["crystal"]["fault"]), (None, False))
        fc[0, 0, 0, 0] = np.nan
        self.assertEqual(json.loads(self.judged_json(fc))["faults"], ["numbers that are not finite"])
        said = json.loads(self.run_check(SAMPLE, "--json", "--symmetrize", self.path("out"))[1])
        self.assertEqual(([s["order"] for s in said["sets"]], said["written"]), ([2, 3], self.path("out")))

    def judged_json(self, fc):
        np.save(self.path("j.npy"), fc)
        status, out, err = self.run_check(self.path("j.npy"), "--json")
        self.assertEqual((status, err), (1, ""))
        return out

    def test_symmetrize(self):
        fc = random(5, 5, 3, 3)
        for ending in (".npy", "FORCE_CONSTANTS"):
            self.judged(1, "sums", fc, "--symmetrize", self.path("out" + ending))
            self.assertEqual(self.run_check(self.path("out" + ending))[0], 0)
        expected = files.read(self.path("set.npy")).array
        gf.perm_trans_symmetrize_fc(expected, 3)
        self.assertTrue(same_bits(files.read(self.path("out.npy")).array, expected))
        np.testing.assert_allclose(files.read(self.path("outFORCE_CONSTANTS")).array, expected, atol=1e-15)
        self.judged(2, "is there already", fc, "--symmetrize", self.path("out.npy"))
        self.judged(2, "is there already", fc, "--symmetrize", self.path("set.npy"))  # its own input
        self.run_check(self.path("set.npy"), "--symmetrize", self.path("set.npy"), "--overwrite")
        self.assertTrue(same_bits(files.read(self.path("set.npy")).array, expected))
        fc[0, 0, 0, 0] = np.nan
        self.assertIn("nothing: the set cannot be symmetrized", self.judged(1, "finite", fc, "--symmetrize", self.path("other.npy")))
        self.assertFalse(os.path.exists(self.path("other.npy")))

    @unittest.skipUnless(h5py, "needs h5py")
    def test_symmetrize_keeps_what_else_is_in_an_hdf5_file(self):
        """version, compression, attributes and other datasets, as phonopy and phono3py write them."""
        for name, fc in (("force_constants", random(5, 5, 3, 3)), ("fc3", random(3, 3, 3, 3, 3, 3))):
            for dtype in ("f8", "f4"):
                with h5py.File(self.path("in.hdf5"), "w") as f:
                    f.create_dataset(name, data=fc.astype(dtype), compression="gzip", compression_opts=7, shuffle=True).attrs["origin"] = "a fit"
                    f["version"], f["p2s_map"], f.attrs["note"] = np.string_("3.5.1"), np.arange(len(fc)), "kept"
                before = pathlib.Path(self.path("in.hdf5")).read_bytes()
                self.assertEqual(self.run_check(self.path("in.hdf5"), "--symmetrize", self.path("out.hdf5"), "--overwrite")[0], 1)
                self.assertEqual(pathlib.Path(self.path("in.hdf5")).read_bytes(), before)
                self.assertEqual(self.run_check(self.path("out.hdf5"))[0], 0)
                with h5py.File(self.path("out.hdf5"), "r") as f:
                    self.assertEqual((f["version"][()], f["p2s_map"][()].tolist(), f.attrs["note"]), (b"3.5.1", list(range(len(fc))), "kept"))
                    d = f[name]
                    self.assertEqual((d.dtype, d.compression, d.compression_opts, d.shuffle, d.attrs["origin"]), ("f8", "gzip", 7, True, "a fit"))

    @unittest.skipUnless(matplotlib, "needs matplotlib")
    def test_plot(self):
        self.judged(0, "clean", clean2(), "--plot", self.path("plot.png"))
        self.assertTrue(pathlib.Path(self.path("plot.png")).read_bytes().startswith(b"\x89PNG"))
        self.run_check(SAMPLE, "--plot", self.path("delivery.png"))
        self.judged(0, "clean", clean2(), "--plot", self.path("plot.png"))  # an older drawing is replaced
        pathlib.Path(self.path("other.png")).write_text("not a drawing")
        self.judged(2, "is no drawing", clean2(), "--plot", self.path("other.png"))
        self.assertEqual(pathlib.Path(self.path("other.png")).read_text(), "not a drawing")
        self.judged(2, "a plot is a .png", clean2(), "--plot", self.path("set.npy"))  # its own input
        for name in ("delivery-fc2.png", "delivery-fc3.png"):
            self.assertTrue(pathlib.Path(self.path(name)).read_bytes().startswith(b"\x89PNG"))

    @unittest.skipUnless(matplotlib, "needs matplotlib")
    def test_picture(self):
        """Third and fourth order, zeros, no tables, and what cannot be drawn."""
        fc3 = random(3, 3, 3, 3, 3, 3)
        for fc in (fc3, np.zeros((2, 2, 3, 3)), random(1, 4, 3, 3), random(1, 4, 4, 3, 3, 3), np.ones((1, 1, 3, 3)), random(*[2] * 4, *[3] * 4)):
            np.save(self.path("set.npy"), fc)
            self.assertEqual(self.run_main("picture", self.path("set.npy"), self.path("plot.png")), (0, f"drawn   {self.path('plot.png')}\n", ""))
            self.assertTrue(pathlib.Path(self.path("plot.png")).read_bytes().startswith(b"\x89PNG"))
            os.remove(self.path("plot.png"))
        fc3[0, 1, 2, 0, 1, 2] = np.nan
        self.assertIn("drawn   nothing: numbers", self.judged(1, "finite", fc3, "--plot", self.path("plot.png")))
        self.assertEqual(self.run_main("picture", self.path("set.npy"), self.path("plot.png"))[0], 2)
        shutil.copytree(SAMPLE, self.path("in"))
        tables = pathlib.Path(self.path("in"), "tables.txt")
        tables.write_text(tables.read_text().replace("nsym_list 0 1 2", "nsym_list 0 2 1"))
        status, out, err = self.run_check(self.path("in"), "--plot", self.path("plot.png"))
        self.assertEqual((status, err), (1, ""))
        self.assertEqual(out.count("drawn   nothing: tables"), 2)
        self.assertFalse([name for name in os.listdir(self.room.name) if name.endswith(".png")])


@unittest.skipUnless(test_phonopy, "needs phonopy")
class WithACell(Room):
    @classmethod
    def setUpClass(cls):
        cls.ph = test_phonopy.cell("NaCl-222")
        cls.ph.produce_force_constants(calculate_full_force_constants=False)
        cls.ph.symmetrize_force_constants(level=3, show_drift=False)

    def setUp(self):
        super().setUp()
        self.yaml = self.path("phonopy.yaml")
        self.ph.save(self.yaml, settings={"force_sets": False, "displacements": False})
        self.p2s = self.ph.primitive.p2s_map

    def judged_here(self, status, words, fc, p2s=None):
        files.write(self.path("FORCE_CONSTANTS"), fc, p2s=self.p2s if p2s is None else p2s, overwrite=True)
        got, out, err = self.run_check(self.path("FORCE_CONSTANTS"), "--cell", self.yaml)
        self.assertEqual(got, status, out + err)
        self.assertIn(words, out.split("\n")[-2])
        return out

    def test_compact(self):
        out = self.judged_here(0, "clean", self.ph.force_constants)
        self.assertIn("32 shifts, every rule is kept", out)
        self.assertRegex(out, r"ok +crystal .*; 48 operations")
        fc = self.ph.force_constants.copy()
        fc[1, 7, 0, 2] += 0.01
        self.judged_here(1, "sums over an atom that are not zero; numbers that change when atoms are exchanged", fc)
        self.assertIn("1 of 2 rows: 1;", self.judged_here(1, "rows that are zero throughout", fc * [[[[1.0]]], [[[0.0]]]]))

    def test_full(self):
        self.judged_here(0, "clean", gf.compact_to_full_fc2(self.ph.force_constants, gf.Tables.of(self.ph.primitive)), np.arange(64))

    def test_what_the_frequencies_show(self):
        """A sign, a unit and another crystal: what no rule of a set's own numbers can show."""
        good = self.frequencies(0, self.ph.force_constants)
        low, high = self.frequencies(1, -self.ph.force_constants)
        self.assertLess(low, -5.0)
        self.assertAlmostEqual(low, -good[1], 3)
        self.assertAlmostEqual(self.frequencies(0, self.ph.force_constants / 48.5868)[1], good[1] / 48.5868 ** 0.5, 3)
        self.assertGreater(self.frequencies(1, self.ph.force_constants * 1000)[1], 150.0)
        self.ph.run_mesh([2, 2, 2], is_gamma_center=True)
        mesh = self.ph.get_mesh_dict()["frequencies"]  # among the wave vectors that 2 x 2 x 2 cells hold
        self.assertLessEqual(mesh.max(), good[1] + 1e-6)
        self.assertAlmostEqual(good[1], 7.5, delta=3.0)

    def frequencies(self, status, fc):
        files.write(self.path("f.hdf5"), fc, p2s=self.p2s, overwrite=True)
        got, out, _ = self.run_check(self.path("f.hdf5"), "--cell", self.yaml, "--json")
        self.assertEqual(got, status, out)
        measures = {m["name"]: m["value"] for m in json.loads(out)["sets"][0]["measures"]}
        return measures["lowest"], measures["highest"]

    def test_rows_of_another_numbering(self):
        out = self.judged_here(1, "tables of another cell", self.ph.force_constants, [0, int(self.p2s[1]) + 1])
        self.assertIn("the primitive cell has", out)

    def test_another_cell(self):
        self.assertIn("of 2 x 64 atoms, the set is of 1 x 3", self.judged_here(1, "tables of another cell", random(1, 3, 3, 3), [0]))
        self.assertIn("of 2 x 64 atoms, the set is of 3 x 3", self.judged_here(1, "tables of another cell", random(3, 3, 3, 3)))

    def test_symmetrize_compact(self):
        """What the compact call leaves of drift (document: as the Rust does) is not left here."""
        rng = np.random.default_rng(3)
        fc = self.ph.force_constants + 1e-3 * rng.standard_normal(self.ph.force_constants.shape)
        files.write(self.path("in.hdf5"), fc, p2s=self.p2s)
        self.run_check(self.path("in.hdf5"), "--cell", self.yaml, "--symmetrize", self.path("out.hdf5"))
        status, out, err = self.run_check(self.path("out.hdf5"), "--cell", self.yaml)
        self.assertEqual(status, 0, out + err)

    @unittest.skipUnless(matplotlib, "needs matplotlib")
    def test_plot_by_distance(self):
        files.write(self.path("fc.hdf5"), self.ph.force_constants, p2s=self.p2s)
        status, _, err = self.run_check(self.path("fc.hdf5"), "--cell", self.yaml, "--plot", self.path("plot.png"))
        self.assertEqual(status, 0, err)
        self.assertTrue(os.path.exists(self.path("plot.png")))


class Commands(Room):
    """Every sub-command has its help and its statuses."""

    def test_help(self):
        status, out, _ = self.run_main("--help")
        self.assertEqual(status, 0)
        for name in ("check", "verify", "certify", "operations", "picture"):
            self.assertRegex(out, rf"\n +{name}\s+\w")
            status, said, _ = self.run_main(name, "--help")
            self.assertEqual(status, 0)
            self.assertIn("status: 0 it is done", said)
        self.assertRegex(out, r"\n +roll +\w")
        self.assertEqual(self.run_main("--version")[:2], (0, f"gullyfork {gf.__version__}\n"))
        for words in ((), ("nothing",), ("check",), ("check", "--nothing", "x")):
            self.assertEqual(self.run_main(*words)[0], 2)

    def test_certify(self):
        self.run_check(SAMPLE, "--symmetrize", self.path("out"))
        self.assertEqual(self.run_main("certify", SAMPLE, "--before", SAMPLE)[0], 1)  # it is unlike: nothing is written there
        self.assertFalse(os.path.exists(os.path.join(SAMPLE, "certificate.txt")))
        self.assertEqual(self.run_main("certify", self.path("out"), "--before", SAMPLE)[0], 0)
        status, out, _ = self.run_main("verify", self.path("out"))
        self.assertEqual((status, out.split("\n")[-2]), (0, "HOLDS"))
        self.assertIn("STATED ONLY     drift fc2 before: 0.00174091 of the largest, at most 0.01: worst sum 0.027", out)
        self.assertIn("STATED ONLY     set: 40\n", out)
        self.assertEqual(self.run_main("certify", self.path("out"))[0], 2)  # of what?
        self.assertEqual(self.run_main("certify", self.path("out"), "--before", SAMPLE)[0], 2)  # it is there
        self.assertEqual(self.run_main("certify", self.path("out"), "--before", SAMPLE, "--overwrite")[0], 0)
        d = files.read_delivery(self.path("out"))
        files.write_delivery(self.path("out"), d._replace(fc2=d.fc2 * 2), overwrite=True)
        self.assertEqual(self.run_main("verify", self.path("out"))[0], 1)
        self.assertEqual(self.run_main("certify", self.path("nowhere"), "--before", SAMPLE)[0], 2)

    def test_certificates_of_both(self):
        """What certify writes is what the job writes, but for the date, of the job's own sets."""
        shutil.copytree(SAMPLE, self.path("in"))
        pathlib.Path(self.path("in"), "job.txt").write_text("set 9\nunit eV Angstrom\norders 0.002\n")
        for compact in (False, True):
            if compact:  # of second order the rows of the primitive cell alone
                np.fromfile(os.path.join(SAMPLE, "fc2.f64")).reshape(16, -1)[[0, 8]].tofile(self.path("in/fc2.f64"))
            subprocess.run(["sh", os.path.join(ROOT, "delivery", "run"), self.path("in"), self.path("job")], check=True, stdout=subprocess.DEVNULL)
            theirs = pathlib.Path(self.path("job"), "certificate.txt").read_text().split("\n")
            self.assertEqual(self.run_main("certify", self.path("job"), "--before", self.path("in"), "--overwrite")[0], 0)
            ours = pathlib.Path(self.path("job"), "certificate.txt").read_text().split("\n")
            for lines in (ours, theirs):
                del lines[2], lines[-2]  # the date, and the checksum of all lines
            self.assertEqual(ours, theirs)
        pathlib.Path(self.path("in"), "job.txt").write_text("crystal 0.01\n")
        self.assertEqual(self.run_main("certify", self.path("job"), "--before", self.path("in"), "--overwrite")[0], 0)
        self.assertEqual(self.run_main("verify", self.path("job"))[:2][1].split("\n")[-2], "HOLDS, by bounds that are wider than the defaults")
        for text in ("orders 0.5\n", "orders x\n", "set 0\n", "unit eV\n", "more 1\n", "left 1 2\n"):
            pathlib.Path(self.path("in"), "job.txt").write_text(text)
            self.assertNotEqual(self.run_main("certify", self.path("job"), "--before", self.path("in"), "--overwrite")[0], 0)

    def test_operations(self):
        shutil.copytree(SAMPLE, self.path("in"))
        self.assertEqual(self.run_main("operations", self.path("in"))[0], 2)  # they are there
        status, out, _ = self.run_main("operations", self.path("in"), "--overwrite")
        self.assertEqual((status, out), (0, f"written {self.path('in')}/operations.txt: 48 operations\n"))
        self.assertEqual(pathlib.Path(self.path("in"), "operations.txt").read_bytes(), pathlib.Path(SAMPLE, "operations.txt").read_bytes())
        self.assertEqual(self.run_main("operations", self.path("nowhere"))[0], 2)


@unittest.skipUnless(test_phonopy, "needs phonopy")
class Crystals(unittest.TestCase):
    def test_operations_beside_phonopy(self):
        """The point group of the supercell, and where each operation sends every atom: positions and matrices agree."""
        for name, count in (("NaCl-222", 48), ("Si-222", 48), ("TiO2-223", 16), ("Al-333", 48)):
            cell = test_phonopy.cell(name).supercell
            found = crystal.operations(cell)
            self.assertEqual(found.maps.shape, (count, len(cell)))
            self.assertEqual(len({r.tobytes() for r in np.rint(found.rotations * 8)}), count)
            for rotation, sent in zip(found.rotations, found.maps):
                np.testing.assert_allclose(rotation @ rotation.T, np.eye(3), atol=1e-9)
                self.assertEqual(sorted(sent), list(range(len(cell))))
                moved = cell.positions[sent] - cell.positions @ rotation.T  # the same vector for all atoms, but for the cell's
                d = (moved - moved[0]) @ np.linalg.inv(cell.cell)
                self.assertLess(np.abs(d - np.rint(d)).max(), 1e-5)
                self.assertEqual([cell.symbols[a] for a in sent], list(cell.symbols))

    def test_deviation(self):
        """phonopy's own force constants obey their crystal; one block that does not is found, in full and in compact sets."""
        ph = test_phonopy.cell("TiO2-223")
        found, t = crystal.operations(ph.supercell), gf.Tables.of(ph.primitive)
        for full in (True, False):
            ph.produce_force_constants(calculate_full_force_constants=full)
            fc = ph.force_constants.copy()
            def deviation():
                return (gf.crystal_report_fc2(fc, *found) if full else gf.crystal_report_compact_fc2(fc, t, *found)).value

            self.assertLess(deviation(), 1e-6)
            fc[1, 9, 0, 1] += 0.25
            self.assertAlmostEqual(deviation(), 0.25, 6)
            fc[1, 9, 0, 1] = np.nan
            self.assertTrue(np.isnan(deviation()))

    def test_deviation_third_order(self):
        d = files.read_delivery(SAMPLE)
        found = crystal.operations((d.lattice, d.positions, d.elements))
        full = gf.compact_to_full_fc3(d.fc3, d.tables)
        compact = gf.crystal_report_compact_fc3(d.fc3, d.tables, *found)
        self.assertAlmostEqual(compact.value, gf.crystal_report_fc3(full, *found).value, 12)
        turned = Crystals.plain(full, found, compact.operation)
        self.assertAlmostEqual(compact.value, turned[(d.tables.p2s[compact.place[0]], *compact.place[1:])], 12)
        with self.assertRaisesRegex(ValueError, "the positions|lattice|elements|shape"):
            crystal.operations((d.lattice, d.positions[:3], d.elements))

    @staticmethod
    def plain(full, found, r):
        """From the definition: |the block at the images less the rotated block|."""
        turn, sent = found.rotations[r], found.maps[r]
        return np.abs(full[np.ix_(sent, sent, sent)] - np.einsum("ai,bj,ck,xyzijk->xyzabc", turn, turn, turn, full))


if __name__ == "__main__":
    unittest.main()
