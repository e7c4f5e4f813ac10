"""The audits beside numpy, and the certificate of a delivery beside the files: damage of every kind is found."""
import contextlib
import io
import itertools
import os
import pathlib
import pty
import shutil
import subprocess
import sys
import tempfile
import unittest

import numpy as np

import gullyfork as gf
from gullyfork import certificate, files, roll
from gullyfork.__main__ import main
from common import ROOT, SAMPLE, grid_tables, random, read_out

sys.path.insert(0, os.path.join(ROOT, "samples"))
import damage


def plain(full):
    """Of a full set, or a set read out: the first entry at which some order of the pairs has other bits, with the order and both numbers."""
    order = full.ndim // 2
    words = np.where(np.isnan(full), np.nan, full).view(np.int64)
    for k in np.ndindex(full.shape):
        for p in itertools.permutations(range(order)):
            other = tuple(k[i] for i in p) + tuple(k[order + i] for i in p)
            if words[other] != words[k]:
                return gf.Audit(False, k, p, float(full[k]), float(full[other]))
    return gf.Audit(True)


def first_unlike(fc, t):
    """The same of a compact set: its places in their order, what stands there and what another order reads out."""
    order, full = fc.ndim // 2, read_out(fc, t)
    inverse = [np.argsort(p) for p in itertools.permutations(range(order))]  # numpy says which axis goes where, an order which pair is read
    orders = [full.transpose(*p, *(order + k for k in p))[t.p2s] for p in inverse]
    unlike = np.array([other != fc for other in orders])
    if not unlike.any():
        return gf.Audit(True)
    place = tuple(int(k) for k in np.argwhere(unlike.any(axis=0))[0])
    k = int(np.argmax(unlike[(slice(None), *place)]))
    return gf.Audit(False, place, list(itertools.permutations(range(order)))[k], float(fc[place]), float(orders[k][place]))


AUDITS = {2: (gf.audit_fc2, gf.audit_compact_fc2), 3: (gf.audit_fc3, gf.audit_compact_fc3), 4: (gf.audit_fc4, gf.audit_compact_fc4)}


def symmetrized(fc):
    """Every number made that of the first of its group."""
    order, out = fc.ndim // 2, fc.copy()
    for k in np.ndindex(fc.shape):
        out[k] = fc[min(tuple(k[i] for i in p) + tuple(k[order + i] for i in p) for p in itertools.permutations(range(order)))]
    return out


class Audits(unittest.TestCase):
    def same(self, got, want):
        self.assertEqual(got[:3], want[:3])
        if not got.alike:
            self.assertEqual(np.float64(got[3:]).tobytes(), np.float64(want[3:]).tobytes())

    def test_full(self):
        for order, (audit, _) in AUDITS.items():
            for n in range(4 if order < 4 else 3):
                fc = symmetrized(random(*[n] * order, *[3] * order))
                self.assertEqual(audit(fc), (True, None, None, None, None))
                for seed in range(6):
                    if fc.size:
                        one = fc.copy()
                        one.flat[np.random.default_rng(seed).integers(fc.size)] = [7.0, -0.0, np.nan][seed % 3]
                        self.same(audit(one), plain(one))

    def test_compact(self):
        for order, (_, audit) in AUDITS.items():
            for grid, p in (((1, 1, 1), 1), ((2, 1, 1), 1), ((3, 1, 1), 2), ((2, 2, 1), 1)):
                t = grid_tables(grid, p, seed=order)
                if order == 4 and t.n_satom > 4:
                    continue
                fc = random(p, *[t.n_satom] * (order - 1), *[3] * order)
                if order == 2:
                    gf.set_index_permutation_symmetry_compact_fc(fc, t, False)
                else:
                    getattr(gf, f"set_permutation_symmetry_compact_fc{order}")(fc, t)
                self.assertTrue(audit(fc, t).alike)
                for seed in range(6):
                    one = fc.copy()
                    one.flat[np.random.default_rng(seed).integers(fc.size)] += 1.0
                    self.same(audit(one, t), first_unlike(one, t))

    def test_same_set(self):
        a = random(2, 2, 3, 3)
        b = a.copy()
        self.assertTrue(gf.same_set(a, b).alike)
        b[1, 0, 2, 1] = np.nextafter(b[1, 0, 2, 1], 9.0)
        self.same(gf.same_set(a, b), gf.Audit(False, (1, 0, 2, 1), None, a[1, 0, 2, 1], b[1, 0, 2, 1]))
        self.assertRaises(ValueError, gf.same_set, a, b[0])


class Certificates(unittest.TestCase):
    """python -m gullyfork verify says what delivery/verify says, letter for letter; check says it too."""

    @classmethod
    def setUpClass(cls):
        cls.room = tempfile.TemporaryDirectory()
        cls.addClassCleanup(cls.room.cleanup)
        cls.delivered, cls.program = os.path.join(cls.room.name, "delivered"), os.path.join(ROOT, "target", "bin", "verify")
        for words in (["run", SAMPLE, cls.delivered], ["compile", "verify"]):
            subprocess.run(["sh", os.path.join(ROOT, "delivery", words[0]), *words[1:]], check=True, stdout=subprocess.DEVNULL)

    def setUp(self):
        self.folder = os.path.join(self.room.name, "folder")
        shutil.rmtree(self.folder, ignore_errors=True)
        shutil.copytree(self.delivered, self.folder)

    def run_main(self, *words):
        out, err = io.StringIO(), io.StringIO()
        with contextlib.redirect_stdout(out), contextlib.redirect_stderr(err):
            status = main([*words])
        return status, out.getvalue(), err.getvalue()

    def verified(self, status):
        """Both commands end with the status and say the same; what they say."""
        got, said, err = self.run_main("verify", self.folder)
        self.assertEqual(got, status, said + err)
        p = subprocess.run([self.program, self.folder], capture_output=True)
        self.assertEqual((p.returncode, p.stdout.decode("utf-8", "replace")), (status, said))
        self.assertEqual(bool(p.stderr), bool(err))
        return said

    def test_holds(self):
        self.assertTrue(self.verified(0).endswith("HOLDS\n"))
        self.assertTrue(all(line.holds is not False for line in certificate.verify(self.folder)))
        status, said, _ = self.run_main("check", self.folder)
        self.assertEqual(status, 0, said)
        self.assertIn("holds           audit fc3: alike\n", said)
        self.assertTrue(said.endswith("VERDICT clean\n"))

    def test_every_byte(self):
        """A bit of every byte of the small files, and of bytes all over the large ones."""
        for name in os.listdir(self.folder):
            path = pathlib.Path(self.folder, name)
            data = path.read_bytes()
            for k in range(0, len(data), 1 if len(data) < 4000 else 1997):
                path.write_bytes(data[:k] + bytes([data[k] ^ 1 << k % 8]) + data[k + 1:])
                self.assertEqual(self.run_main("verify", self.folder)[0], 1, f"{name}, byte {k}")
                if k % 41 == 0:
                    self.assertIn("DOES NOT HOLD", self.verified(1))
            for left in (data[:-1], b"", data * 2):
                path.write_bytes(left)
                self.verified(1)
            path.unlink()
            self.assertIn("No such file", self.verified(1))
            path.write_bytes(data)
        self.verified(0)

    def test_swapped_leg(self):
        shutil.rmtree(self.folder)
        with contextlib.redirect_stdout(io.StringIO()):
            damage.main(self.delivered, self.folder)
        said = self.verified(1)
        self.assertIn("holds           fc3.f64: ", said)
        self.assertIn("DOES NOT HOLD   audit fc3: unlike, worst difference ", said)
        status, said, _ = self.run_main("check", self.folder)
        self.assertEqual(status, 1)
        self.assertIn("DOES NOT HOLD   audit fc3: unlike, worst difference ", said)
        self.assertIn("certificate.txt: audit fc3", said.splitlines()[-1])
        d = files.read_delivery(self.folder)
        self.assertFalse(gf.audit_compact_fc3(d.fc3, d.tables).alike)

    def test_every_kind_of_damage(self):
        """The same words of both, whatever the damage: with checksums that fit, and with every line made true."""
        def said(folder):
            return subprocess.run([self.program, folder], capture_output=True, text=True).stdout

        for kind in damage.KINDS:
            with self.subTest(kind):
                shutil.rmtree(self.folder)
                with contextlib.redirect_stdout(io.StringIO()):
                    try:
                        damage.main(self.delivered, self.folder, kind)
                    except ValueError:  # this sample has no weak three-body block
                        self.assertIn(kind, ("swapped-weak-leg", "hidden-leg"))
                for _ in range(2):
                    p = subprocess.run([self.program, self.folder], capture_output=True, text=True)
                    status, out, _ = self.run_main("verify", self.folder)
                    self.assertEqual((status, out), (p.returncode, p.stdout))
                    damage.certify_true(self.folder, said)

    def test_roll(self):
        """Which set of a roll it is, in the same words of both."""
        desk, path = os.path.join(self.room.name, "roll.bin"), os.path.join(self.folder, "certificate.txt")
        label, stated = roll.label_of(path)
        self.assertEqual(stated, "40")

        def both(status, words):
            got = self.run_main("verify", "--roll", desk, self.folder)
            p = subprocess.run([self.program, "--roll", desk, self.folder], capture_output=True, text=True)
            self.assertEqual((p.returncode, p.stdout), (status, got[1]), got)
            self.assertEqual(got[0], status)
            self.assertIn(words, got[1])

        roll.begin(desk)
        both(1, "DOES NOT HOLD   roll: no record of")
        for k in ("delivery", "verify"):  # both commands append the same label
            os.remove(desk)
            roll.begin(desk)
            if k == "delivery":
                subprocess.run(["sh", os.path.join(ROOT, "delivery", "roll"), "append", desk, "delivery", "40", "--certificate", path], check=True)
            else:
                self.assertEqual(self.run_main("roll", "append", desk, "delivery", "40", "--certificate", path)[0], 0)
            self.assertEqual([r.label for r in roll.records(roll.load(desk))], [label])
            both(0, f"holds           roll: set 40 of {desk}, which stands now\n")
        self.assertEqual(self.run_main("roll", "append", desk, "replacement", "41", "40", "--certificate", path)[0], 1)  # it is 40's
        roll.append(desk, roll.Kind.REPLACEMENT, 41, 40)
        both(1, f"DOES NOT HOLD   roll: set 40 of {desk}, which was replaced: use 41\n")
        roll.retire(desk, 41)
        both(1, "which is retired")
        pathlib.Path(desk).write_bytes(b"x" * 20)
        both(1, "is not a roll")
        os.remove(desk)
        both(1, "")

    def test_numbers_that_are_none(self):
        """NaN, infinities and zeros in the sets, with checksums that fit: the same words of both."""
        for name in ("fc2.f64", "fc3.f64"):
            for numbers in ([np.nan], [-np.nan], [np.inf], [-np.inf, 5e-324], [0.0], [1e308, 1e308]):
                d = np.fromfile(os.path.join(self.delivered, name))
                d[40:40 + len(numbers)] = numbers
                if numbers == [0.0]:
                    d[:] = 0.0
                d.tofile(os.path.join(self.folder, name))
                damage.certify_anew(self.folder)
                self.assertIn("DOES NOT HOLD   drift " + name[:3], self.verified(1))
            shutil.copy(os.path.join(self.delivered, name), self.folder)

    def test_damaged_texts(self):
        """Tables and cells that are others, or are none, with checksums that fit."""
        good = {name: pathlib.Path(self.delivered, name).read_text() for name in ("tables.txt", "cell.txt")}
        cases = (("tables.txt", "n_satom 16", "n_satom 1x"), ("tables.txt", "s2pp 0 0", "s2pp 0 1"), ("tables.txt", "p2s 0 8", "p2s 0 99"),
                 ("tables.txt", "perms 1 0", "perms -1 0"), ("tables.txt", "n_patom 2", "n_patom 3"), ("cell.txt", "Mg 0.0 0.0 0.0", "Mg 0.0 0.1 0.0"),
                 ("cell.txt", "Mg 0.0 0.0 0.0", "Mg 1e308 -1e308 0.0"), ("cell.txt", "Mg 0.0 0.0 0.0", "Mg 0.0 nan 0.0"),
                 ("tables.txt", "p2s 0 8", "p2s 0\x1d8"), ("tables.txt", "p2s 0 8", "p2s 0 \v8"), ("tables.txt", "p2s 0 8", "p2s 0\r8"),
                 ("tables.txt", "p2s 0 8", "p2s 0 8\0 9"), ("cell.txt", "Mg 0.0 0.0 0.0", "M\u00fc 0.0 0.0 0.0"))
        for name, old, new in cases:
            with self.subTest(new):
                self.assertIn(old, good[name])
                pathlib.Path(self.folder, name).write_bytes(good[name].replace(old, new).encode("latin-1"))
                damage.certify_anew(self.folder)
                self.verified(0 if "\r" in new else 1)  # which is a blank, and not the end of a line
                pathlib.Path(self.folder, name).write_text(good[name])

    def test_certificates(self):
        """What is no certificate, and one of another version."""
        path = pathlib.Path(self.folder, "certificate.txt")
        lines = path.read_text().split("\n")
        for changed in (lines[:1], ["gullyfork certificate 1", *lines[1:]], [*lines[:3], *lines[4:]], [*lines[:-2], "more: 1", *lines[-2:]],
                        [*lines, "more"], ["\0"], ["x" * 70000]):
            path.write_text("\n".join(changed))
            self.verified(1)
        path.write_text("\n".join([lines[0], "library: 0.9.9", *lines[2:]]))
        damage.certify_anew(self.folder)
        self.assertIn("STATED ONLY     library: 0.9.9 wrote it, ", self.verified(0))

    def test_no_files(self):
        for name in os.listdir(self.folder):
            path = os.path.join(self.folder, name)
            for kind in (os.mkdir, os.mkfifo, lambda p: open(p, "w").close() or os.truncate(p, 1 << 40)):
                os.remove(path)
                kind(path)
                self.verified(1)
                shutil.rmtree(path) if os.path.isdir(path) else os.remove(path)
                shutil.copy(os.path.join(self.delivered, name), path)
        shutil.rmtree(self.folder)
        self.verified(1)
        os.mkdir(self.folder)
        self.verified(1)
        self.assertEqual(self.run_main("check", self.folder)[0], 2)

    def test_terminal(self):
        """On a terminal the steps are named on standard error, each over the one before, and the last is wiped; elsewhere nothing is said."""
        ours, theirs = pty.openpty()
        words = [sys.executable, "-m", "gullyfork", "check", self.folder]
        with subprocess.Popen(words, stdout=subprocess.DEVNULL, stderr=theirs) as p:
            os.close(theirs)
            said = b""
            with os.fdopen(ours, "rb", buffering=0) as f:
                with contextlib.suppress(OSError):  # how the end of a terminal is told
                    while part := f.read(4096):
                        said += part
            self.assertEqual(p.wait(), 0)
        wipe = b"\r" + b" " * 78 + b"\r"
        for step in (b"checksum of fc3.f64: 100 % ..", b"audit fc3 ..", b"fc3.f64: exchange .."):
            self.assertIn(wipe + step, said)
        self.assertTrue(said.endswith(wipe))
        self.assertEqual(subprocess.run(words, capture_output=True).stderr, b"")

    def test_check_without_a_readable_set(self):
        """A set that is cut off, with its certificate: faults, status 1; without: unreadable, 2."""
        path = pathlib.Path(self.folder, "fc3.f64")
        path.write_bytes(path.read_bytes()[:-8])
        status, said, err = self.run_main("check", self.folder)
        self.assertEqual(status, 1)
        self.assertIn("certificate.txt: fc3.f64", said.splitlines()[-1])
        self.assertIn("fc3.f64: it has 110584 bytes", err)
        os.remove(os.path.join(self.folder, "certificate.txt"))
        self.assertEqual(self.run_main("check", self.folder)[0], 2)


if __name__ == "__main__":
    unittest.main()
