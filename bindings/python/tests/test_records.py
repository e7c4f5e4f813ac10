"""The recorded answers of the Rust, and of the later requests' models, through the package, bit for bit.

crates/replay_*/stdin has them; oracle/README.md says what stands in a record. The package takes shapes where C takes counts and lengths, so the
records whose lengths are not those that their counts state cannot be said here, and are passed over.
"""
import os
import unittest

import numpy as np

import gullyfork as gf
from common import ROOT

PRIME = np.uint64(4294967291)
BY = np.uint64(1000003)
NAN = 0x7FF8000000000000
PAGE = 8192

CLASSES = np.array([
    [0] * 16, [1] * 10 + [2] * 4 + [0] * 2, [3] * 8 + [0] * 7 + [1], [4] + [0] * 15, [5] + [0] * 15, [6] * 16, [1] * 16,
    [0] * 9 + [1, 1, 2, 3, 4, 5, 6], [7] * 16, [8] * 16, [1] * 8 + [2] * 8, [9] * 16])
KEPT, SET = np.array([
    (0x807FFFFFFFFFFFFF, 0x3F80000000000000), (0x8000000000000000, 0), (0x800FFFFFFFFFFFFF, 0), (0x801FFFFFFFFFFFFF, 0x7FC0000000000000),
    (0x8000000000000000, 0x7FF0000000000000), (0, NAN), (0xFFFFFFFFFFFFFFFF, 0), (0, 0x8000000000000000),
    (0x007FFFFFFFFFFFFF, 0x3F80000000000000), (0x800FFFFFFFFFFFFF, 0x7FE0000000000000)], np.uint64).T


# ---- numbers from a seed, and checksums, as crates/replays makes them

def mixed(h, w):
    return (h % PRIME * BY + w % PRIME) % PRIME


def stirred(h):
    return mixed(h * h % PRIME, h)


def drawn(n, seed):
    return stirred(mixed(np.uint64(seed), np.arange(n, dtype=np.uint64)))


def floats(shape, seed, kind):
    n = int(np.prod(shape))
    a = drawn(n, seed)
    b = stirred(a)
    c = CLASSES[kind][(a % np.uint64(16)).astype(int)]
    return ((b + (stirred(b) << np.uint64(32))) & KEPT[c] | SET[c]).view(np.float64).reshape(shape)


def bytes_of(n, seed):
    return (drawn(n, seed) % np.uint64(256)).astype(np.uint8)


def axes(flags):
    return [(flags >> 8 * k) % 256 != 0 for k in range(3)]


def words_of(a):
    if a.dtype != np.float64:
        return a.ravel().astype(np.int64).view(np.uint64)
    return np.where(np.isnan(a), np.uint64(NAN), a.ravel().view(np.uint64).reshape(a.shape)).ravel()


def checksum(a):
    """The polynomial of the words with BY, from the first down: worked out by halves, all at once."""
    words = words_of(a) % PRIME
    by = BY
    while len(words) > 1:
        if len(words) % 2:
            words = np.concatenate([np.zeros(1, np.uint64), words])
        words = (words[::2] * by + words[1::2]) % PRIME
        by = by * by % PRIME
    return int(words[0]) if len(words) else 0


# Whose file each part of the records stands in, its first page there, and how many pages it has.
PARTS = {
    "common": ("cells", 0, 1), "shifts": ("cells", 1, 3), "cells": ("cells", 4, 4), "finding": ("cells", 8, 4),
    "fc2": ("sets", 0, 3), "fc3": ("sets", 3, 3), "fc4": ("sets", 6, 2), "true": ("sets", 8, 3),
    "row_sums": ("sums", 0, 3), "acoustic": ("sums", 3, 3),
    "distribute_fc2": ("maps", 0, 2), "distribute": ("maps", 2, 1), "deltas": ("maps", 3, 1), "full_sets": ("maps", 4, 4),
    "audits": ("reports", 0, 3), "reports": ("reports", 3, 10),
    "roll": ("roll", 0, 6), "retire": ("roll", 6, 3)}


def records(name):
    program, first, pages = PARTS[name]
    words = np.fromfile(os.path.join(ROOT, "crates", f"replay_{program}", "stdin"), "<u8")[first * PAGE:(first + pages) * PAGE]
    for page in range(0, len(words), PAGE):
        at = page + 1
        for _ in range(int(words[page])):
            if name == "common":
                yield words[at:at + 4]
                at += 4
            else:
                n = int(words[at])
                yield words[at + 1:at + 1 + n]
                at += 1 + n


class Words:
    """The words of a record, taken from the left."""

    def __init__(self, words):
        self.words = words

    def take(self, n):
        out, self.words = self.words[:n], self.words[n:]
        return out

    def ints(self, n):
        return [int(w) for w in self.take(n)]

    def tables(self, lengths):
        return [self.take(n).view(np.int64) for n in lengths]


def answer(call):
    """0 or the refusal, and what the call gave."""
    try:
        return 0, call()
    except gf.Refused as e:
        return e.number, None


def sent(p2s, s2pp, nsym_list, perms, counts):
    """Tables, if the lengths are what the counts state."""
    n_satom, n_patom, num_trans = counts
    if (len(p2s), len(s2pp), len(nsym_list), len(perms)) != (n_patom, n_satom, n_satom, num_trans * n_satom) or n_satom == 0:
        return None
    return gf.Tables(p2s, s2pp, nsym_list, perms.reshape(num_trans, n_satom))


class Records(unittest.TestCase):
    def least(self, done, passed, least):
        """So many records were replayed."""
        self.assertGreaterEqual(done, least, f"{done} replayed, {passed} passed over")

    def test_common(self):
        for x, nint, rounded, root in records("common"):
            value = float(np.uint64(x).view(np.float64))
            self.assertEqual(gf.nint(value), int(nint.view(np.int64)))
            for got, expected in ((gf.round(value), rounded), (gf.sqrt(value), root)):
                self.assertEqual(int(words_of(np.array([got]))[0]), int(expected))

    def test_matching(self):
        done = passed = 0
        for r in map(Words, records("cells")):
            recorded, *sums, n, slots, pos, rot_pos, lattice, flags, pair = r.ints(10)
            pbc, symprec = axes(*r.ints(1)), r.take(1).view(np.float64)[0]
            cell, p, q = (r.take(k).view(np.float64) for k in (lattice, pos, rot_pos))
            if (slots, pos, lattice, flags, pair) != (n, 3 * n, 9, 3, 2) or rot_pos % 3:
                passed += 1
                continue
            positions = p.reshape(-1, 3), q.reshape(-1, 3)
            number, match = answer(lambda: gf.compute_permutation(cell.reshape(3, 3), float(symprec), *positions, pbc=pbc))
            self.assertEqual(number, recorded if recorded < 64 else 0)
            if match:
                self.assertEqual((match.found, match.pair is not None), (recorded == 0, recorded == 69))
                self.assertEqual([checksum(match.slots), checksum(np.array(match.pair or (7, 7)))], sums)
            done += 1
        self.least(done, passed, 250)

    def test_finding(self):
        done = passed = 0
        for r in map(Words, records("finding")):
            recorded, *sums, free, n, slots, marks, lattice, periodic, pos, rot_pos, flags = r.ints(12)
            symprec, cell = r.take(1).view(np.float64)[0], r.take(lattice).view(np.float64)
            p, q = r.take(pos).view(np.float64), r.take(rot_pos).view(np.float64)
            if (slots, marks, lattice, periodic, pos) != (n, n, 9, 3, 3 * n) or rot_pos % 3:
                passed += 1
                continue
            positions = p.reshape(-1, 3), q.reshape(-1, 3)
            number, pairing = answer(lambda: gf.find_permutation(cell.reshape(3, 3), float(symprec), *positions, pbc=axes(flags)))
            self.assertEqual(number, recorded if recorded < 64 else 0)
            if pairing:
                near = r.take(16 * n).reshape(n, 16)[:, :n].astype(bool)
                self.judge_pairing(pairing, recorded == 0, sums, free, near)
            done += 1
        self.least(done, passed, 170)

    def judge_pairing(self, pairing, found, sums, free, near):
        """free: 1, any bijection of near pairs may come back; 2, any group with fewer near slots than members."""
        n = len(near)
        self.assertEqual(pairing.found, found)
        if free == 1:
            self.assertEqual(sorted(pairing.slots), list(range(n)))
            self.assertTrue(near[pairing.slots, range(n)].all())
        else:
            self.assertEqual(checksum(pairing.slots), sums[0])
        if free == 2:
            self.assertLess(near[pairing.crowded].any(axis=0).sum(), pairing.crowded.size)
        else:
            self.assertEqual((checksum(np.zeros(n, np.uint8)), pairing.crowded.size), (sums[1], 0))

    def test_shifts(self):
        done = passed = 0
        for r in map(Words, records("shifts")):
            _, verdict, *_, n_satom, n_patom, num_trans = r.ints(11)
            perms, p2s, s2pp, nsym_list = r.tables(r.ints(4))
            t = sent(p2s, s2pp, nsym_list, perms, (n_satom, n_patom, num_trans))
            if t is None:
                passed += 1
                continue
            self.assertEqual(answer(t.check)[0], verdict)
            done += 1
        self.least(done, passed, 150)

    def test_distributor(self):
        done = passed = 0
        for r in map(Words, records("distribute_fc2")):
            refusal, *sums, seed, kind, turned, set_len, work_len, rotations, n, m, k = r.ints(12)
            a = r.tables(r.ints(5))
            if set_len != m * n * 9 or rotations != k * 9 or len(a[1]) != len(a[0]) or len(a[2]) != k * n or (len(a[3]), len(a[4])) != (n, n):
                passed += 1
                continue
            fc, work = floats((m, n, 3, 3), seed, kind), drawn(work_len, seed + 1).view(np.int64)
            number, _ = answer(lambda: gf.distribute_fc2(
                fc, a[0], a[1], floats((k, 3, 3), seed + 2, turned), a[2].reshape(k, n), a[3], a[4], work=work))
            self.assertEqual([number, checksum(fc), checksum(work)], [refusal, *sums])
            done += 1
        self.least(done, passed, 110)

    def higher(self, name, calls, least):
        done, passed, memory = 0, 0, np.zeros(83000)
        for r in map(Words, records(name)):
            refusal, of_set, of_work, call, fresh = r.ints(5)
            t_type, seed, kind, set_len, work_len, *counts = int(r.take(1).view(np.int64)[0]), *r.ints(7)
            perms, p2s, s2pp, nsym_list = r.tables(r.ints(4))
            order, compact, typed, function = calls[call]
            if fresh:
                memory[:set_len] = floats(set_len, seed, kind)
            n, first = counts[0], counts[1] if compact else counts[0]
            t = sent(p2s, s2pp, nsym_list, perms, counts) if compact else None
            if (compact and t is None) or set_len != first * n ** (order - 1) * 3 ** order:
                passed += 1  # refused, so the set stays
                continue
            fc, work = memory[:set_len].reshape(first, *(n,) * (order - 1), *(3,) * order), bytes_of(work_len, seed)
            lent = {} if function is gf.set_permutation_symmetry_fc3 else {"work": work}
            number, _ = answer(lambda: function(fc, *([t] if compact else []), *([t_type] if typed else []), **lent))
            self.assertEqual((number, checksum(fc), checksum(work)), (refusal, of_set, of_work))
            done += 1
        self.least(done, passed, least)

    def test_second(self):
        unsigned = 2 ** 64
        self.higher("fc2", {
            0: (2, False, True, lambda fc, level, work: gf.perm_trans_symmetrize_fc(fc, level % unsigned)),
            1: (2, True, True, lambda fc, t, level, work: gf.perm_trans_symmetrize_compact_fc(fc, t, level % unsigned, work=work)),
            2: (2, True, True, lambda fc, t, transposed, work: gf.set_index_permutation_symmetry_compact_fc(fc, t, transposed == 1, work=work))}, 350)

    def test_third(self):
        self.higher("fc3", {0: (3, False, False, gf.set_permutation_symmetry_fc3), 1: (3, True, False, gf.set_permutation_symmetry_compact_fc3),
                            2: (3, True, True, gf.transpose_compact_fc3)}, 200)

    def test_fourth(self):
        self.higher("fc4", {3: (4, False, False, gf.set_permutation_symmetry_fc4), 4: (4, True, False, gf.set_permutation_symmetry_compact_fc4),
                            5: (4, True, True, gf.transpose_compact_fc4)}, 120)

    def test_true_transposes(self):
        self.higher("true", {2: (2, True, False, gf.true_transpose_compact_fc2), 3: (3, True, True, gf.true_transpose_compact_fc3),
                             4: (4, True, True, gf.true_transpose_compact_fc4),
                             5: (4, True, True, lambda fc, t, legs, work: gf.swap_pairs_compact_fc4(fc, t, legs % 8, legs // 8, work=work))}, 200)

    def test_read_outs(self):
        done = passed = 0
        for r in map(Words, records("full_sets")):
            refusal, of_full, order, seed, before, kind, full_len, set_len, *counts = r.ints(11)
            perms, p2s, s2pp, nsym_list = r.tables(r.ints(4))
            t = sent(p2s, s2pp, nsym_list, perms, counts)
            others = (counts[0],) * (order - 1) + (3,) * order
            if t is None or (full_len, set_len) != tuple(int(np.prod((first, *others), dtype=object)) for first in counts[:2]):
                passed += 1
                continue
            out = floats((counts[0], *others), before, kind)
            call = (gf.compact_to_full_fc2, gf.compact_to_full_fc3, gf.compact_to_full_fc4)[order - 2]
            number, _ = answer(lambda: call(floats((counts[1], *others), seed, kind), t, out=out))
            self.assertEqual((number, checksum(out)), (refusal, of_full))
            done += 1
        self.least(done, passed, 270)

    def test_distributors(self):
        done = passed = 0
        for r in map(Words, records("distribute")):
            refusal, of_set, order, seed, kind, set_len, target, source, n, first, map_len, rotation, rotation_kind = r.ints(13)
            mapping = r.take(map_len).view(np.int64)
            if set_len != first * n ** (order - 1) * 3 ** order or map_len != n or rotation != 9:
                passed += 1
                continue
            fc = floats((first, *(n,) * (order - 1), *(3,) * order), seed, kind)
            call = gf.distribute_fc3 if order == 3 else gf.distribute_fc4
            number, _ = answer(lambda: call(fc, target, source, mapping, floats((3, 3), seed + 1, rotation_kind)))
            self.assertEqual((number, checksum(fc)), (refusal, of_set))
            done += 1
        self.least(done, passed, 150)

    def test_deltas(self):
        done = passed = 0
        for r in map(Words, records("deltas")):
            refusal, of_result, of_work, order, seed, kind, matrix, result, deltas, inv_u, sites, maps, work_len, n, syms, disps = r.ints(16)
            rot_map_syms = r.take(maps).view(np.int64)
            shapes = {"result": (n,) * order + (3,) * (order + 1), "deltas": (disps, *(n,) * order, *(3,) * order)}
            stated = (*(int(np.prod(s, dtype=object)) for s in shapes.values()), 3 * disps * syms, syms * 9, syms * n)
            if (result, deltas, inv_u, sites, maps) != stated or max(n, syms, disps) > 1024:
                passed += 1
                continue
            out, work = floats(shapes["result"], seed + 3, kind), floats(work_len, seed + 4, kind)
            call = gf.rotate_delta_fc2s if order == 2 else gf.rotate_delta_fc3s
            number, _ = answer(lambda: call(floats(shapes["deltas"], seed, kind), floats((3, disps * syms), seed + 1, matrix),
                                            floats((syms, 3, 3), seed + 2, matrix), rot_map_syms.reshape(syms, n), out=out, work=work))
            self.assertEqual((number, checksum(out), checksum(work)), (refusal, of_result, of_work))
            done += 1
        self.least(done, passed, 150)

    def test_rolls(self):
        done = passed = 0
        for r in map(Words, records("roll")):
            number, of_lent, of_slots, call, count, place, set, earlier, label, slots, base, base_label, length = r.ints(13)
            if base:
                lent = gf.roll.EMPTY
                for k in range(1, min(base, 60) + 1):
                    lent = gf.roll.appended(lent, 1, k, label=bytes_of(base_label, 1).tobytes())
                if base > 60:
                    passed += 1
                    continue
                lent = np.frombuffer(lent + bytes(length - len(lent)), np.uint8).copy()
            else:
                lent = r.take(-(-length // 8)).view(np.uint8)[:length].copy()
            if slots != (1 if call in (2, 3) else 6) or label > 300:
                passed += call not in (0, 4)
                if call not in (0, 4):
                    continue
            kept = np.full(slots, 9, np.int64)
            if call in (0, 4):
                judge = gf.is_roll if call == 0 else gf.is_roll_former
                got = 0 if judge(lent, count=count) else 7
            elif call in (1, 5):
                read = gf.read_roll if call == 1 else gf.read_roll_former
                got, record = answer(lambda: read(lent, place, count=count))
                if got == 0 and record is None:
                    got = 68
                elif got == 0:
                    start = record.next - len(record.label)
                    kept[:] = record.kind, record.set, record.earlier, start, len(record.label), record.next
            elif call == 3:
                got, standing = answer(lambda: gf.stands_now(lent, set, count=count))
                if standing is not None:
                    got, kept[:] = standing.state.value, standing.use or 9
            else:
                got, new = answer(lambda: gf.append_roll(lent, place, set, earlier, bytes_of(label, set).tobytes(), count=count))
                kept[:] = 9 if new is None else new
            self.assertEqual((got, checksum(lent), checksum(kept)), (number, of_lent, of_slots))
            done += 1
        self.least(done, passed, 700)

    def test_retired_everywhere(self):
        done = passed = 0
        for r in map(Words, records("retire")):
            number, of_lent, slot, other, count, set, slots, length = r.ints(8)
            lent = r.take(-(-length // 8)).view(np.uint8)[:length].copy()
            if slots != 1:
                passed += 1
                continue
            got, new = answer(lambda: gf.retire_all(lent, set, count=count))
            self.assertEqual((got, checksum(lent), 9 if new is None else new, 9), (number, of_lent, slot, other))
            done += 1
        self.least(done, passed, 300)

    def told(self, call, fc, other, t, r_carts, operations):
        """The function of the package that the number of a call names, on its arguments."""
        family, order, compact = call // 20, call % 10, call % 20 < 10
        if call % 20 == 0:
            return (gf.same_set if call == 0 else gf.set_difference)(fc, other)
        if call in (5, 15, 16):
            return {5: gf.drift_report_compact_fc2, 15: gf.drift_report_fc3, 16: gf.drift_report}[call](*([fc, t] if compact else [fc]))
        name = ("audit", "difference_report", "crystal_report", "drift_report")[family] + ("_compact" if compact else "") + f"_fc{order}"
        return getattr(gf, name)(fc, *([t] if compact else []), *([r_carts, operations] if family == 2 else []))

    def reported(self, name, least):
        done = passed = 0
        for r in map(Words, records(name)):
            recorded, _, of_numbers, call, *counts, seed, kind, single, set_len, other_len, place = r.ints(13)
            lengths, (numbers, matrices, num_rot) = r.ints(5), r.ints(3)
            perms, p2s, s2pp, nsym_list, operations = r.tables(lengths)
            r_carts, singles = r.take(matrices).view(np.float64), r.take(2 * single).reshape(single, 2)
            n, compact = counts[0], 0 < call % 20 < 10
            order = {0: 0, 5: 2, 15: 3, 16: 2, 20: 0}.get(call, call % 10)
            t = sent(p2s, s2pp, nsym_list, perms, counts) if compact else None
            shape = (counts[1] if compact else n, *(n,) * (order - 1), *(3,) * order) if order else (set_len,)
            fits = (place, numbers) == (4 if call in (5, 16) else 6 if call == 15 else 2, 2 if call < 15 and call != 5 else 1)
            crystal = call // 20 != 2 or (matrices, len(operations)) == (9 * num_rot, n * num_rot)
            if (compact and t is None) or set_len != int(np.prod(shape, dtype=object)) or not fits or not crystal or (order == 0 and set_len != other_len):
                passed += 1
                continue
            fc = floats(set_len, seed, kind)
            other = fc.copy()
            changed = fc if order else other
            changed[singles[:, 0].astype(int)] = singles[:, 1].view(np.float64)
            operations = operations.reshape(num_rot, n) if call // 20 == 2 else None
            number, told = answer(lambda: self.told(call, fc.reshape(shape), other.reshape(shape), t, r_carts.reshape(-1, 3, 3), operations))
            self.assertEqual(number, recorded if recorded < 64 else 0)
            if recorded in (73, 74):
                self.assertEqual(told.alike, recorded == 73)
                self.assertEqual(checksum(np.array([7.0, 7.0] if told.alike else [told.here, told.there])), of_numbers)
            elif told is not None:
                self.assertEqual((told.kind.value, checksum(np.array([told.value]))), (recorded, of_numbers))
            done += 1
        self.least(done, passed, least)

    def test_audits(self):
        self.reported("audits", 300)

    def test_reports(self):
        self.reported("reports", 900)

    def test_row_sums(self):
        done = passed = 0
        for r in map(Words, records("row_sums")):
            refusal, of_set, of_sums, call, n, i, j, set_len, sums_len, block_len = r.ints(10)
            fc, sums, block = (r.take(k).view(np.float64).copy() for k in (set_len, sums_len, block_len))
            if set_len != n * n * 9 or sums_len != n * 9 or (call == 1 and block_len != 9):
                passed += 1
                continue
            fc, sums = fc.reshape(n, n, 3, 3), sums.reshape(n, 3, 3)
            if call == 0:
                number, _ = answer(lambda: gf.row_sums_fc2(fc, out=sums))
            else:
                number, _ = answer(lambda: gf.replace_block_fc2(fc, sums, block.reshape(3, 3), i, j))
            self.assertEqual((number, checksum(fc), checksum(sums)), (refusal, of_set, of_sums))
            done += 1
        self.least(done, passed, 200)

    def test_third_order_without_drift(self):
        done = passed = 0
        for r in map(Words, records("acoustic")):
            refusal, *sums, compact, level, seed, kind, set_len, done_len, drift_len, n, first, num_trans = r.ints(14)
            perms, p2s, s2pp, nsym_list = r.tables(r.ints(4))
            t = sent(p2s, s2pp, nsym_list, perms, (n, first, num_trans)) if compact else None
            if (compact and t is None) or set_len != (first if compact else n) * n * n * 27:
                passed += 1
                continue
            fc = floats((first if compact else n, n, n, 3, 3, 3), seed, kind)
            marks, drift = bytes_of(done_len, seed), floats(drift_len, seed + 1, kind)
            if compact:
                number, _ = answer(lambda: gf.perm_trans_symmetrize_compact_fc3(fc, t, level, work=marks, drift=drift))
            else:
                number, _ = answer(lambda: gf.perm_trans_symmetrize_fc3(fc, level, drift=drift))
            self.assertEqual([number, checksum(fc), checksum(marks), checksum(drift)], [refusal, *sums])
            done += 1
        self.least(done, passed, 100)

    def test_a_bent_bit_is_seen(self):
        fc = floats((3, 3, 3, 3), 5, 7)
        bent = fc.copy()
        bent.view(np.uint64)[1, 2, 0, 1] ^= np.uint64(1)
        self.assertNotEqual(checksum(fc), checksum(bent))
        by_hand = 0
        for w in words_of(fc):
            by_hand = (by_hand % int(PRIME) * int(BY) + int(w) % int(PRIME)) % int(PRIME)
        self.assertEqual(checksum(fc), by_hand)


if __name__ == "__main__":
    unittest.main()
