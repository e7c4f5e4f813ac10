#!/usr/bin/env python3
"""Damages a copy of a delivery as no checksum tells: python3 samples/damage.py [KIND] FOLDER OUT

FOLDER: a delivery, with its certificate as `delivery/run` leaves it, or without one as `delivery/run` takes it. OUT, which is not there yet, gets
the same files with one KIND of damage (without KIND: swapped-leg); `python3 samples/damage.py --list` lists the kinds. The checksums of the
certificate are made to fit, so that only looking at the numbers can tell: what a job gone wrong would deliver.
"""
import array
import hashlib
import itertools
import os
import random
import struct
import sys

FILES = ("tables.txt", "cell.txt", "operations.txt", "fc2.f64", "fc3.f64", "fc4.f64")
CERTIFICATE = "certificate.txt"


def read(folder, name):
    with open(os.path.join(folder, name), "rb") as f:
        return f.read()


def write(folder, name, data):
    with open(os.path.join(folder, name), "wb") as f:
        f.write(data)


def read_tables(text):
    """The lines of tables.txt by their names; perms has all its rows."""
    tables = {"perms": []}
    for words in map(str.split, text.decode().splitlines()):
        if words and words[0] == "perms":
            tables["perms"].append([int(w) for w in words[1:]])
        elif words:
            tables[words[0]] = [int(w) for w in words[1:]]
    return tables


def block_of(tables, atoms):
    """Where the block of any three atoms stands in the compact set, counted in blocks."""
    first, second, third = atoms
    row, n = tables["perms"][tables["nsym_list"][first]], tables["n_satom"][0]
    return (tables["s2pp"][first] * n + row[second]) * n + row[third]


def moved(numbers, order):
    """The numbers of a block with their directions in another order: (x, y, z) gets the number of x, y, z put in that order."""
    return [numbers[sum(d[k] * 3 ** (2 - i) for i, k in enumerate(order))] for d in itertools.product(range(3), repeat=3)]


def with_directions(fc3, block, order):
    """The set with the directions of one block in another order."""
    numbers = moved(struct.unpack_from("<27d", fc3, block * 216), order)
    return fc3[:block * 216] + struct.pack("<27d", *numbers) + fc3[block * 216 + 216:]


def most_changed(fc3, order):
    """The first block in which another order of the directions changes a number the most, rounding aside, and by how much."""
    blocks = enumerate(struct.iter_unpack("<27d", fc3))
    change, block = max((round(max(abs(a - b) for a, b in zip(numbers, moved(numbers, order))), 9), -k) for k, numbers in blocks)
    return -block, change


def certify_anew(folder):
    """Writes the certificate with the checksums of the files as they stand, and leaves its other lines."""
    lines = read(folder, CERTIFICATE).decode().split("\n")
    for k, line in enumerate(lines):
        name = line.split(": ")[0]
        if name in FILES and os.path.exists(os.path.join(folder, name)):
            data = read(folder, name)
            lines[k] = f"{name}: {len(data)} bytes, sha256 {hashlib.sha256(data).hexdigest()}"
    sealed(folder, lines)


def sealed(folder, lines):
    """Writes a certificate of these lines, with the checksum at its end that fits them."""
    body = "".join(line + "\n" for line in lines[1:-2])
    write(folder, CERTIFICATE, f"{lines[0]}\n{body}end: sha256 {hashlib.sha256(body.encode()).hexdigest()}\n".encode())


def certify_true(folder, verify):
    """Makes every line of the certificate true of the files, as a job would that does not judge; `verify` gives what verify says of a folder."""
    apart = "; the certificate has: "
    for _ in range(2):
        lines = read(folder, CERTIFICATE).decode().split("\n")
        for said in verify(folder).splitlines():
            if said.startswith("DOES NOT HOLD   ") and apart in said:
                name, _, found = said[16:].split(apart)[0].partition(": ")
                lines = [f"{name}: {found}" if line.startswith(name + ": ") else line for line in lines]
        sealed(folder, lines)


# ---- sets

class Numbers:
    """A set of a folder: its numbers, of so many to a block, which are written back."""

    def __init__(self, folder, name):
        self.folder, self.name = folder, name
        self.numbers = array.array("d", read(folder, name))
        self.block = {"fc2.f64": 9, "fc3.f64": 27, "fc4.f64": 81}[name]
        self.largest = max(map(abs, self.numbers))

    def __enter__(self):
        return self

    def __exit__(self, *_):
        write(self.folder, self.name, self.numbers.tobytes())

    def of_block(self, k):
        return list(self.numbers[k * self.block:(k + 1) * self.block])

    def put_block(self, k, numbers):
        self.numbers[k * self.block:(k + 1) * self.block] = array.array("d", numbers)

    def on_every_block(self, change):
        for k in range(len(self.numbers) // self.block):
            self.put_block(k, change(self.of_block(k)))


def renamed_axes(block, axes, signs=(1, 1, 1)):
    """The numbers of a block with every direction renamed, on all legs alike."""
    legs = {9: 2, 27: 3, 81: 4}[len(block)]
    out = []
    for d in itertools.product(range(3), repeat=legs):
        sign = 1
        for k in d:
            sign *= signs[k]
        out.append(sign * block[sum(axes[k] * 3 ** (legs - 1 - i) for i, k in enumerate(d))])
    return out


EXCHANGED = (1, 0, 2)  # x and y


def strongest(s):
    """The block with the largest number."""
    return max(range(len(s.numbers)), key=lambda q: abs(s.numbers[q])) // s.block


def lines_of(folder, name):
    return read(folder, name).decode().split("\n")


def put_lines(folder, name, lines):
    write(folder, name, "\n".join(lines).encode())


# ---- the kinds: each damages the files of a folder, and says in words what it did

def swapped_leg(folder):
    """the last two directions of one block of third order, the one in which that changes a number the most"""
    fc3, n = read(folder, "fc3.f64"), read_tables(read(folder, "tables.txt"))["n_satom"][0]
    block, change = most_changed(fc3, (0, 2, 1))
    write(folder, "fc3.f64", with_directions(fc3, block, (0, 2, 1)))
    atoms = f"{block // n // n} (of the primitive cell) {block // n % n} {block % n}"
    return f"the last two directions of atoms {atoms} are exchanged; a number changed by {change:.2g}"


def swapped_weak_leg(folder):
    """the same of the block in which it changes numbers the least, but for those in which it changes nothing"""
    fc3 = read(folder, "fc3.f64")
    largest = max(map(abs, array.array("d", fc3)))
    changes = [(max(abs(a - b) for a, b in zip(block, moved(block, (0, 2, 1)))), k) for k, block in enumerate(struct.iter_unpack("<27d", fc3))]
    change, block = min(c for c in changes if c[0] > 1e-3 * largest)
    write(folder, "fc3.f64", with_directions(fc3, block, (0, 2, 1)))
    return f"the last two directions of block {block} are exchanged; a number changed by {change:.2g}, {change / largest:.2g} of the largest"


def hidden_leg(folder):
    """the same, and then symmetrized by another program: alike and without drift"""
    said = swapped_weak_leg(folder)
    t = read_tables(read(folder, "tables.txt"))
    with Numbers(folder, "fc3.f64") as s:
        s.numbers = symmetrized(s.numbers, t)
    return f"{said}; then fc3.f64 was symmetrized"


def swapped_group(folder):
    """the directions of two of three atoms, in all six orders alike: the orders still agree"""
    t, fc3 = read_tables(read(folder, "tables.txt")), read(folder, "fc3.f64")
    n = t["n_satom"][0]
    first = t["p2s"][0]
    blocks = {(first, j, k): struct.unpack_from("<27d", fc3, block_of(t, (first, j, k)) * 216)
              for j in range(n) for k in range(j + 1, n) if first not in (j, k)}
    change, atoms = max((round(max(abs(a - b) for a, b in zip(b, moved(b, (0, 2, 1)))), 9), [-a for a in atoms]) for atoms, b in blocks.items())
    atoms = [-a for a in atoms]
    for order in itertools.permutations(range(3)):
        legs = [order.index(1), order.index(2)]
        swap = [legs[1 - legs.index(k)] if k in legs else k for k in range(3)]
        fc3 = with_directions(fc3, block_of(t, [atoms[k] for k in order]), swap)
    write(folder, "fc3.f64", fc3)
    return f"the directions of the last two of atoms {' '.join(map(str, atoms))} are exchanged in all six orders; a number changed by {change:.2g}"


def swapped_everywhere(folder):
    """the last two directions of every block of third order"""
    with Numbers(folder, "fc3.f64") as s:
        s.on_every_block(lambda block: moved(block, (0, 2, 1)))
    return "the last two directions of every block of fc3.f64 are exchanged"


def hidden_everywhere(folder):
    """the same, and then symmetrized by another program: alike, without drift, and obeying every operation"""
    said = swapped_everywhere(folder)
    t = read_tables(read(folder, "tables.txt"))
    with Numbers(folder, "fc3.f64") as s:
        s.numbers = symmetrized(s.numbers, t)
    return f"{said}; then fc3.f64 was symmetrized"


def exchanged_axes_of_a_block(folder):
    """x and y exchanged in one block of third order, one that does not have them alike"""
    with Numbers(folder, "fc3.f64") as s:
        changes = [(max(abs(a - b) for a, b in zip(s.of_block(k), renamed_axes(s.of_block(k), EXCHANGED))), -k) for k in range(len(s.numbers) // 27)]
        change, k = max(changes)
        s.put_block(-k, renamed_axes(s.of_block(-k), EXCHANGED))
    return f"x and y are exchanged in block {-k} of fc3.f64; a number changed by {change:.2g}"


def swapped_leg_of_second_order(folder):
    """one block of second order transposed, the other of its pair left as it was"""
    with Numbers(folder, "fc2.f64") as s:
        def transposed(k):
            b = s.of_block(k)
            return [b[y * 3 + x] for x in range(3) for y in range(3)]
        _, k = max((max(abs(a - b) for a, b in zip(s.of_block(k), renamed_axes(s.of_block(k), (1, 2, 0)))), -k) for k in range(len(s.numbers) // 9))
        s.put_block(-k, renamed_axes(s.of_block(-k), (1, 2, 0)))
    return f"the directions of block {-k} of fc2.f64 are exchanged in a circle"


def lost_block(folder):
    """a block of third order that is zero"""
    with Numbers(folder, "fc3.f64") as s:
        k = strongest(s)
        s.put_block(k, [0.0] * 27)
    return f"block {k} of fc3.f64 is zero"


def exchanged_blocks(folder):
    """two blocks of third order that changed places"""
    with Numbers(folder, "fc3.f64") as s:
        k = strongest(s)
        other = (k + 5) % (len(s.numbers) // 27)
        one, two = s.of_block(k), s.of_block(other)
        s.put_block(k, two)
        s.put_block(other, one)
    return f"blocks {k} and {other} of fc3.f64 are exchanged"


def one_number(folder):
    """a number of third order that is off by a tenth of the largest"""
    with Numbers(folder, "fc3.f64") as s:
        s.numbers[1000] += 0.1 * s.largest
    return "a number of fc3.f64 is off by a tenth of the largest"


def one_bit(folder):
    """the lowest bit of one number of third order"""
    fc3 = bytearray(read(folder, "fc3.f64"))
    fc3[8000] ^= 1
    write(folder, "fc3.f64", bytes(fc3))
    return "the lowest bit of number 1000 of fc3.f64 is another"


def _put(name, value):
    def work(folder):
        with Numbers(folder, name) as s:
            s.numbers[1000] = value
        return f"a number of {name} is {value}"
    work.__doc__ = f"a number of {name} that is {value}"
    return work


def _on_all(change, what, *names):
    """The same on every number of some sets."""
    def work(folder):
        for name in names:
            with Numbers(folder, name) as s:
                s.numbers = array.array("d", map(change, s.numbers))
        return f"{' and '.join(names)}: {what}"
    work.__doc__ = f"{' and '.join(names)}: {what}"
    return work


def other_byte_order(folder):
    """third order with the highest byte first"""
    with Numbers(folder, "fc3.f64") as s:
        s.numbers.byteswap()
    return "fc3.f64 has the highest byte first"


def noisy(folder):
    """noise of a twentieth of the largest number on every number of third order"""
    chance = random.Random(1)
    with Numbers(folder, "fc3.f64") as s:
        s.numbers = array.array("d", (x + chance.gauss(0.0, 0.05) * s.largest for x in s.numbers))
    return "noise of a twentieth of the largest number was added to fc3.f64"


def noise_alone(folder):
    """third order that is noise, and nothing else"""
    chance = random.Random(2)
    with Numbers(folder, "fc3.f64") as s:
        s.numbers = array.array("d", (chance.gauss(0.0, 1.0) for _ in s.numbers))
    return "fc3.f64 is noise"


def symmetric_noise(folder):
    """third order that is noise, but without drift and the same in all orders of legs"""
    t, chance = read_tables(read(folder, "tables.txt")), random.Random(3)
    with Numbers(folder, "fc3.f64") as s:
        s.numbers = symmetrized([chance.gauss(0.0, 1.0) for _ in s.numbers], t)
    return "fc3.f64 is noise, without drift and alike"


def symmetrized(numbers, t):
    """A compact set of third order without drift and alike, but for rounding."""
    n = t["n_satom"][0]
    m, legs = 3 * n, [(a, x) for a in range(n) for x in range(3)]
    flat = [numbers[block_of(t, (i, j, k)) * 27 + x * 9 + y * 3 + z] for i, x in legs for j, y in legs for k, z in legs]
    full = mean_of_orders(without_drift(mean_of_orders(flat, m), n), m)
    return array.array("d", (full[((3 * i + x) * m + 3 * j + y) * m + 3 * k + z] for i in t["p2s"] for j in range(n) for k in range(n)
                             for x, y, z in itertools.product(range(3), repeat=3)))


def mean_of_orders(flat, m):
    """The mean of the six orders; rounded the same way in each, so that they are alike to the last bit."""
    out = list(flat)
    for a in range(m):
        for b in range(a, m):
            for c in range(b, m):
                at = [x * m * m + y * m + z for x, y, z in itertools.permutations((a, b, c))]
                mean = sum(flat[q] for q in at) / 6
                for q in at:
                    out[q] = mean
    return out


def without_drift(flat, n):
    """The mean over each leg's atom taken off."""
    m = 3 * n
    for step in (m * m, m, 1):
        others = [q for q in range(len(flat)) if q // step % m < 3]  # of the first atom on this leg
        for q in others:
            mean = sum(flat[q + 3 * a * step] for a in range(n)) / n
            for a in range(n):
                flat[q + 3 * a * step] -= mean
    return flat


def _cell(change, what):
    def work(folder):
        lines = lines_of(folder, "cell.txt")
        change(lines)
        put_lines(folder, "cell.txt", lines)
        return f"cell.txt: {what}"
    work.__doc__ = f"cell.txt: {what}"
    return work


def _lattice(change):
    """Another lattice: `change` gets the three vectors."""
    def work(lines):
        vectors = change([[float(w) for w in line.split()[1:]] for line in lines[:3]])
        lines[:3] = ["lattice " + " ".join(map(repr, v)) for v in vectors]
    return work


def _scaled_vector(vectors):
    return [vectors[0], vectors[1], [1.1 * x for x in vectors[2]]]


def _named(name):
    """Other elements: `name` gives the one of an atom."""
    def work(lines):
        lines[3:] = [" ".join([name(k, line.split()[0]), *line.split()[1:]]) if line else line for k, line in enumerate(lines[3:])]
    return work


def _moved_atom(lines):
    words = lines[8].split()
    lines[8] = " ".join([*words[:3], repr(float(words[3]) + 0.01)])


def another_cells_tables(folder):
    """shift tables that keep every rule, of a cell with the same counts whose shifts go round"""
    lines = lines_of(folder, "tables.txt")
    t = read_tables(read(folder, "tables.txt"))
    n, s = t["n_satom"][0], t["num_trans"][0]
    back = "nsym_list " + " ".join(str((s - a % s) % s) for a in range(n))
    rows = ["perms " + " ".join(str((a % s + k) % s + a // s * s) for a in range(n)) for k in range(s)]
    put_lines(folder, "tables.txt", [*lines[:5], back, *rows, ""])
    return "tables.txt is that of another cell with the same counts"


def broken_tables(folder):
    """two entries of nsym_list exchanged"""
    lines = lines_of(folder, "tables.txt")
    words = lines[5].split()
    words[1], words[2] = words[2], words[1]
    put_lines(folder, "tables.txt", [*lines[:5], " ".join(words), *lines[6:]])
    return "two entries of nsym_list are exchanged"


def exchanged_atoms(folder):
    """two atoms that changed places in every number, of second and of third order"""
    t = read_tables(read(folder, "tables.txt"))
    n, p2s = t["n_satom"][0], t["p2s"]
    one = 1
    two = next(a for a in range(2, n) if a not in p2s and t["s2pp"][a] != t["s2pp"][one]) if len(p2s) > 1 else 2
    name = {one: two, two: one}
    with Numbers(folder, "fc3.f64") as s:
        old = s.numbers[:]
        for i, j, k in itertools.product(range(len(p2s)), range(n), range(n)):
            at, other = ((i * n + j) * n + k) * 27, ((i * n + name.get(j, j)) * n + name.get(k, k)) * 27
            s.numbers[at:at + 27] = old[other:other + 27]
    with Numbers(folder, "fc2.f64") as s:
        old = s.numbers[:]
        for i, j in itertools.product(range(n), range(n)):
            at, other = (i * n + j) * 9, (name.get(i, i) * n + name.get(j, j)) * 9
            s.numbers[at:at + 9] = old[other:other + 9]
    return f"atoms {one} and {two} are exchanged in every number"


def _axes_everywhere(axes, signs, what, *names):
    def work(folder):
        for name in names:
            with Numbers(folder, name) as s:
                s.on_every_block(lambda block: renamed_axes(block, axes, signs))
        return f"{' and '.join(names)}: {what}"
    work.__doc__ = f"{' and '.join(names)}: {what}"
    return work


def another_crystals_set(folder):
    """the sets of the other sample, which has the same counts"""
    here = os.path.dirname(os.path.abspath(__file__))
    elements = {line.split()[0] for line in lines_of(folder, "cell.txt")[3:] if line}
    other = os.path.join(here, "mgo-2x2x2" if elements == {"Si"} else "si-2x2x2")
    for name in ("fc2.f64", "fc3.f64"):
        write(folder, name, read(other, name))
    return "the sets are those of the other sample"


def _operations(change, what):
    def work(folder):
        lines = lines_of(folder, "operations.txt")
        put_lines(folder, "operations.txt", change(lines))
        return f"operations.txt: {what}"
    work.__doc__ = f"operations.txt: {what}"
    return work


def _lost_operation(lines):
    return [f"num_rot {int(lines[0].split()[1]) - 1}", *lines[3:]]


def _turned_operation(lines):
    k = next(k for k, line in enumerate(lines) if line.startswith("matrix") and "-" in line)
    return [*lines[:k], lines[k].replace("-", "", 1), *lines[k + 1:]]


def _exchanged_maps(lines):
    return [*lines[:2], lines[4], lines[3], lines[2], *lines[5:]]


def _one_alone(lines):
    k = next(k for k, line in enumerate(lines) if line.startswith("matrix 1.0 0.0 0.0 0.0 1.0 0.0 0.0 0.0 1.0"))
    return ["num_rot 1", *lines[k:k + 2], ""]


def cut_off(folder):
    """the last number of third order is missing"""
    write(folder, "fc3.f64", read(folder, "fc3.f64")[:-8])
    return "fc3.f64 ends a number early"


def missing_file(folder):
    """no cell.txt"""
    os.remove(os.path.join(folder, "cell.txt"))
    return "cell.txt is missing"


SETS = ("fc2.f64", "fc3.f64")
KINDS = {
    "swapped-leg": swapped_leg,
    "swapped-weak-leg": swapped_weak_leg,
    "hidden-leg": hidden_leg,
    "swapped-group": swapped_group,
    "swapped-everywhere": swapped_everywhere,
    "hidden-everywhere": hidden_everywhere,
    "axes-of-a-block": exchanged_axes_of_a_block,
    "swapped-leg-fc2": swapped_leg_of_second_order,
    "lost-block": lost_block,
    "exchanged-blocks": exchanged_blocks,
    "one-number": one_number,
    "one-bit": one_bit,
    "nan-fc2": _put("fc2.f64", float("nan")),
    "nan-fc3": _put("fc3.f64", float("nan")),
    "infinity": _put("fc3.f64", float("inf")),
    "zero-fc2": _on_all(lambda x: 0.0, "all numbers are zero", "fc2.f64"),
    "zero-fc3": _on_all(lambda x: 0.0, "all numbers are zero", "fc3.f64"),
    "byte-order": other_byte_order,
    "noisy": noisy,
    "noise-alone": noise_alone,
    "symmetric-noise": symmetric_noise,
    "sign-fc2": _on_all(lambda x: -x, "every sign is the other", "fc2.f64"),
    "sign-fc3": _on_all(lambda x: -x, "every sign is the other", "fc3.f64"),
    "scaled": _on_all(lambda x: 2.0 * x, "every number is doubled", *SETS),
    "lattice-scaled": _cell(_lattice(lambda v: [[1.1 * x for x in w] for w in v]), "all vectors are longer by a tenth"),
    "lattice-stretched": _cell(_lattice(_scaled_vector), "one vector is longer by a tenth"),
    "lattice-turned": _cell(_lattice(lambda v: [list(w) for w in zip(*v)]), "rows and columns of the vectors are exchanged"),
    "lattice-other": _cell(_lattice(lambda v: [v[1], v[0], v[2]]), "two vectors are exchanged"),
    "renamed": _cell(_named(lambda k, e: "Xe" if k < 8 else e), "half of the atoms have another element"),
    "renamed-all": _cell(_named(lambda k, e: {"Si": "Ge", "Mg": "Ca", "O": "S"}[e]), "every atom has another element"),
    "exchanged-elements": _cell(_named(lambda k, e: {"Mg": "O", "O": "Mg", "Si": "Si"}[e]), "the two elements are exchanged"),
    "renamed-one": _cell(_named(lambda k, e: "Xe" if k == 2 else e), "one atom has another element"),
    "moved-atom": _cell(_moved_atom, "one atom is moved by a hundredth of a vector"),
    "other-tables": another_cells_tables,
    "broken-tables": broken_tables,
    "exchanged-atoms": exchanged_atoms,
    "exchanged-axes": _axes_everywhere(EXCHANGED, (1, 1, 1), "x and y are exchanged in every block", *SETS),
    "rotated": _axes_everywhere(EXCHANGED, (1, -1, 1), "every block is turned by a right angle about z", *SETS),
    "other-crystal": another_crystals_set,
    "lost-operation": _operations(_lost_operation, "one is left out"),
    "turned-operation": _operations(_turned_operation, "the sign of a matrix's number is another"),
    "exchanged-maps": _operations(_exchanged_maps, "the maps of two are exchanged"),
    "one-operation": _operations(_one_alone, "all but one are left out"),
    "cut-off": cut_off,
    "missing-file": missing_file,
}


def main(folder, out, kind="swapped-leg"):
    os.mkdir(out)
    for name in os.listdir(folder):
        if name in FILES or name in (CERTIFICATE, "job.txt"):
            write(out, name, read(folder, name))
    said = KINDS[kind](out)
    if os.path.exists(os.path.join(out, CERTIFICATE)):
        certify_anew(out)
    print(f"{out}: {said}")


if __name__ == "__main__":
    words = sys.argv[1:]
    if words == ["--list"]:
        for name, work in KINDS.items():
            print(f"{name:<20}{work.__doc__}")
    elif len(words) == 2 or (len(words) == 3 and words[0] in KINDS):
        try:
            main(*words[-2:], *words[:-2])
        except OSError as e:
            sys.exit(f"damage.py: {e.filename}: {e.strerror}")
    else:
        sys.exit("usage: damage.py [KIND] FOLDER OUT\n       damage.py --list")
