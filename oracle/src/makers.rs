//! Random calls that are not refused: small for the most part, some larger.
use crate::call::fit;
use crate::call_acoustic::Acoustic;
use crate::call_compact::{Compact, Name};
use crate::call_deltas::Deltas;
use crate::call_distribute::Distribute;
use crate::call_drift::Drift;
use crate::call_finding::{crowd, on_axis, staircase, Finding};
use crate::call_full::Full;
use crate::call_matching::Matching;
use crate::call_read_out::ReadOut;
use crate::call_slabs::Slabs;
use crate::call_tables::Check;
use crate::groups::random_tables;
use crate::matching::{pair, KINDS, LATTICES, TOLERANCES};
use crate::rng::Rng;
use crate::wild::{fill, plain};

/// The most numbers of a set.
fn most(r: &mut Rng) -> usize {
    match r.below(400) {
        0 => 400_000,
        1..40 => 42_000,
        _ => 11_000,
    }
}

/// The atoms of a full set of at most `most` numbers.
fn atoms(r: &mut Rng, order: u32) -> usize {
    let most = most(r);
    let end = (1..).find(|n| (3usize * n).pow(order) > most).unwrap();
    r.below(end)
}

/// Types with a meaning, and one time in six one without.
fn t_type(r: &mut Rng, meaning: usize) -> i64 {
    match r.below(6) {
        0 => [-1, 3, 4, 256, 1 << 32, i64::MIN, i64::MAX, 1, 2][r.below(9)],
        _ => r.below(meaning) as i64,
    }
}

/// Mostly small, now and then the highest.
fn level(r: &mut Rng, numbers: usize) -> usize {
    match r.below(300) {
        0 if numbers < 1000 => 1000,
        1..20 if numbers < 5000 => 20,
        _ => r.below(4),
    }
}

pub fn compact(r: &mut Rng, name: Name) -> Compact {
    let most = most(r);
    let mut call = Compact::new(name, random_tables(r, name.order(), most));
    call.set = fill(r, call.stated());
    fit(&mut call, u128::MAX);
    match name {
        Name::Symmetrize2 => call.level = level(r, call.set.len()),
        Name::Exchange2 => call.t_type = r.below(2) as i64,
        Name::Transpose3 | Name::True3 => call.t_type = t_type(r, 3),
        Name::Transpose4 | Name::True4 => call.t_type = t_type(r, 1),
        Name::Swap4 => call.legs = [r.below(4), r.below(4)],
        _ => {}
    }
    call
}

pub fn full(r: &mut Rng, order: usize) -> Full {
    let mut call = Full::new(order, atoms(r, order as u32));
    call.set = fill(r, call.stated());
    fit(&mut call, u128::MAX);
    if order == 2 {
        call.level = level(r, call.set.len());
    }
    call
}

/// With the drift off.
pub fn acoustic(r: &mut Rng, order: usize, compact: bool) -> Acoustic {
    let most = most(r);
    let mut call = if compact { Acoustic::compact(order, random_tables(r, order, most), 0) } else { Acoustic::full(order, atoms(r, order as u32), 0) };
    call.set = fill(r, call.stated());
    fit(&mut call, u128::MAX);
    call.level = level(r, call.set.len());
    call
}

/// The full set has at most so many numbers; there is rubbish in it.
pub fn read_out(r: &mut Rng, order: usize) -> ReadOut {
    let most = most(r);
    let mut call = loop {
        let tables = random_tables(r, order, most);
        if (3 * tables.n_satom).pow(order as u32) <= most {
            break ReadOut::new(order, tables);
        }
    };
    call.set = fill(r, call.set.len());
    call.full = fill(r, call.full.len());
    call
}

pub fn check(r: &mut Rng) -> Check {
    let most = most(r);
    Check(random_tables(r, 2, most))
}

/// From 96 atoms on the port reads a set in another order.
pub fn drift(r: &mut Rng) -> Drift {
    let n_satom = if r.below(40) == 0 { 120 + r.below(20) } else { atoms(r, 2) };
    let mut set = fill(r, n_satom * n_satom * 9);
    if r.below(3) == 0 {
        // sums of rows, of columns, or of both that are zero, or that several places share: each block and the same negated
        let (by_row, by_column) = (r.below(2), r.below(3));
        for (k, x) in set.iter_mut().enumerate() {
            let (i, j) = (k / 9 / n_satom, k / 9 % n_satom);
            *x = if (by_row * i + by_column * j) % 2 == 0 { 2.0 } else { -2.0 } * (if by_row == by_column { 1 } else { i % 3 }) as f64;
        }
    }
    Drift { set, value: vec![f64::from_bits(r.bits())], place: (0..4).map(|_| r.bits() as i64).collect(), n_satom }
}

fn below(r: &mut Rng, n: usize, count: usize) -> Vec<i64> {
    (0..n).map(|_| r.below(count) as i64).collect()
}

/// Any order of the numbers below n, or any numbers below n.
fn map(r: &mut Rng, n: usize) -> Vec<i64> {
    if r.below(4) == 0 {
        return below(r, n, n);
    }
    r.order(n).into_iter().map(|a| a as i64).collect()
}

pub fn slabs(r: &mut Rng, order: usize) -> Slabs {
    let (num_atom, num_first) = (atoms(r, order as u32), 2 + r.below(3));
    let target = r.below(num_first);
    let source = (target + 1 + r.below(num_first - 1)) % num_first;
    let set = fill(r, num_first * num_atom.pow(order as u32 - 1) * 3usize.pow(order as u32));
    let (map, rotation) = (map(r, num_atom), if r.below(3) > 0 { plain(r, 9) } else { fill(r, 9) });
    Slabs { order, set, target, source, map, rotation, num_atom, num_first }
}

pub fn deltas(r: &mut Rng, order: usize) -> Deltas {
    let num_atom = atoms(r, order as u32).min([0, 0, 0, 9, 5][order]);
    let (syms, disps) = (r.below(5), r.below(4));
    let below = num_atom.pow(order as u32 - 1) * 3usize.pow(order as u32 - 1);
    let mut call = Deltas {
        order,
        set: fill(r, below * 3),
        deltas: fill(r, below * disps),
        inv_u: fill(r, 3 * syms * disps),
        site_sym_cart: if r.below(3) > 0 { plain(r, syms * 9) } else { fill(r, syms * 9) },
        rot_map_syms: (0..syms).flat_map(|_| map(r, num_atom)).collect(),
        rot_delta: vec![],
        num_atom,
        num_site_sym: syms,
        num_disp: disps,
    };
    fit(&mut call, u128::MAX);
    call
}

/// Representatives, some of the atoms that they represent, and a list of both in any order, some twice.
pub fn distribute(r: &mut Rng) -> Distribute {
    let (num_pos, num_rot) = (atoms(r, 2).min(40), 1 + r.below(4));
    let num_first = 1 + r.below(num_pos + 2);
    let own: Vec<bool> = (0..num_pos).map(|a| a == 0 || r.below(3) == 0).collect();
    let owners: Vec<usize> = (0..num_pos).filter(|a| own[*a]).collect();
    let map_atoms: Vec<i64> = (0..num_pos).map(|a| if own[a] { a } else { owners[r.below(owners.len())] } as i64).collect();
    let mut list: Vec<usize> = (0..num_pos).filter(|a| own[*a] || r.below(4) > 0).collect();
    for _ in 0..r.below(4) {
        list.extend((num_pos > 0).then(|| list[r.below(list.len())]));
    }
    r.shuffle(&mut list);
    let mut call = Distribute {
        set: fill(r, num_first * num_pos * 9),
        fc_indices: below(r, list.len(), num_first),
        atom_list: list.into_iter().map(|a| a as i64).collect(),
        r_carts: if r.below(3) > 0 { plain(r, num_rot * 9) } else { fill(r, num_rot * 9) },
        permutations: (0..num_rot).flat_map(|_| map(r, num_pos)).collect(),
        map_atoms,
        map_syms: below(r, num_pos, num_rot),
        reverse: vec![],
        num_pos,
        num_first,
        num_rot,
    };
    fit(&mut call, u128::MAX);
    call
}

/// Half of the cells have three flags, as the Rust's; any byte but 0 is a flag.
fn axes(r: &mut Rng) -> Vec<u8> {
    let all = r.below(2) == 0;
    (0..3).map(|_| if all || r.below(2) == 0 { 1 + r.below(255) as u8 } else { 0 }).collect()
}

/// Three in four of the others have the slots back in the cell along an axis without a flag, so that matches are met there too.
fn into_cell(r: &mut Rng, periodic: &[u8], rot_pos: &mut [f64]) {
    if r.below(4) == 0 {
        return;
    }
    for (k, x) in rot_pos.iter_mut().enumerate() {
        if periodic[k % 3] == 0 && x.abs() < 1e6 {
            *x -= x.floor();
        }
    }
}

pub fn matching(r: &mut Rng) -> Matching {
    let n = [r.below(4), r.below(20), r.below(70)][r.below(3)];
    let kind = KINDS[r.below(KINDS.len())];
    let (pos, mut rot_pos) = pair(r, kind, n);
    let periodic = axes(r);
    into_cell(r, &periodic, &mut rot_pos);
    let usual = r.below(3) > 0;
    let symprec = TOLERANCES[if usual { TOLERANCES.len() - 1 - r.below(3) } else { r.below(TOLERANCES.len()) }];
    let lattice = LATTICES[if usual { r.below(2) } else { r.below(LATTICES.len()) }].to_vec();
    let mut rubbish = |n: usize| (0..n).map(|_| r.bits() as i64).collect();
    Matching { slots: rubbish(n), lattice, symprec, periodic, pos, rot_pos, pair: rubbish(2), num_pos: n }
}

/// Positions and slots on a line of 64 places, so that each is near those of some neighbouring places: greedy often fails where a
/// match exists, and often none exists.
fn on_a_line(r: &mut Rng, n: usize) -> Finding {
    let mut line = || -> Vec<f64> { (0..n).map(|_| r.below(64) as f64 / 64.0).collect() };
    let (pos, mut rot_pos) = (line(), line());
    if r.below(2) == 0 {
        // a match is likely: each slot near the place of a position, in another order
        let order = r.order(n);
        rot_pos = order.iter().map(|a| pos[*a] + (r.below(7) as f64 - 3.0) / 64.0).collect();
    }
    on_axis(&pos, &rot_pos, (1 + 2 * r.below(5)) as f64 / 128.0)
}

/// Positions and slots of compute_permutation's calls, NaN and infinities among them, or on a line; staircases and crowds.
pub fn finding(r: &mut Rng) -> Finding {
    let n = [r.below(5), r.below(12), r.below(40)][r.below(3)];
    let mut call = match r.below(12) {
        0 => staircase(1 + n, r.below(4) > 0),
        1 => crowd(1 + n / 2, r.below(2)),
        2..=4 => {
            let m = matching(r);
            Finding { slots: vec![], marks: vec![], lattice: m.lattice, symprec: m.symprec, periodic: m.periodic, pos: m.pos, rot_pos: m.rot_pos, num_pos: m.num_pos }
        }
        _ => {
            let mut call = on_a_line(r, n);
            call.periodic = axes(r);
            call
        }
    };
    call.slots = (0..call.num_pos).map(|_| r.bits() as i64).collect();
    call.marks = (0..call.num_pos).map(|_| r.bits() as u8).collect();
    call
}
