//! The rows of the benchmark. A size a × b is n_patom × n_satom.
use crate::bench::Bench;
use crate::call::{fit, Call};
use crate::call_acoustic::Acoustic;
use crate::call_audit::{whole, Audit, Name as Audited, ALIKE, UNLIKE};
use crate::call_compact::{Compact, Name};
use crate::call_deltas::Deltas;
use crate::call_distribute::Distribute;
use crate::call_drift::{Drift, WORST};
use crate::call_finding::{crowd, staircase, Finding, NO_MATCH};
use crate::call_full::Full;
use crate::call_matching::{Matching, EVERYWHERE};
use crate::call_slabs::Slabs;
use crate::compare_lists::half_shift;
use crate::matching::{pair, Kind, SKEW};
use crate::port;
use crate::rng::Rng;
use crate::shifts::{cyclic, product, tables, Group, Tables};
use crate::stack::deepest;
use crate::wild::plain;

/// Shifts along three axes, as supercells have them.
fn axes(a: usize, b: usize, c: usize) -> Group {
    product(&product(&cyclic(a), &cyclic(b)), &cyclic(c))
}

fn shifts_along(num_trans: usize) -> Group {
    match num_trans {
        8 => axes(2, 2, 2),
        16 => axes(4, 2, 2),
        64 => axes(4, 4, 4),
        128 => axes(8, 4, 4),
        1024 => axes(16, 8, 8),
        n => cyclic(n),
    }
}

fn shifts(n_patom: usize, n_satom: usize) -> Tables {
    tables(&shifts_along(n_satom / n_patom), n_patom, None)
}

fn fitted<C: Call>(mut call: C) -> C {
    fit(&mut call, u128::MAX);
    call
}

fn compact(b: &Bench, call: &str, name: Name, sizes: [usize; 2], t_type: i64) {
    let what = match name {
        Name::Transpose3 => format!("{call}, type {t_type}"),
        Name::Exchange2 => format!("{call}, {}", ["average", "transpose"][t_type as usize]),
        _ => call.to_string(),
    };
    if port::has(call) {
        let mut c = Compact { t_type, level: 1, ..Compact::new(name, shifts(sizes[0], sizes[1])) };
        c.set = plain(&mut Rng::new(21), c.stated());
        let threads = name == Name::Transpose3 && t_type == 2;
        let tables = c.tables.clone();
        b.row(&what, &format!("{} × {}", sizes[0], sizes[1]), fitted(c), Some(tables), threads);
    }
}

fn full(b: &Bench, call: &str, order: usize, atoms: usize) {
    if port::has(call) {
        let mut c = Full { level: 1, ..Full::new(order, atoms) };
        c.set = plain(&mut Rng::new(22), c.stated());
        b.row(call, &format!("{atoms}"), fitted(c), None, order == 3);
    }
}

pub fn matching(b: &Bench) {
    let mut r = Rng::new(23);
    for n in [64, 512, 1024] {
        for (what, kind) in [("same order", Kind::Same), ("neighbours exchanged", Kind::Near), ("any order", Kind::Permuted)] {
            let (pos, rot_pos) = pair(&mut r, kind, n);
            let call = Matching { slots: vec![0; n], lattice: SKEW.to_vec(), symprec: 1e-5, periodic: EVERYWHERE.to_vec(), pos, rot_pos, pair: vec![0; 2], num_pos: n };
            b.row(&format!("compute_permutation, {what}"), &format!("{n}"), call, None, false);
        }
    }
}

/// All rows of a full set filled from those of four atoms, by 48 rotations.
fn distribute2(b: &Bench, n: usize) {
    let mut r = Rng::new(24);
    let any_order = |r: &mut Rng| r.order(n).into_iter().map(|a| a as i64).collect::<Vec<_>>();
    let call = Distribute {
        set: plain(&mut r, n * n * 9),
        atom_list: (0..n as i64).collect(),
        fc_indices: (0..n as i64).collect(),
        r_carts: plain(&mut r, 48 * 9),
        permutations: (0..48).flat_map(|_| any_order(&mut r)).collect(),
        map_atoms: (0..n as i64).map(|a| a % 4).collect(),
        map_syms: (0..n).map(|_| r.below(48) as i64).collect(),
        reverse: vec![0; n],
        num_pos: n,
        num_first: n,
        num_rot: 48,
    };
    if port::has("distribute_fc2") {
        b.row("distribute_fc2", &format!("{n}"), call, None, false);
    }
}

/// One slab of two from the other.
fn slabs(b: &Bench, call: &str, order: usize, n: usize) {
    if port::has(call) {
        let mut r = Rng::new(25);
        let set = plain(&mut r, 2 * n.pow(order as u32 - 1) * 3usize.pow(order as u32));
        let map = r.order(n).into_iter().map(|a| a as i64).collect();
        let c = Slabs { order, set, target: 1, source: 0, map, rotation: plain(&mut r, 9), num_atom: n, num_first: 2 };
        b.row(call, &format!("{n}"), c, None, false);
    }
}

/// Two displacements, twelve site symmetries.
fn deltas(b: &Bench, call: &str, order: usize, n: usize) {
    if port::has(call) {
        let mut r = Rng::new(26);
        let below = n.pow(order as u32 - 1) * 3usize.pow(order as u32 - 1);
        let (syms, disps) = (12, 2);
        let c = Deltas {
            order,
            set: vec![0.0; 3 * below],
            deltas: plain(&mut r, disps * below),
            inv_u: plain(&mut r, 3 * disps * syms),
            site_sym_cart: plain(&mut r, 9 * syms),
            rot_map_syms: (0..syms).flat_map(|_| r.order(n)).map(|a| a as i64).collect(),
            rot_delta: vec![],
            num_atom: n,
            num_site_sym: syms,
            num_disp: disps,
        };
        b.row(call, &format!("{n}"), fitted(c), None, true);
    }
}

/// With many shifts the check of the tables is most of a call, with four it is little.
const SECOND: [[usize; 2]; 2] = [[4, 512], [64, 256]];

pub fn second(b: &Bench) {
    for n in [16, 64, 256] {
        full(b, "perm_trans_symmetrize_fc", 2, n);
    }
    for sizes in SECOND {
        compact(b, "perm_trans_symmetrize_compact_fc", Name::Symmetrize2, sizes, 0);
        compact(b, "set_index_permutation_symmetry_compact_fc", Name::Exchange2, sizes, 1);
        compact(b, "set_index_permutation_symmetry_compact_fc", Name::Exchange2, sizes, 0);
    }
    distribute2(b, 256);
}

pub fn third(b: &Bench) {
    for sizes in [[1, 64], [2, 32], [2, 64], [4, 64]] {
        compact(b, "set_permutation_symmetry_compact_fc3", Name::Symmetrize3, sizes, 0);
    }
    for n in [32, 64, 128] {
        full(b, "set_permutation_symmetry_fc3", 3, n);
    }
    for t_type in 0..3 {
        compact(b, "transpose_compact_fc3", Name::Transpose3, [4, 64], t_type);
    }
    slabs(b, "distribute_fc3", 3, 64);
    deltas(b, "rotate_delta_fc2s", 3, 64);
}

pub fn fourth(b: &Bench) {
    compact(b, "set_permutation_symmetry_compact_fc4", Name::Symmetrize4, [1, 16], 0);
    compact(b, "set_permutation_symmetry_compact_fc4", Name::Symmetrize4, [2, 16], 0);
    full(b, "set_permutation_symmetry_fc4", 4, 8);
    full(b, "set_permutation_symmetry_fc4", 4, 16);
    compact(b, "transpose_compact_fc4", Name::Transpose4, [2, 16], 0);
    slabs(b, "distribute_fc4", 4, 16);
    deltas(b, "rotate_delta_fc3s", 4, 16);
}

/// The least that it takes to move every block of a set: neighbours change places, each block read once and written once, and nothing is permuted.
fn neighbours(set: &mut [f64], width: usize) {
    for pair in set.chunks_exact_mut(2 * width) {
        let (one, other) = pair.split_at_mut(width);
        one.swap_with_slice(other);
    }
}

/// Every block copied to a buffer and back to its own place.
fn in_place(set: &mut [f64], width: usize) {
    let mut buffer = [0.0; 81];
    for block in set.chunks_exact_mut(width) {
        buffer[..width].copy_from_slice(block);
        block.copy_from_slice(&std::hint::black_box(&mut buffer)[..width]);
    }
}

/// A true transpose beside the transpose that is the Rust's, both the library's, on one set, and beside the least work on all its blocks.
fn both_ways(b: &Bench, call: &str, names: [Name; 2], sizes: [usize; 2], t_type: i64) {
    let mut c = Compact { t_type, ..Compact::new(names[0], shifts(sizes[0], sizes[1])) };
    c.set = plain(&mut Rng::new(28), c.stated());
    let halves = if half_shift(&c.tables) { "yes" } else { "no" };
    let width = 3usize.pow(names[0].order() as u32);
    let work = |c: &mut Compact, k: usize| match k {
        0 | 1 => {
            c.name = names[k];
            assert_eq!(c.port(), 0);
        }
        2 => neighbours(&mut c.set, width),
        _ => in_place(&mut c.set, width),
    };
    let [old, new, moved, copied] = b.ways(&mut fitted(c), 4, work)[..] else { unreachable!("four ways") };
    let us = |t: f64| format!("{:.1}", t * 1e6);
    println!("| {call} | {} × {} | {halves} | {} | {} | {:.2} | {} | {} |", sizes[0], sizes[1], us(old), us(new), old / new, us(moved), us(copied));
}

/// The true transposes beside the others, with half shifts among the tables, whose blocks only they move, and without.
pub fn transposes(b: &Bench) {
    println!("| call | size | half shifts | the other transpose, us | the true one, us | ratio | neighbours exchanged, us | copied in place, us |");
    println!("|---|---|---|---|---|---|---|---|");
    for sizes in [[4, 512], [64, 256], [4, 500], [64, 192]] {
        both_ways(b, "true_transpose_compact_fc2", [Name::Exchange2, Name::True2], sizes, 1);
    }
    for (sizes, t_type) in [[4, 64], [4, 60]].into_iter().flat_map(|sizes| (0..3).map(move |t_type| (sizes, t_type))) {
        both_ways(b, &format!("true_transpose_compact_fc3, type {t_type}"), [Name::Transpose3, Name::True3], sizes, t_type);
    }
    for sizes in [[2, 16], [2, 18]] {
        both_ways(b, "true_transpose_compact_fc4", [Name::Transpose4, Name::True4], sizes, 0);
    }
}

/// The six swaps of two legs, beside the swap of legs 0 and 1 and a copy of the set.
pub fn swaps(b: &Bench) {
    println!("| swap_pairs_compact_fc4, legs | size | us | beside legs 0 and 1 | beside a copy of the set |\n|---|---|---|---|---|");
    const LEGS: [[usize; 2]; 6] = [[0, 1], [0, 2], [0, 3], [1, 2], [1, 3], [2, 3]];
    for sizes in [[2, 16], [2, 18], [4, 16], [4, 20]] {
        let mut c = Compact::new(Name::Swap4, shifts(sizes[0], sizes[1]));
        c.set = plain(&mut Rng::new(29), c.stated());
        let mut to = c.set.clone();
        let copy = b.least(|| std::hint::black_box(&mut to).copy_from_slice(std::hint::black_box(&c.set)));
        let times = b.ways(&mut fitted(c), 6, |c, k| {
            c.legs = LEGS[k];
            assert_eq!(c.port(), 0);
        });
        for (legs, time) in LEGS.iter().zip(&times) {
            println!("| {}, {} | {} × {} | {:.1} | {:.2} | {:.2} |", legs[0], legs[1], sizes[0], sizes[1], time * 1e6, time / times[0], time / copy);
        }
    }
}

/// Whether n numbers below n are all different.
fn different(n: usize, number: impl Fn(usize) -> usize) -> bool {
    let mut seen = vec![false; n];
    (0..n).all(|k| !std::mem::replace(&mut seen[number(k)], true))
}

/// The rules of document 01 one after another, each looked at everywhere; the row that two rows make is found by its image of atom 0.
fn plainly(t: &Tables) -> bool {
    let (ns, nt) = (t.n_satom, t.num_trans);
    let (s2pp, p2s) = (|a: usize| t.s2pp[a] as usize, |p: usize| t.p2s[p] as usize);
    let mut to = vec![0; ns];
    (0..nt).for_each(|k| to[t.row(k, 0)] = k);
    let is_row = |k: usize, l: usize| {
        let m = to[t.row(k, t.row(l, 0))];
        (0..ns).all(|a| t.row(m, a) == t.row(k, t.row(l, a)))
    };
    let mut images = vec![usize::MAX; ns];
    ns == t.n_patom * nt
        && (0..nt).all(|k| different(ns, |a| t.row(k, a)))
        && (0..nt).any(|k| (0..ns).all(|a| t.row(k, a) == a))
        && (0..nt).all(|k| (0..nt).all(|l| is_row(k, l)))
        && (0..ns).all(|a| (0..nt).all(|k| std::mem::replace(&mut images[t.row(k, a)], a) != a))
        && (0..t.n_patom).all(|p| s2pp(p2s(p)) == p)
        && (0..nt).all(|k| (0..ns).all(|a| s2pp(t.row(k, a)) == s2pp(a)))
        && (0..ns).all(|a| t.row(t.nsym_list[a] as usize, a) == p2s(s2pp(a)))
}

/// The table check alone, with the atoms, rows and representatives in plain order and in any order, beside the rules looked at one by one.
pub fn checks(b: &Bench) {
    println!("| check_shift_tables | plain order, us | any order, us | rule by rule, any order, us | ratio |\n|---|---|---|---|---|");
    for (n_patom, n_satom) in [(2, 16), (2, 32), (4, 64), (4, 512), (1, 1024)] {
        let plain = shifts(n_patom, n_satom);
        let mixed = tables(&shifts_along(n_satom / n_patom), n_patom, Some(&mut Rng::new(27)));
        let (one, other) = (b.check(&plain), b.check(&mixed));
        let rules = b.least(|| assert!(plainly(std::hint::black_box(&mixed))));
        println!("| {n_patom} × {n_satom} | {:.1} | {:.1} | {:.1} | {:.1} |", one * 1e6, other * 1e6, rules * 1e6, rules / other);
    }
}

/// The worst absolute value of the row sums alone, nine of a row side by side, or NaN.
fn worst_of_rows(set: &[f64], n: usize) -> f64 {
    let mut worst: f64 = 0.0;
    for row in set.chunks_exact(9 * n) {
        let mut sums = [0.0; 9];
        for block in row.chunks_exact(9) {
            sums.iter_mut().zip(block).for_each(|(sum, x)| *sum += x);
        }
        for sum in sums {
            if sum.is_nan() || sum.abs() > worst {
                worst = sum.abs();
            }
        }
    }
    worst
}

/// The drift report, which looks along rows and columns, beside the row sums alone in Rust.
pub fn drifts(b: &Bench) {
    println!("| drift_report, atoms | port, us | row sums alone in Rust, us | ratio | stack, kB |\n|---|---|---|---|---|");
    for n in [16, 32, 64, 95, 96, 128, 192, 256, 512, 1024] {
        let set = plain(&mut Rng::new(28), n * n * 9);
        let mut call = Drift { set, value: vec![0.0], place: vec![0; 4], n_satom: n };
        let (mut port, mut rows) = (f64::MAX, f64::MAX);
        // in turns, so that both meet the same load
        for _ in 0..4 {
            port = port.min(b.least(|| assert_eq!(std::hint::black_box(&mut call).port(), WORST)));
            rows = rows.min(b.least(|| assert!(worst_of_rows(std::hint::black_box(&call.set), n) > 0.0)));
        }
        let stack = deepest(&mut || {
            std::hint::black_box(call.port());
        });
        println!("| {n} | {:.1} | {:.1} | {:.2} | {:.1} |", port * 1e6, rows * 1e6, port / rows, stack as f64 / 1024.0);
    }
}

/// Least times of two calls, in turns, so that both meet the same load.
fn in_turns(b: &Bench, mut one: impl FnMut(), mut other: impl FnMut()) -> [f64; 2] {
    turns(b, [&mut one, &mut other])
}

fn turns<const N: usize>(b: &Bench, mut sides: [&mut dyn FnMut(); N]) -> [f64; N] {
    let mut least = [f64::MAX; N];
    for _ in 0..4 {
        least.iter_mut().zip(&mut sides).for_each(|(t, side)| *t = t.min(b.least(side)));
    }
    least
}

/// The audit of three sets beside the symmetrizer of the same size: a set that the symmetrizer left, of which every number is looked at; the same but for
/// one number, in the group that is looked at last; and one full of NaN of many patterns, which are alike. The symmetrizer is given what it left: nothing
/// is restored between its runs, and no side copies a set.
fn audit_line(b: &Bench, what: &str, size: &str, mut alike: Audit, mut symmetrize: impl FnMut()) {
    let (mut unlike, mut nan) = (alike.clone(), alike.clone());
    let q = alike.last_group() + 1;
    unlike.set[q] = f64::from_bits(alike.set[q].to_bits() ^ 1);
    nan.set.iter_mut().zip(0..).for_each(|(x, k)| *x = f64::from_bits(0x7ff8_0000_0000_0000 + k));
    let mut audit_of = [(&mut alike, ALIKE), (&mut unlike, UNLIKE), (&mut nan, ALIKE)].map(|(set, answer)| move || assert_eq!(std::hint::black_box(&mut *set).port(), answer));
    let [one, two, three] = &mut audit_of;
    let times = turns(b, [one, two, three, &mut symmetrize]);
    let cells: Vec<String> = times.iter().map(|t| format!("{:.1}", t * 1e6)).chain(times[..3].iter().map(|t| format!("{:.2}", t / times[3]))).collect();
    println!("| {what} | {size} | {} |", cells.join(" | "));
}

fn audited(name: Audited, set: Vec<f64>, tables: Tables, atoms: usize) -> Audit {
    Audit { name, set, other: vec![], tables, atoms, place: vec![0; 2], numbers: vec![0.0; 2] }
}

fn audit_compact(b: &Bench, order: usize, [p, s]: [usize; 2]) {
    let mut call = fitted(Compact::new([Name::Exchange2, Name::Symmetrize3, Name::Symmetrize4][order - 2], shifts(p, s)));
    call.set = plain(&mut Rng::new(30), call.stated());
    assert_eq!(call.port(), 0);
    let audit = audited(Audited::Compact(order), call.set.clone(), shifts(p, s), 0);
    audit_line(b, &format!("compact fc{order}"), &format!("{p} × {s}"), audit, || assert_eq!(std::hint::black_box(&mut call).port(), 0));
}

fn audit_full(b: &Bench, order: usize, atoms: usize) {
    let mut call = Full { level: 1, ..fitted(Full::new(order, atoms)) };
    call.set = plain(&mut Rng::new(30), call.stated());
    assert_eq!(call.port(), 0);
    let audit = audited(Audited::Full(order), call.set.clone(), whole(0), atoms);
    audit_line(b, &format!("full fc{order}"), &atoms.to_string(), audit, || assert_eq!(std::hint::black_box(&mut call).port(), 0));
}

/// The drift of a compact set, which reads n_satom² blocks twice, and of a third-order set, which reads all of it three times, beside the sum of so
/// many numbers in Rust, one after another.
fn drift_row(b: &Bench, name: Audited, size: &str, tables: Tables, atoms: usize, read: usize) {
    let set = plain(&mut Rng::new(31), if name == Audited::DriftLegs { atoms.pow(3) * 27 } else { tables.n_patom * tables.n_satom * 9 });
    let [place, numbers] = name.slots();
    let mut call = Audit { name, set, other: vec![], tables, atoms, place: vec![0; place], numbers: vec![0.0; numbers] };
    let many = plain(&mut Rng::new(32), read);
    let [one, other] = in_turns(b, || assert_eq!(std::hint::black_box(&mut call).port(), WORST), || assert!(std::hint::black_box(&many).iter().sum::<f64>().is_finite()));
    println!("| {} | {size} | {:.1} | {:.1} | {:.2} |", if name == Audited::DriftLegs { "drift_report_fc3" } else { "drift_report_compact_fc2" }, one * 1e6, other * 1e6, one / other);
}

fn drift_rows(b: &Bench) {
    println!("\n| drift | size | port, us | so many numbers summed in Rust, us | ratio |\n|---|---|---|---|---|");
    for [p, s] in [[2, 64], [4, 256], [4, 512]] {
        drift_row(b, Audited::DriftCompact, &format!("{p} × {s}"), shifts(p, s), 0, 2 * s * s * 9);
    }
    for n in [8, 16, 32, 64] {
        drift_row(b, Audited::DriftLegs, &n.to_string(), whole(0), n, 3 * n.pow(3) * 27);
    }
}

/// The audits beside the symmetrizers; at second order, compact, beside the average of exchanged pairs.
pub fn audits(b: &Bench) {
    println!("| audit of a set | size | alike, us | unlike in its last group, us | full of NaN, us | symmetrizer, us | ratio, alike | ratio, unlike | ratio, NaN |");
    println!("|---|---|---|---|---|---|---|---|---|");
    for (order, sizes) in [(2, vec![[4, 512], [64, 256]]), (3, vec![[1, 64], [2, 64], [4, 64]]), (4, vec![[1, 16], [2, 16]])] {
        sizes.into_iter().for_each(|size| audit_compact(b, order, size));
    }
    for (order, n) in [(2, 64), (2, 512), (3, 32), (3, 64), (3, 128), (4, 8), (4, 16)] {
        audit_full(b, order, n);
    }
    drift_rows(b);
}

/// The symmetrizers that take the drift off too beside those that do not, by level; each is given what it left, as the audits' are.
fn acoustic_line(b: &Bench, size: &str, mut call: Acoustic) {
    call.set = plain(&mut Rng::new(33), call.stated());
    let mut levels = [0, 1, 3].map(|level| fitted(Acoustic { level, ..call.clone() }));
    let [one, two, three] = &mut levels;
    let mut full = Full { set: call.set.clone(), ..fitted(Full::new(call.order, call.atoms)) };
    let name = if call.order == 3 { Name::Symmetrize3 } else { Name::Symmetrize4 };
    let mut compact = Compact { set: call.set.clone(), ..fitted(Compact::new(name, call.tables.clone())) };
    let mut symmetrize = || assert_eq!(if call.compact { std::hint::black_box(&mut compact).port() } else { std::hint::black_box(&mut full).port() }, 0);
    let mut runs = [one, two, three].map(|call| move || assert_eq!(std::hint::black_box(&mut *call).port(), 0));
    let [zero, once, thrice] = &mut runs;
    let [sym, zero, once, thrice] = turns(b, [&mut symmetrize, zero, once, thrice]).map(|t| t * 1e6);
    println!("| {} | {size} | {sym:.1} | {zero:.1} | {once:.1} | {thrice:.1} | {:.2} | {:.2} |", call.name(), once / sym, thrice / 3.0 / sym);
}

pub fn acoustics(b: &Bench) {
    println!("| call | size | symmetrizer, us | level 0, us | level 1, us | level 3, us | level 1 / symmetrizer | a level of three / symmetrizer |\n|---|---|---|---|---|---|---|---|");
    for n in [8, 16, 32, 64, 128] {
        acoustic_line(b, &n.to_string(), Acoustic::full(3, n, 0));
    }
    for [p, s] in [[2, 16], [1, 64], [2, 64], [4, 64], [2, 128]] {
        acoustic_line(b, &format!("{p} × {s}"), Acoustic::compact(3, shifts(p, s), 0));
    }
    for n in [4, 8, 16] {
        acoustic_line(b, &n.to_string(), Acoustic::full(4, n, 0));
    }
    for [p, s] in [[1, 8], [1, 16], [2, 16]] {
        acoustic_line(b, &format!("{p} × {s}"), Acoustic::compact(4, shifts(p, s), 0));
    }
}

/// `find_permutation`: beside compute_permutation where that gives true, and where chains are needed, with its stack.
pub fn findings(b: &Bench) {
    println!("| positions | order | find_permutation, us | compute_permutation, us | ratio | stack, kB |\n|---|---|---|---|---|---|");
    for (n, kind, order) in [64, 512, 1024].into_iter().flat_map(|n| [(n, Kind::Same, "the same"), (n, Kind::Permuted, "any")]) {
        let (pos, rot_pos) = pair(&mut Rng::new(29), kind, n);
        let mut greedy = Matching { slots: vec![0; n], lattice: SKEW.to_vec(), symprec: 1e-5, periodic: EVERYWHERE.to_vec(), pos: pos.clone(), rot_pos: rot_pos.clone(), pair: vec![0; 2], num_pos: n };
        let mut call = Finding { slots: vec![0; n], marks: vec![0; n], lattice: SKEW.to_vec(), symprec: 1e-5, periodic: EVERYWHERE.to_vec(), pos, rot_pos, num_pos: n };
        let [port, other] = in_turns(b, || assert_eq!(std::hint::black_box(&mut call).port(), 0), || assert_eq!(std::hint::black_box(&mut greedy).port(), 0));
        println!("| {n} | {order} | {:.1} | {:.1} | {:.2} | {:.1} |", port * 1e6, other * 1e6, port / other, stack_of(&mut call));
    }
    println!("\n| positions | staircase, us | without its top step, us | stack, kB | crowd, us | stack, kB |\n|---|---|---|---|---|---|");
    for n in [64, 128, 256, 512, 1024] {
        let (mut stairs, mut none, mut crowd) = (staircase(n, true), staircase(n, false), crowd(n / 2, 0));
        let [found, missing] = in_turns(b, || assert_eq!(stairs.port(), 0), || assert_eq!(none.port(), NO_MATCH));
        let crowded = b.least(|| assert_eq!(crowd.port(), 0));
        let stacks = [stack_of(&mut stairs), stack_of(&mut crowd)];
        println!("| {n} | {:.1} | {:.1} | {:.1} | {:.1} | {:.1} |", found * 1e6, missing * 1e6, stacks[0], crowded * 1e6, stacks[1]);
    }
}

fn stack_of(call: &mut Finding) -> f64 {
    let stack = deepest(&mut || {
        std::hint::black_box(call.port());
    });
    stack as f64 / 1024.0
}
