//! Calls at their limits that are not refused. Left out for their size: the full sets of third and fourth order, 3.6 and
//! 10.9 gigabytes.
use crate::call::{fit, Call};
use crate::call_acoustic::Acoustic;
use crate::call_compact::{Compact, Name};
use crate::call_deltas::Deltas;
use crate::call_distribute::Distribute;
use crate::call_drift::Drift;
use crate::call_finding::{crowd, staircase, Finding};
use crate::call_full::Full;
use crate::call_matching::{Matching, EVERYWHERE};
use crate::call_read_out::ReadOut;
use crate::call_slabs::Slabs;
use crate::call_tables::Check;
use crate::matching::{pair, Kind, SKEW};
use crate::port;
use crate::rng::Rng;
use crate::shifts::{cyclic, product, tables, Tables};
use crate::tally::{fill_work, Tally};
use crate::wild::{fill, plain};

/// One call whose slices still have to be made as long as they are stated.
fn one<C: Call>(tallies: &mut Vec<Tally>, name: &str, mut call: C) {
    if !port::has(name) {
        return;
    }
    fit(&mut call, u128::MAX);
    fill_work(&mut Rng::new(41), &mut call);
    let mut tally = Tally::new(name);
    tally.call(&mut call, &|c: &mut C| c.port());
    println!("{}", tally.line());
    if let Some((_, what)) = &tally.smallest {
        println!("  {what}");
    }
    tallies.push(tally);
}

fn over(r: &mut Rng, n_patom: usize, rows: [usize; 2]) -> Tables {
    tables(&product(&cyclic(rows[0]), &cyclic(rows[1])), n_patom, Some(r))
}

fn compact(r: &mut Rng, name: Name, tables: Tables, t_type: i64) -> Compact {
    let mut call = Compact { t_type, level: 1, ..Compact::new(name, tables) };
    call.set = fill(r, call.stated());
    call
}

fn second(tallies: &mut Vec<Tally>, r: &mut Rng) {
    let (one_atom, all_atoms) = (over(r, 1, [32, 32]), over(r, 1024, [1, 1]));
    one(tallies, "check_shift_tables", Check(one_atom.clone()));
    one(tallies, "check_shift_tables", Check(all_atoms));
    one(tallies, "perm_trans_symmetrize_compact_fc", compact(r, Name::Symmetrize2, one_atom.clone(), 0));
    let mut read_out = ReadOut::new(2, one_atom.clone());
    read_out.set = fill(r, read_out.set.len());
    one(tallies, "compact_to_full_fc2", read_out);
    one(tallies, "set_index_permutation_symmetry_compact_fc", compact(r, Name::Exchange2, one_atom, 1));
    let mut full = Full { level: 1, ..Full::new(2, 1024) };
    full.set = plain(r, full.stated());
    one(tallies, "perm_trans_symmetrize_fc", full);
    let drift = Drift { set: plain(r, 1024 * 1024 * 9), value: vec![0.0], place: vec![0; 4], n_satom: 1024 };
    one(tallies, "drift_report", drift);
    let (pos, rot_pos) = pair(r, Kind::Permuted, 1024);
    let matching = Matching { slots: vec![], lattice: SKEW.to_vec(), symprec: 1e-5, periodic: EVERYWHERE.to_vec(), pos, rot_pos, pair: vec![0; 2], num_pos: 1024 };
    let finding = |m: &Matching| Finding { slots: vec![], marks: vec![], lattice: m.lattice.clone(), symprec: 1e-5, periodic: EVERYWHERE.to_vec(), pos: m.pos.clone(), rot_pos: m.rot_pos.clone(), num_pos: 1024 };
    one(tallies, "find_permutation", finding(&matching));
    one(tallies, "compute_permutation", matching);
    for call in [staircase(1024, true), staircase(1024, false), crowd(512, 0), crowd(512, 1)] {
        one(tallies, "find_permutation", call);
    }
    one(tallies, "distribute_fc2", distribute(r, 1024));
}

fn distribute(r: &mut Rng, n: usize) -> Distribute {
    Distribute {
        set: plain(r, n * n * 9),
        atom_list: (0..n as i64).collect(),
        fc_indices: r.order(n).into_iter().map(|a| a as i64).collect(),
        r_carts: plain(r, n * 9),
        permutations: (0..n).flat_map(|_| r.order(n)).map(|a| a as i64).collect(),
        map_atoms: (0..n as i64).map(|a| a % 3).collect(),
        map_syms: (0..n).map(|_| r.below(n) as i64).collect(),
        reverse: vec![],
        num_pos: n,
        num_first: n,
        num_rot: n,
    }
}

fn slabs(r: &mut Rng, order: usize, num_atom: usize) -> Slabs {
    let set = plain(r, 2 * num_atom.pow(order as u32 - 1) * 3usize.pow(order as u32));
    let map = r.order(num_atom).into_iter().map(|a| a as i64).collect();
    Slabs { order, set, target: 0, source: 1, map, rotation: plain(r, 9), num_atom, num_first: 2 }
}

fn deltas(r: &mut Rng, order: usize, [num_atom, num_site_sym, num_disp]: [usize; 3]) -> Deltas {
    let below = num_atom.pow(order as u32 - 1) * 3usize.pow(order as u32 - 1);
    Deltas {
        order,
        set: vec![],
        deltas: plain(r, num_disp * below),
        inv_u: plain(r, 3 * num_disp * num_site_sym),
        site_sym_cart: plain(r, 9 * num_site_sym),
        rot_map_syms: (0..num_site_sym * num_atom).map(|_| r.below(num_atom) as i64).collect(),
        rot_delta: vec![],
        num_atom,
        num_site_sym,
        num_disp,
    }
}

fn acoustic(tallies: &mut Vec<Tally>, r: &mut Rng, mut call: Acoustic) {
    call.set = plain(r, call.stated());
    one(tallies, &call.name(), call);
}

fn third(tallies: &mut Vec<Tally>, r: &mut Rng) {
    for (n_patom, rows) in [(1, [16, 16]), (2, [16, 8])] {
        let t = over(r, n_patom, rows);
        one(tallies, "set_permutation_symmetry_compact_fc3", compact(r, Name::Symmetrize3, t.clone(), 0));
        for t_type in 0..3 {
            one(tallies, "transpose_compact_fc3", compact(r, Name::Transpose3, t.clone(), t_type));
        }
        acoustic(tallies, r, Acoustic::compact(3, t, 1));
    }
    one(tallies, "distribute_fc3", slabs(r, 3, 256));
    one(tallies, "rotate_delta_fc2s", deltas(r, 3, [256, 3, 2]));
    one(tallies, "rotate_delta_fc2s", deltas(r, 3, [1, 1024, 1024]));
}

fn fourth(tallies: &mut Vec<Tally>, r: &mut Rng) {
    let t = over(r, 1, [8, 8]);
    one(tallies, "set_permutation_symmetry_compact_fc4", compact(r, Name::Symmetrize4, t.clone(), 0));
    one(tallies, "transpose_compact_fc4", compact(r, Name::Transpose4, t.clone(), 0));
    acoustic(tallies, r, Acoustic::compact(4, t, 1));
    one(tallies, "distribute_fc4", slabs(r, 4, 64));
    one(tallies, "rotate_delta_fc3s", deltas(r, 4, [64, 2, 1]));
    one(tallies, "rotate_delta_fc3s", deltas(r, 4, [1, 1024, 1024]));
}

fn true_transposes(tallies: &mut Vec<Tally>, r: &mut Rng) {
    let t = over(r, 1, [32, 32]);
    one(tallies, "true_transpose_compact_fc2", compact(r, Name::True2, t, 0));
    let t = over(r, 2, [16, 8]);
    for t_type in 0..3 {
        one(tallies, "true_transpose_compact_fc3", compact(r, Name::True3, t.clone(), t_type));
    }
    let t = over(r, 1, [8, 8]);
    one(tallies, "true_transpose_compact_fc4", compact(r, Name::True4, t.clone(), 0));
    one(tallies, "swap_pairs_compact_fc4", Compact { legs: [1, 3], ..compact(r, Name::Swap4, t, 0) });
}

pub fn limits(seed: u64) -> Vec<Tally> {
    let (mut tallies, mut r) = (vec![], Rng::new(seed));
    second(&mut tallies, &mut r);
    third(&mut tallies, &mut r);
    fourth(&mut tallies, &mut r);
    true_transposes(&mut tallies, &mut r);
    tallies
}
