//! The port against the originals, call by call.
use crate::call::Call;
use crate::call_compact::Name;
use crate::call_report::Family;
use crate::compare_limits::limits;
use crate::rng::Rng;
use crate::tally::Tally;
use crate::{call_audit, call_report, call_tables, compare_agree, compare_common, compare_lists, compare_roll, compare_row_sums, compare_true, makers, port};

/// Every public call, the lists of transposes, the read-outs of the true ones, the lists of swaps, whole rolls, older rolls, series of edits and the two ways to a full set, in the order in which they are compared.
pub const CALLS: [&str; 76] = [
    "nint",
    "round",
    "sqrt",
    "check_shift_tables",
    "explain_shift_tables",
    "compute_permutation",
    "find_permutation",
    "perm_trans_symmetrize_fc",
    "perm_trans_symmetrize_compact_fc",
    "set_index_permutation_symmetry_compact_fc",
    "drift_report",
    "distribute_fc2",
    "set_permutation_symmetry_fc3",
    "set_permutation_symmetry_compact_fc3",
    "transpose_compact_fc3",
    "distribute_fc3",
    "rotate_delta_fc2s",
    "set_permutation_symmetry_fc4",
    "set_permutation_symmetry_compact_fc4",
    "transpose_compact_fc4",
    "distribute_fc4",
    "rotate_delta_fc3s",
    "lists of transposes",
    "lists that spell the same order",
    "true_transpose_compact_fc2",
    "true_transpose_compact_fc3",
    "true_transpose_compact_fc4",
    "true transposes read out",
    "swap_pairs_compact_fc4",
    "lists of swaps",
    "is_roll",
    "read_roll",
    "append_roll",
    "whole rolls",
    "row_sums_fc2",
    "replace_block_fc2",
    "series of edits",
    "stands_now",
    "retire_all",
    "compact_to_full_fc2",
    "compact_to_full_fc3",
    "compact_to_full_fc4",
    "compact and full on the grid",
    "compact and full off the grid",
    "is_roll_former",
    "read_roll_former",
    "older rolls",
    "same_set",
    "audit_compact_fc2",
    "audit_compact_fc3",
    "audit_compact_fc4",
    "audit_fc2",
    "audit_fc3",
    "audit_fc4",
    "drift_report_compact_fc2",
    "drift_report_fc3",
    "set_difference",
    "difference_report_compact_fc2",
    "difference_report_fc2",
    "difference_report_compact_fc3",
    "difference_report_fc3",
    "difference_report_compact_fc4",
    "difference_report_fc4",
    "crystal_report_compact_fc2",
    "crystal_report_fc2",
    "crystal_report_compact_fc3",
    "crystal_report_fc3",
    "crystal_report_compact_fc4",
    "crystal_report_fc4",
    "drift_report_compact_fc3",
    "drift_report_compact_fc4",
    "drift_report_fc4",
    "perm_trans_symmetrize_fc3",
    "perm_trans_symmetrize_compact_fc3",
    "perm_trans_symmetrize_fc4",
    "perm_trans_symmetrize_compact_fc4",
];

/// Of nint, round and sqrt so many patterns are tried for each call of the others.
const PATTERNS: u64 = 100;

fn beside<C: Call>(tally: &mut Tally, r: &mut Rng, count: u64, make: impl Fn(&mut Rng) -> C) {
    tally.calls(r, count, &make, &|call: &mut C| call.port());
}

fn run(tally: &mut Tally, r: &mut Rng, count: u64) {
    match tally.name.clone().as_str() {
        "nint" | "round" | "sqrt" => compare_common::patterns(tally, r, count * PATTERNS),
        "check_shift_tables" => beside(tally, r, count, makers::check),
        "explain_shift_tables" => beside(tally, r, count, call_tables::explain),
        "compute_permutation" => beside(tally, r, count, makers::matching),
        "find_permutation" => beside(tally, r, count, makers::finding),
        "perm_trans_symmetrize_fc" => beside(tally, r, count, |r| makers::full(r, 2)),
        "perm_trans_symmetrize_compact_fc" => beside(tally, r, count, |r| makers::compact(r, Name::Symmetrize2)),
        "set_index_permutation_symmetry_compact_fc" => beside(tally, r, count, |r| makers::compact(r, Name::Exchange2)),
        "drift_report" => beside(tally, r, count, makers::drift),
        "distribute_fc2" => beside(tally, r, count, makers::distribute),
        "set_permutation_symmetry_fc3" => beside(tally, r, count, |r| makers::full(r, 3)),
        "set_permutation_symmetry_compact_fc3" => beside(tally, r, count, |r| makers::compact(r, Name::Symmetrize3)),
        "transpose_compact_fc3" => beside(tally, r, count, |r| makers::compact(r, Name::Transpose3)),
        "distribute_fc3" => beside(tally, r, count, |r| makers::slabs(r, 3)),
        "rotate_delta_fc2s" => beside(tally, r, count, |r| makers::deltas(r, 3)),
        "set_permutation_symmetry_fc4" => beside(tally, r, count, |r| makers::full(r, 4)),
        "set_permutation_symmetry_compact_fc4" => beside(tally, r, count, |r| makers::compact(r, Name::Symmetrize4)),
        "transpose_compact_fc4" => beside(tally, r, count, |r| makers::compact(r, Name::Transpose4)),
        "distribute_fc4" => beside(tally, r, count, |r| makers::slabs(r, 4)),
        "rotate_delta_fc3s" => beside(tally, r, count, |r| makers::deltas(r, 4)),
        "true_transpose_compact_fc2" => beside(tally, r, count, |r| makers::compact(r, Name::True2)),
        "true_transpose_compact_fc3" => beside(tally, r, count, |r| makers::compact(r, Name::True3)),
        "true_transpose_compact_fc4" => beside(tally, r, count, |r| makers::compact(r, Name::True4)),
        "true transposes read out" => compare_true::read_outs(tally, r, count),
        "swap_pairs_compact_fc4" => beside(tally, r, count, |r| makers::compact(r, Name::Swap4)),
        "lists of swaps" => compare_true::swap_lists(tally, r, count),
        "lists of transposes" => compare_lists::lists(tally, r, count),
        "is_roll" => compare_roll::run(tally, r, count, compare_roll::Name::IsRoll),
        "read_roll" => compare_roll::run(tally, r, count, compare_roll::Name::ReadRoll),
        "append_roll" => compare_roll::run(tally, r, count, compare_roll::Name::AppendRoll),
        "whole rolls" => compare_roll::walks(tally, r, count),
        "row_sums_fc2" => compare_row_sums::run(tally, r, count, compare_row_sums::Name::RowSums),
        "replace_block_fc2" => compare_row_sums::run(tally, r, count, compare_row_sums::Name::ReplaceBlock),
        "series of edits" => compare_row_sums::series(tally, r, count),
        "stands_now" => compare_roll::run(tally, r, count, compare_roll::Name::StandsNow),
        "retire_all" => compare_roll::run(tally, r, count, compare_roll::Name::RetireAll),
        "compact_to_full_fc2" => beside(tally, r, count, |r| makers::read_out(r, 2)),
        "compact_to_full_fc3" => beside(tally, r, count, |r| makers::read_out(r, 3)),
        "compact_to_full_fc4" => beside(tally, r, count, |r| makers::read_out(r, 4)),
        "compact and full on the grid" => compare_agree::on_grid(tally, r, count),
        "compact and full off the grid" => compare_agree::off_grid(tally, r, count),
        "is_roll_former" => compare_roll::run(tally, r, count, compare_roll::Name::IsRollFormer),
        "read_roll_former" => compare_roll::run(tally, r, count, compare_roll::Name::ReadRollFormer),
        "older rolls" => compare_roll::older(tally, r, count),
        "same_set" => beside(tally, r, count, |r| call_audit::make(r, call_audit::Name::SameSet)),
        "audit_compact_fc2" => beside(tally, r, count, |r| call_audit::make(r, call_audit::Name::Compact(2))),
        "audit_compact_fc3" => beside(tally, r, count, |r| call_audit::make(r, call_audit::Name::Compact(3))),
        "audit_compact_fc4" => beside(tally, r, count, |r| call_audit::make(r, call_audit::Name::Compact(4))),
        "audit_fc2" => beside(tally, r, count, |r| call_audit::make(r, call_audit::Name::Full(2))),
        "audit_fc3" => beside(tally, r, count, |r| call_audit::make(r, call_audit::Name::Full(3))),
        "audit_fc4" => beside(tally, r, count, |r| call_audit::make(r, call_audit::Name::Full(4))),
        "drift_report_compact_fc2" => beside(tally, r, count, |r| call_audit::make(r, call_audit::Name::DriftCompact)),
        "drift_report_fc3" => beside(tally, r, count, |r| call_audit::make(r, call_audit::Name::DriftLegs)),
        "set_difference" => beside(tally, r, count, |r| call_report::make(r, Family::Sets, 2, false)),
        "difference_report_compact_fc2" => beside(tally, r, count, |r| call_report::make(r, Family::Orders, 2, true)),
        "difference_report_fc2" => beside(tally, r, count, |r| call_report::make(r, Family::Orders, 2, false)),
        "difference_report_compact_fc3" => beside(tally, r, count, |r| call_report::make(r, Family::Orders, 3, true)),
        "difference_report_fc3" => beside(tally, r, count, |r| call_report::make(r, Family::Orders, 3, false)),
        "difference_report_compact_fc4" => beside(tally, r, count, |r| call_report::make(r, Family::Orders, 4, true)),
        "difference_report_fc4" => beside(tally, r, count, |r| call_report::make(r, Family::Orders, 4, false)),
        "crystal_report_compact_fc2" => beside(tally, r, count, |r| call_report::make(r, Family::Crystal, 2, true)),
        "crystal_report_fc2" => beside(tally, r, count, |r| call_report::make(r, Family::Crystal, 2, false)),
        "crystal_report_compact_fc3" => beside(tally, r, count, |r| call_report::make(r, Family::Crystal, 3, true)),
        "crystal_report_fc3" => beside(tally, r, count, |r| call_report::make(r, Family::Crystal, 3, false)),
        "crystal_report_compact_fc4" => beside(tally, r, count, |r| call_report::make(r, Family::Crystal, 4, true)),
        "crystal_report_fc4" => beside(tally, r, count, |r| call_report::make(r, Family::Crystal, 4, false)),
        "drift_report_compact_fc3" => beside(tally, r, count, |r| call_report::make(r, Family::Legs, 3, true)),
        "drift_report_compact_fc4" => beside(tally, r, count, |r| call_report::make(r, Family::Legs, 4, true)),
        "drift_report_fc4" => beside(tally, r, count, |r| call_report::make(r, Family::Legs, 4, false)),
        "perm_trans_symmetrize_fc3" => beside(tally, r, count, |r| makers::acoustic(r, 3, false)),
        "perm_trans_symmetrize_compact_fc3" => beside(tally, r, count, |r| makers::acoustic(r, 3, true)),
        "perm_trans_symmetrize_fc4" => beside(tally, r, count, |r| makers::acoustic(r, 4, false)),
        "perm_trans_symmetrize_compact_fc4" => beside(tally, r, count, |r| makers::acoustic(r, 4, true)),
        _ => compare_lists::same_order(tally, r, count),
    }
}

/// Whether the library has what the comparison of that name calls.
fn present(name: &str) -> bool {
    port::has(match name {
        "whole rolls" => "append_roll",
        "older rolls" => "read_roll_former",
        "series of edits" => "replace_block_fc2",
        "true transposes read out" => "true_transpose_compact_fc4",
        "lists of swaps" => "swap_pairs_compact_fc4",
        _ if name.starts_with("compact and full") => "compact_to_full_fc4",
        _ if name.starts_with("lists") => "transpose_compact_fc3",
        _ => name,
    })
}

/// One comparison, with random numbers of its own; None if the library does not have the call.
fn one(name: &str, seed: u64, count: u64) -> Option<Tally> {
    let place = CALLS.iter().position(|call| *call == name)?;
    if !present(name) {
        println!("{name}: not in the library, left out");
        return None;
    }
    let mut tally = Tally::new(name);
    run(&mut tally, &mut Rng::new(seed.wrapping_mul(1000) + place as u64), count);
    println!("{}", tally.line());
    if let Some((_, what)) = &tally.smallest {
        println!("  the shortest input that differs: {what}");
    }
    Some(tally)
}

/// `count` calls of the given name, or of each name, or the calls at their limits. True if there were some and all
/// agree, NaN that arithmetic made equal to any NaN.
pub fn compare(name: &str, seed: u64, count: u64) -> Option<bool> {
    if !["all", "limits"].contains(&name) && !CALLS.contains(&name) {
        return None;
    }
    let names = || CALLS.iter().filter(|call| name == "all" || **call == name);
    // the originals on one thread: the calls are too small for more
    let pool = rayon::ThreadPoolBuilder::new().num_threads(1).build().expect("a thread");
    let tallies: Vec<Tally> = pool.install(|| match name {
        "limits" => limits(seed),
        _ => names().filter_map(|call| one(call, seed, count)).collect(),
    });
    let sum = |f: fn(&Tally) -> u64| tallies.iter().map(f).sum::<u64>();
    let (numbers, nans, kept, differences) = (sum(|t| t.numbers), sum(|t| t.nans), sum(|t| t.kept), sum(|t| t.differences));
    let calls = sum(|t| t.answers.values().sum());
    let absent: Vec<&&str> = names().filter(|call| !present(call)).collect();
    println!("seed {seed}: {calls} calls, {numbers} numbers ({nans} NaN, {kept} by their bits), {differences} differences");
    if !absent.is_empty() {
        println!("left out, for the library does not have them: {absent:?}");
    }
    Some(calls > 0 && differences == 0)
}
