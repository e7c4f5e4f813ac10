//! Reports: how far a set is from what it must obey, as the largest of all differences with its place. Sets are only read.
//!
//! ```
//! use gullyfork::fc2::Drift;
//! use gullyfork::report::{difference_report_fc2, set_difference, Report};
//!
//! let mut set = [0.0; 36]; // two atoms
//! (set[9], set[18]) = (2.0, 1.5); // blocks (0, 1) and (1, 0), directions 0, 0
//! let worst = Report { drift: Drift::Worst(0.5), address: 9, order: 1 };
//! assert_eq!(difference_report_fc2(&set, 2)?, worst);
//! assert_eq!(set_difference(&set, &[0.0; 36])?, Report { drift: Drift::Worst(2.0), address: 9, order: 0 });
//! # Ok::<(), gullyfork::Refusal>(())
//! ```
use crate::fc2::{drift_of, Drift};
use crate::ffi::call;
use crate::{rows, Refusal};

/// The worst of all differences, and the first place that has it; of NaN the first place that is one.
#[derive(Clone, Copy, Debug, PartialEq)]
pub struct Report {
    /// Still: all differences are zero. Worst: the largest absolute value of one. NoNumber: one is NaN.
    pub drift: Drift,
    /// The address in the set.
    pub address: usize,
    /// The permutation that reads the other number, counted as in `audit::Difference`; 0 where there is none.
    pub order: usize,
}

/// How far two sets are apart: the numbers of a minus those of b.
pub fn set_difference(a: &[f64], b: &[f64]) -> Result<Report, Refusal> {
    let (mut value, mut place) = ([0.0], [0; 2]);
    let drift = drift_of(call!(gf_set_difference(&a, &b, &mut value, &mut place)), value)?;
    Ok(Report { drift, address: place[0], order: place[1] })
}

/// The worst difference between the numbers that both permutations of any two (atom, direction) pairs of a compact set read out.
pub fn difference_report_compact_fc2(
    fc: &[f64],
    p2s: &[i64],
    s2pp: &[i64],
    nsym_list: &[i64],
    perms: &[i64],
    n_satom: usize,
    n_patom: usize,
) -> Result<Report, Refusal> {
    let (mut value, mut place) = ([0.0], [0; 2]);
    let num_trans = rows(perms.len(), n_satom);
    let number =
        call!(gf_difference_report_compact_fc2(&fc, &p2s, &s2pp, &nsym_list, &perms, &mut value, &mut place, n_satom, n_patom, num_trans));
    Ok(Report { drift: drift_of(number, value)?, address: place[0], order: place[1] })
}

/// The same of a full set.
pub fn difference_report_fc2(fc: &[f64], num_atom: usize) -> Result<Report, Refusal> {
    let (mut value, mut place) = ([0.0], [0; 2]);
    let drift = drift_of(call!(gf_difference_report_fc2(&fc, &mut value, &mut place, num_atom)), value)?;
    Ok(Report { drift, address: place[0], order: place[1] })
}

/// The worst difference between the numbers that all six permutations of any three (atom, direction) pairs of a compact set read out.
pub fn difference_report_compact_fc3(
    fc: &[f64],
    p2s: &[i64],
    s2pp: &[i64],
    nsym_list: &[i64],
    perms: &[i64],
    n_satom: usize,
    n_patom: usize,
) -> Result<Report, Refusal> {
    let (mut value, mut place) = ([0.0], [0; 2]);
    let num_trans = rows(perms.len(), n_satom);
    let number =
        call!(gf_difference_report_compact_fc3(&fc, &p2s, &s2pp, &nsym_list, &perms, &mut value, &mut place, n_satom, n_patom, num_trans));
    Ok(Report { drift: drift_of(number, value)?, address: place[0], order: place[1] })
}

/// The same of a full set.
pub fn difference_report_fc3(fc: &[f64], num_atom: usize) -> Result<Report, Refusal> {
    let (mut value, mut place) = ([0.0], [0; 2]);
    let drift = drift_of(call!(gf_difference_report_fc3(&fc, &mut value, &mut place, num_atom)), value)?;
    Ok(Report { drift, address: place[0], order: place[1] })
}

/// The worst difference between the numbers that all 24 permutations of any four (atom, direction) pairs of a compact set read out.
pub fn difference_report_compact_fc4(
    fc: &[f64],
    p2s: &[i64],
    s2pp: &[i64],
    nsym_list: &[i64],
    perms: &[i64],
    n_satom: usize,
    n_patom: usize,
) -> Result<Report, Refusal> {
    let (mut value, mut place) = ([0.0], [0; 2]);
    let num_trans = rows(perms.len(), n_satom);
    let number =
        call!(gf_difference_report_compact_fc4(&fc, &p2s, &s2pp, &nsym_list, &perms, &mut value, &mut place, n_satom, n_patom, num_trans));
    Ok(Report { drift: drift_of(number, value)?, address: place[0], order: place[1] })
}

/// The same of a full set.
pub fn difference_report_fc4(fc: &[f64], num_atom: usize) -> Result<Report, Refusal> {
    let (mut value, mut place) = ([0.0], [0; 2]);
    let drift = drift_of(call!(gf_difference_report_fc4(&fc, &mut value, &mut place, num_atom)), value)?;
    Ok(Report { drift, address: place[0], order: place[1] })
}

/// How far a set is from obeying the crystal's own operations: the worst deviation, and the first place that has it.
#[derive(Clone, Copy, Debug, PartialEq)]
pub struct CrystalReport {
    /// Still: all deviations are zero. Worst: the largest absolute value of one. NoNumber: one is NaN.
    pub drift: Drift,
    /// The operation.
    pub operation: usize,
    /// The address in the set.
    pub address: usize,
}

/// The deviation of a compact set of second order from the crystal's operations: `r_carts` has a 3 by 3 Cartesian matrix for each, row after row,
/// `operations` where it sends each atom.
#[allow(clippy::too_many_arguments)]
pub fn crystal_report_compact_fc2(
    fc: &[f64],
    p2s: &[i64],
    s2pp: &[i64],
    nsym_list: &[i64],
    perms: &[i64],
    r_carts: &[f64],
    operations: &[i64],
    n_satom: usize,
    n_patom: usize,
) -> Result<CrystalReport, Refusal> {
    let (mut value, mut place) = ([0.0], [0; 2]);
    let (num_trans, num_rot) = (rows(perms.len(), n_satom), r_carts.len() / 9);
    let number = call!(gf_crystal_report_compact_fc2(
        &fc,
        &p2s,
        &s2pp,
        &nsym_list,
        &perms,
        &r_carts,
        &operations,
        &mut value,
        &mut place,
        n_satom,
        n_patom,
        num_trans,
        num_rot
    ));
    Ok(CrystalReport { drift: drift_of(number, value)?, operation: place[0], address: place[1] })
}

/// The same of a full set.
pub fn crystal_report_fc2(fc: &[f64], r_carts: &[f64], operations: &[i64], num_atom: usize) -> Result<CrystalReport, Refusal> {
    let (mut value, mut place, num_rot) = ([0.0], [0; 2], r_carts.len() / 9);
    let drift = drift_of(call!(gf_crystal_report_fc2(&fc, &r_carts, &operations, &mut value, &mut place, num_atom, num_rot)), value)?;
    Ok(CrystalReport { drift, operation: place[0], address: place[1] })
}

/// The deviation of a compact set of third order from the crystal's operations: `r_carts` has a 3 by 3 Cartesian matrix for each, row after row,
/// `operations` where it sends each atom.
#[allow(clippy::too_many_arguments)]
pub fn crystal_report_compact_fc3(
    fc: &[f64],
    p2s: &[i64],
    s2pp: &[i64],
    nsym_list: &[i64],
    perms: &[i64],
    r_carts: &[f64],
    operations: &[i64],
    n_satom: usize,
    n_patom: usize,
) -> Result<CrystalReport, Refusal> {
    let (mut value, mut place) = ([0.0], [0; 2]);
    let (num_trans, num_rot) = (rows(perms.len(), n_satom), r_carts.len() / 9);
    let number = call!(gf_crystal_report_compact_fc3(
        &fc,
        &p2s,
        &s2pp,
        &nsym_list,
        &perms,
        &r_carts,
        &operations,
        &mut value,
        &mut place,
        n_satom,
        n_patom,
        num_trans,
        num_rot
    ));
    Ok(CrystalReport { drift: drift_of(number, value)?, operation: place[0], address: place[1] })
}

/// The same of a full set.
pub fn crystal_report_fc3(fc: &[f64], r_carts: &[f64], operations: &[i64], num_atom: usize) -> Result<CrystalReport, Refusal> {
    let (mut value, mut place, num_rot) = ([0.0], [0; 2], r_carts.len() / 9);
    let drift = drift_of(call!(gf_crystal_report_fc3(&fc, &r_carts, &operations, &mut value, &mut place, num_atom, num_rot)), value)?;
    Ok(CrystalReport { drift, operation: place[0], address: place[1] })
}

/// The deviation of a compact set of fourth order from the crystal's operations: `r_carts` has a 3 by 3 Cartesian matrix for each, row after row,
/// `operations` where it sends each atom.
#[allow(clippy::too_many_arguments)]
pub fn crystal_report_compact_fc4(
    fc: &[f64],
    p2s: &[i64],
    s2pp: &[i64],
    nsym_list: &[i64],
    perms: &[i64],
    r_carts: &[f64],
    operations: &[i64],
    n_satom: usize,
    n_patom: usize,
) -> Result<CrystalReport, Refusal> {
    let (mut value, mut place) = ([0.0], [0; 2]);
    let (num_trans, num_rot) = (rows(perms.len(), n_satom), r_carts.len() / 9);
    let number = call!(gf_crystal_report_compact_fc4(
        &fc,
        &p2s,
        &s2pp,
        &nsym_list,
        &perms,
        &r_carts,
        &operations,
        &mut value,
        &mut place,
        n_satom,
        n_patom,
        num_trans,
        num_rot
    ));
    Ok(CrystalReport { drift: drift_of(number, value)?, operation: place[0], address: place[1] })
}

/// The same of a full set.
pub fn crystal_report_fc4(fc: &[f64], r_carts: &[f64], operations: &[i64], num_atom: usize) -> Result<CrystalReport, Refusal> {
    let (mut value, mut place, num_rot) = ([0.0], [0; 2], r_carts.len() / 9);
    let drift = drift_of(call!(gf_crystal_report_fc4(&fc, &r_carts, &operations, &mut value, &mut place, num_atom, num_rot)), value)?;
    Ok(CrystalReport { drift, operation: place[0], address: place[1] })
}

/// How far the sums over each leg of the read-out are from zero: the worst sum, and the first place that has it. The sums over the last leg come first.
#[derive(Clone, Debug, PartialEq)]
pub struct LegSums {
    /// Still: all sums are zero. Worst: the largest absolute value of one. NoNumber: one is NaN.
    pub drift: Drift,
    /// The leg that is summed over.
    pub leg: usize,
    /// The atoms of the other legs.
    pub atoms: Vec<usize>,
    /// The directions of all legs.
    pub directions: Vec<usize>,
}

fn digits(base: usize, count: usize, number: usize) -> Vec<usize> {
    (0..count).rev().map(|k| number / base.max(1).pow(k as u32) % base.max(1)).collect()
}

fn legs(drift: Drift, place: [usize; 2], n: usize, order: usize) -> LegSums {
    let lines = n.max(1).pow(order as u32 - 1);
    LegSums {
        drift,
        leg: order - 1 - place[0] / lines,
        atoms: digits(n, order - 1, place[0] % lines),
        directions: digits(3, order, place[1]),
    }
}

/// The sums over each leg of the third-order set that a compact set reads out to. The full set is not made.
pub fn drift_report_compact_fc3(
    fc: &[f64],
    p2s: &[i64],
    s2pp: &[i64],
    nsym_list: &[i64],
    perms: &[i64],
    n_satom: usize,
    n_patom: usize,
) -> Result<LegSums, Refusal> {
    let (mut value, mut place) = ([0.0], [0; 2]);
    let num_trans = rows(perms.len(), n_satom);
    let number =
        call!(gf_drift_report_compact_fc3(&fc, &p2s, &s2pp, &nsym_list, &perms, &mut value, &mut place, n_satom, n_patom, num_trans));
    Ok(legs(drift_of(number, value)?, place, n_satom, 3))
}

/// The sums over each leg of the fourth-order set that a compact set reads out to. The full set is not made.
pub fn drift_report_compact_fc4(
    fc: &[f64],
    p2s: &[i64],
    s2pp: &[i64],
    nsym_list: &[i64],
    perms: &[i64],
    n_satom: usize,
    n_patom: usize,
) -> Result<LegSums, Refusal> {
    let (mut value, mut place) = ([0.0], [0; 2]);
    let num_trans = rows(perms.len(), n_satom);
    let number =
        call!(gf_drift_report_compact_fc4(&fc, &p2s, &s2pp, &nsym_list, &perms, &mut value, &mut place, n_satom, n_patom, num_trans));
    Ok(legs(drift_of(number, value)?, place, n_satom, 4))
}

/// The sums over each leg of a full set of fourth order.
pub fn drift_report_fc4(fc: &[f64], num_atom: usize) -> Result<LegSums, Refusal> {
    let (mut value, mut place) = ([0.0], [0; 2]);
    let drift = drift_of(call!(gf_drift_report_fc4(&fc, &mut value, &mut place, num_atom)), value)?;
    Ok(legs(drift, place, num_atom, 4))
}
