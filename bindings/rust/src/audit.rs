//! Audits: whether numbers that are to be the same are. Sets are only read.
//!
//! ```
//! use gullyfork::audit::{audit_fc2, same_set, Audit};
//!
//! let mut set = [0.0; 36]; // two atoms
//! set[9] = 2.0; // block (0, 1), directions 0, 0
//! let Audit::Unlike(found) = audit_fc2(&set, 2)? else { panic!() };
//! assert_eq!((found.place, found.order, found.here, found.there), (9, 1, 2.0, 0.0));
//! set[18] = 2.0; // block (1, 0)
//! assert_eq!(audit_fc2(&set, 2)?, Audit::Alike);
//! assert_eq!(same_set(&set, &set.map(|x| -x))?, Audit::Unlike(gullyfork::audit::Difference { place: 0, order: 0, here: 0.0, there: -0.0 }));
//! # Ok::<(), gullyfork::Refusal>(())
//! ```
use crate::ffi::call;
use crate::{answer, rows, Refusal};

/// What an audit says. Any NaN is the same as any NaN.
#[derive(Clone, Copy, Debug, PartialEq)]
pub enum Audit {
    /// All numbers that are to be the same have the same bits.
    Alike,
    /// Some have not.
    Unlike(Difference),
}

/// The first place, in the order of the set, at which numbers differ that are to be the same.
#[derive(Clone, Copy, Debug, PartialEq)]
pub struct Difference {
    /// The place in the set.
    pub place: usize,
    /// The first permutation that reads the other number, counted from 0: 01, 10; 012, 021, 102, 120, 201, 210; 0123 to 3210 likewise. The
    /// digits name the pairs in their new order: where the number of p, q, r stands, 120 reads that of q, r, p.
    pub order: usize,
    /// The number at the place.
    pub here: f64,
    /// The other number.
    pub there: f64,
}

fn told(number: u8, place: [usize; 2], numbers: [f64; 2]) -> Result<Audit, Refusal> {
    match number {
        73 => Ok(Audit::Alike),
        74 => Ok(Audit::Unlike(Difference { place: place[0], order: place[1], here: numbers[0], there: numbers[1] })),
        _ => Err(answer(number).expect_err("an audit does not answer 0")),
    }
}

/// Whether two sets have the same bits.
pub fn same_set(a: &[f64], b: &[f64]) -> Result<Audit, Refusal> {
    let (mut place, mut numbers) = ([0; 2], [0.0; 2]);
    told(call!(gf_same_set(&a, &b, &mut place, &mut numbers)), place, numbers)
}

/// Whether both permutations of any two (atom, direction) pairs of a compact set read out the same bits.
pub fn audit_compact_fc2(
    fc: &[f64],
    p2s: &[i64],
    s2pp: &[i64],
    nsym_list: &[i64],
    perms: &[i64],
    n_satom: usize,
    n_patom: usize,
) -> Result<Audit, Refusal> {
    let (mut place, mut numbers) = ([0; 2], [0.0; 2]);
    let num_trans = rows(perms.len(), n_satom);
    let number = call!(gf_audit_compact_fc2(&fc, &p2s, &s2pp, &nsym_list, &perms, &mut place, &mut numbers, n_satom, n_patom, num_trans));
    told(number, place, numbers)
}

/// The same of a full set.
pub fn audit_fc2(fc: &[f64], num_atom: usize) -> Result<Audit, Refusal> {
    let (mut place, mut numbers) = ([0; 2], [0.0; 2]);
    told(call!(gf_audit_fc2(&fc, &mut place, &mut numbers, num_atom)), place, numbers)
}

/// Whether all six permutations of any three (atom, direction) pairs of a compact set read out the same bits.
pub fn audit_compact_fc3(
    fc: &[f64],
    p2s: &[i64],
    s2pp: &[i64],
    nsym_list: &[i64],
    perms: &[i64],
    n_satom: usize,
    n_patom: usize,
) -> Result<Audit, Refusal> {
    let (mut place, mut numbers) = ([0; 2], [0.0; 2]);
    let num_trans = rows(perms.len(), n_satom);
    let number = call!(gf_audit_compact_fc3(&fc, &p2s, &s2pp, &nsym_list, &perms, &mut place, &mut numbers, n_satom, n_patom, num_trans));
    told(number, place, numbers)
}

/// The same of a full set.
pub fn audit_fc3(fc: &[f64], num_atom: usize) -> Result<Audit, Refusal> {
    let (mut place, mut numbers) = ([0; 2], [0.0; 2]);
    told(call!(gf_audit_fc3(&fc, &mut place, &mut numbers, num_atom)), place, numbers)
}

/// Whether all 24 permutations of any four (atom, direction) pairs of a compact set read out the same bits.
pub fn audit_compact_fc4(
    fc: &[f64],
    p2s: &[i64],
    s2pp: &[i64],
    nsym_list: &[i64],
    perms: &[i64],
    n_satom: usize,
    n_patom: usize,
) -> Result<Audit, Refusal> {
    let (mut place, mut numbers) = ([0; 2], [0.0; 2]);
    let num_trans = rows(perms.len(), n_satom);
    let number = call!(gf_audit_compact_fc4(&fc, &p2s, &s2pp, &nsym_list, &perms, &mut place, &mut numbers, n_satom, n_patom, num_trans));
    told(number, place, numbers)
}

/// The same of a full set.
pub fn audit_fc4(fc: &[f64], num_atom: usize) -> Result<Audit, Refusal> {
    let (mut place, mut numbers) = ([0; 2], [0.0; 2]);
    told(call!(gf_audit_fc4(&fc, &mut place, &mut numbers, num_atom)), place, numbers)
}
