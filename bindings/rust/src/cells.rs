//! The matching of atoms.
use crate::ffi::call;
use crate::{answer, Refusal};
use std::{error, fmt};

/// Why matching gives neither true nor false.
#[derive(Clone, Copy, Debug, PartialEq, Eq, Hash)]
pub enum MatchError {
    /// The call was turned down, and nothing is touched.
    Refused(Refusal),
    /// The match failed, and a distance was NaN: the first pair of position and free slot with such a distance that the search came
    /// to. The slots are those of the failed match.
    NoNumber {
        /// The position.
        position: usize,
        /// The slot.
        slot: usize,
    },
}

impl From<Refusal> for MatchError {
    fn from(refusal: Refusal) -> MatchError {
        MatchError::Refused(refusal)
    }
}

impl fmt::Display for MatchError {
    fn fmt(&self, f: &mut fmt::Formatter) -> fmt::Result {
        match self {
            MatchError::Refused(refusal) => refusal.fmt(f),
            MatchError::NoNumber { position, slot } => write!(f, "position {position} against slot {slot}: the distance is not a number"),
        }
    }
}

impl error::Error for MatchError {}

/// Which position each rotated position comes from: the lowest free slot j of `rot_atom` whose `rot_pos` j is nearer than `symprec` to
/// `pos` i takes i, for i rising; a slot that nothing takes is -1. True exactly if all slots are filled. After a false a match
/// may exist all the same. A match that fails where a distance was NaN is an error that names the first such pair.
///
/// The basis vectors stand in the columns of `lat`: component k of a difference is row k times the difference of the coordinates. With
/// the vectors in the rows the distances of an oblique cell are wrong, and nothing is refused. The cell repeats along all three axes;
/// [`compute_permutation_in`] takes others.
///
/// Lengths: `rot_atom` num_pos, `pos` and `rot_pos` 3 × num_pos; num_pos up to 1,024.
///
/// ```
/// use gullyfork::{cells, cells::MatchError, Refusal};
///
/// let unit = [1.0, 0.0, 0.0, 0.0, 1.0, 0.0, 0.0, 0.0, 1.0];
/// let mut pos = [0.0, 0.0, 0.0, 0.5, 0.0, 0.0];
/// let rot_pos = [0.5, 0.0, 0.0, 1.0, 0.0, 0.0];
/// let mut slots = [0; 2];
/// assert!(cells::compute_permutation(&mut slots, &unit, &pos, &rot_pos, 2, 1e-5)?);
/// assert_eq!(slots, [1, 0]);
/// let refused = cells::compute_permutation(&mut slots, &unit, &pos, &rot_pos[1..], 2, 1e-5);
/// assert_eq!(refused, Err(MatchError::Refused(Refusal::WrongLength)));
///
/// pos[3] = f64::NAN;
/// let failed = cells::compute_permutation(&mut slots, &unit, &pos, &rot_pos, 2, 1e-5).unwrap_err();
/// assert_eq!(failed.to_string(), "position 1 against slot 0: the distance is not a number");
/// assert_eq!(slots, [-1, 0]);
/// # Ok::<(), MatchError>(())
/// ```
pub fn compute_permutation(
    rot_atom: &mut [i64],
    lat: &[f64; 9],
    pos: &[f64],
    rot_pos: &[f64],
    num_pos: usize,
    symprec: f64,
) -> Result<bool, MatchError> {
    compute_permutation_in(rot_atom, lat, [true; 3], pos, rot_pos, num_pos, symprec)
}

/// The same in a cell that does not repeat along every axis, as a slab: `periodic` says for each coordinate whether it does. Along an axis
/// that does not, a difference is taken whole. Not in phonors.
///
/// ```
/// use gullyfork::{cells, cells::MatchError};
///
/// let unit = [1.0, 0.0, 0.0, 0.0, 1.0, 0.0, 0.0, 0.0, 1.0];
/// let (top, bottom) = ([0.0, 0.0, 0.9375], [0.0, 0.0, 0.0625]);
/// let mut slots = [0];
/// assert!(cells::compute_permutation_in(&mut slots, &unit, [true; 3], &top, &bottom, 1, 0.25)?);
/// assert!(!cells::compute_permutation_in(&mut slots, &unit, [true, true, false], &top, &bottom, 1, 0.25)?);
/// # Ok::<(), MatchError>(())
/// ```
pub fn compute_permutation_in(
    rot_atom: &mut [i64],
    lat: &[f64; 9],
    periodic: [bool; 3],
    pos: &[f64],
    rot_pos: &[f64],
    num_pos: usize,
    symprec: f64,
) -> Result<bool, MatchError> {
    const NOT_MATCHED: u8 = 64;
    const NO_NUMBER: u8 = 69;
    let mut pair = [0; 2];
    let flags = periodic.map(u8::from);
    match call!(gf_compute_permutation(&mut rot_atom, &lat, symprec, &flags, &pos, &rot_pos, &mut pair, num_pos)) {
        NOT_MATCHED => Ok(false),
        NO_NUMBER => Err(MatchError::NoNumber { position: pair[0], slot: pair[1] }),
        number => Ok(answer(number).map(|()| true)?),
    }
}

/// A bijection of near pairs, if there is one; that of `compute_permutation` where it gives true. True: `rot_atom` has it, and
/// `marks` is zero. False: none exists; `rot_atom` is -1 throughout, and the positions that `marks` has a 1 for have fewer near slots
/// between them than they are. A NaN distance is not near. Not in phonors.
///
/// Lengths: `rot_atom` and `marks` num_pos, `pos` and `rot_pos` 3 × num_pos; num_pos up to 1,024.
///
/// ```
/// use gullyfork::{cells, Refusal};
///
/// let unit = [1.0, 0.0, 0.0, 0.0, 1.0, 0.0, 0.0, 0.0, 1.0];
/// let pos = [0.25, 0.0, 0.0, 0.0, 0.0, 0.0];
/// let mut rot_pos = [0.125, 0.0, 0.0, 0.375, 0.0, 0.0];
/// let (mut slots, mut marks) = ([0; 2], [0; 2]);
/// assert!(cells::find_permutation(&mut slots, &mut marks, &unit, [true; 3], &pos, &rot_pos, 2, 0.1875)?);
/// assert_eq!(slots, [1, 0]);
/// rot_pos[3] = 0.125 + 0.5; // both positions are near slot 0 alone: two positions, one place to go
/// assert!(!cells::find_permutation(&mut slots, &mut marks, &unit, [true; 3], &pos, &rot_pos, 2, 0.1875)?);
/// assert_eq!((slots, marks), ([-1, -1], [1, 1]));
/// # Ok::<(), Refusal>(())
/// ```
pub fn find_permutation(
    rot_atom: &mut [i64],
    marks: &mut [u8],
    lat: &[f64; 9],
    periodic: [bool; 3],
    pos: &[f64],
    rot_pos: &[f64],
    num_pos: usize,
    symprec: f64,
) -> Result<bool, Refusal> {
    const NO_MATCH: u8 = 72;
    let flags = periodic.map(u8::from);
    match call!(gf_find_permutation(&mut rot_atom, &mut marks, &lat, symprec, &flags, &pos, &rot_pos, num_pos)) {
        NO_MATCH => Ok(false),
        number => answer(number).map(|()| true),
    }
}
