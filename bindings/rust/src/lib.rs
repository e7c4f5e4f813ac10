//! Force constants up to fourth order, the matching of atoms, and delivery rolls: safe functions over the proved library
//! Gullyfork.
//!
//! The modules and functions have the names and the arguments of [phonors](https://github.com/phonopy/phonors). What differs:
//!
//! - every input is taken: a call does its work, or returns the first [`Refusal`] that applies and leaves every slice as it was;
//! - a second form, `.._with`, takes work memory and the counts that phonors does not ask for (`num_trans`, `num_first`, `num_rot`).
//!   The plain form allocates the one and works out the others from the lengths. What work memory holds does not matter; it is
//!   zero after a call that is not refused.
//!
//! The module [`tables`] has every call once more with less to pass: the shift tables as one argument, the work memory the caller's, and an
//! error, [`Refused`], that names the argument which is the reason of a refusal.
//!
//! The library has no state and allocates nothing: any number of threads may call it at the same time, each on slices that Rust lets it have.
//! The plain forms here allocate work memory; those that end in `_with`, and those of [`tables`], allocate nothing. A call takes at most 103 kB of
//! stack, but [`cells::find_permutation`] 378 kB at 1,024 positions; docs/GUIDE.md has a table.
//!
//! Sets are slices of `f64`. A set of order 2, 3 or 4 has a block of 9, 27 or 81 numbers for each pair, triple or quadruple of atoms;
//! the last atom varies fastest, and in a block the last direction. In a compact set the first atom is one of the primitive cell.
//!
//! `include/gullyfork.h` states lengths, limits and refusals of each call; a plain form has those of its C name.
//!
//! ```
//! use gullyfork::{fc3, Refusal};
//!
//! let mut set = [0.0; 27];
//! for (number, place) in [5, 7, 11, 15, 19, 21].into_iter().enumerate() {
//!     set[place] = number as f64 + 1.0;
//! }
//! fc3::set_permutation_symmetry_fc3(&mut set, 1)?;
//! assert_eq!(set[5], 3.5);
//! assert_eq!(fc3::set_permutation_symmetry_fc3(&mut set, 2), Err(Refusal::WrongLength));
//! # Ok::<(), Refusal>(())
//! ```
#![deny(missing_docs, rustdoc::broken_intra_doc_links)]
pub mod audit;
pub mod cells;
pub mod common;
pub mod fc2;
pub mod fc3;
pub mod fc4;
pub mod report;
pub mod roll;
pub mod tables;

mod ffi;
mod refused;

pub use refused::{Argument, Refused, Rule};

use ffi::call;
use std::ffi::{c_char, CStr};
use std::{error, fmt};

/// Why a call was turned down: the first of these that applies. Every slice is as it was.
#[derive(Clone, Copy, Debug, PartialEq, Eq, Hash)]
#[repr(u8)]
#[non_exhaustive]
pub enum Refusal {
    /// A count is above its limit.
    CountAboveLimit = 1,
    /// A slice has not the length that is stated for it.
    WrongLength = 2,
    /// An entry of an index table is negative or not below its count, also one that the call would not read; or an index that is given is not
    /// below its count.
    IndexOutOfRange = 3,
    /// A slab that the set does not have, or one slab as source and target.
    BadSlab = 4,
    /// The representative of a listed atom is not in the list, or has another representative.
    BadRepresentative = 5,
    /// The shift tables break a rule.
    BadShiftTables = 6,
    /// The bytes are no roll, or more than the slice has; nothing starts at the position; or the record to add breaks the rules.
    NotARoll = 7,
    /// The roll would pass 1,000 records, 65,536 bytes or the lent slice.
    NoRoom = 8,
    /// A record of the roll delivers a set again, names one not delivered before it, or replaces one a second time.
    NotLawful = 9,
    /// A number of the old block or of the new one is off the grid.
    OffGrid = 10,
    /// The set to retire was never delivered.
    UnknownSet = 11,
}

impl Refusal {
    /// The number of the refusal, 1 to 11.
    pub fn number(self) -> u8 {
        self as u8
    }
}

impl fmt::Display for Refusal {
    fn fmt(&self, f: &mut fmt::Formatter) -> fmt::Result {
        f.write_str(words(self.number()))
    }
}

impl error::Error for Refusal {}

/// The version of the library that is linked, three numbers with points between: that of this crate.
pub fn version() -> &'static str {
    text(call!(gf_version()))
}

/// What an answer means. The words stand once, in include/gullyfork.h.
fn words(answer: u8) -> &'static str {
    text(call!(gf_words(answer)))
}

/// A text of the library, which is never null and stays.
fn text(pointer: *const c_char) -> &'static str {
    unsafe { CStr::from_ptr(pointer) }.to_str().expect("the library's texts are UTF-8")
}

/// The numbers of include/gullyfork.h: 0, and the refusals.
fn answer(number: u8) -> Result<(), Refusal> {
    Err(match number {
        0 => return Ok(()),
        1 => Refusal::CountAboveLimit,
        2 => Refusal::WrongLength,
        3 => Refusal::IndexOutOfRange,
        4 => Refusal::BadSlab,
        5 => Refusal::BadRepresentative,
        6 => Refusal::BadShiftTables,
        7 => Refusal::NotARoll,
        8 => Refusal::NoRoom,
        9 => Refusal::NotLawful,
        10 => Refusal::OffGrid,
        11 => Refusal::UnknownSet,
        _ => unreachable!("the library answers with 0 to 11 here, not with {number}"),
    })
}

/// The length of a work slice, the counts' product; 0 where a count is above its limit, since the call is refused for that before it
/// looks at lengths.
fn room(limits: &[(usize, usize)]) -> usize {
    if limits.iter().any(|(count, limit)| count > limit) {
        return 0;
    }
    limits.iter().map(|(count, _)| count).product()
}

/// How many rows of a length there are in a slice. What is left over makes the call refuse the slice's length.
fn rows(length: usize, row: usize) -> usize {
    length.checked_div(row).unwrap_or(0)
}

#[cfg(test)]
mod tests {
    use super::*;

    const NUMBERS: [u8; 11] = [1, 2, 3, 4, 5, 6, 7, 8, 9, 10, 11];

    #[test]
    fn numbers_come_back() {
        assert_eq!(answer(0), Ok(()));
        for number in NUMBERS {
            assert_eq!(answer(number).unwrap_err().number(), number);
        }
    }

    #[test]
    fn every_refusal_has_its_own_words() {
        let words = NUMBERS.map(|n| answer(n).unwrap_err().to_string());
        for (i, w) in words.iter().enumerate() {
            assert!(!words[..i].contains(w));
        }
    }

    #[test]
    fn the_library_is_of_this_version() {
        assert_eq!(version(), env!("CARGO_PKG_VERSION"));
        assert_eq!(words(255), "not an answer of this library");
    }

    #[test]
    fn no_room_for_what_is_refused() {
        assert_eq!(room(&[(3, 256), (5, 256), (5, 256)]), 75);
        assert_eq!(room(&[(usize::MAX, 256), (usize::MAX, 256)]), 0);
        assert_eq!(rows(54, 27), 2);
        assert_eq!(rows(54, 0), 0);
    }
}
