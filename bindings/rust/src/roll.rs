//! A delivery roll: one file that lists what was delivered. `include/gullyfork.h` has the format.
//!
//! ```
//! use gullyfork::{roll, Refusal};
//!
//! let mut file = vec![0; 100];
//! let mut count = roll::EMPTY.len();
//! count = roll::append(&mut file, count, roll::DELIVERY, 7, 0, b"spring")?;
//! count = roll::append(&mut file, count, roll::REPLACEMENT, 8, 7, b"")?;
//! assert_eq!(roll::append(&mut file, count, roll::DELIVERY, 9, 7, b""), Err(Refusal::NotARoll));
//! let records: Result<Vec<roll::Record>, Refusal> = roll::records(&file, count).collect();
//! assert_eq!(roll::stands_now(&file, count, 7)?, roll::Standing::Current(8));
//! assert_eq!(records?.iter().map(|r| (r.set, r.label)).collect::<Vec<_>>(), [(7, &b"spring"[..]), (8, b"")]);
//! # Ok::<(), Refusal>(())
//! ```
use crate::ffi::call;
use crate::{answer, Refusal};

/// A roll without records.
pub const EMPTY: [u8; 8] = [0; 8];

/// The kind of a record that delivers a set.
pub const DELIVERY: u8 = 1;
/// The kind of a record that delivers a set in the place of an earlier one.
pub const REPLACEMENT: u8 = 2;
/// The kind of a record that retires a set.
pub const RETIREMENT: u8 = 3;

/// A record of a roll; the label is part of the roll's bytes.
#[derive(Clone, Copy, Debug, PartialEq, Eq)]
pub struct Record<'a> {
    /// [`DELIVERY`], [`REPLACEMENT`] or [`RETIREMENT`].
    pub kind: u8,
    /// The set number.
    pub set: u32,
    /// The set that a replacement replaces, 0 otherwise.
    pub earlier: u32,
    /// Any bytes.
    pub label: &'a [u8],
    /// Where the record ends: the next position.
    pub next: usize,
}

/// Whether the first `count` bytes are there and are a roll.
pub fn is_roll(lent: &[u8], count: usize) -> bool {
    call!(gf_is_roll(&lent, count))
}

/// The same by the former rule, under which older rolls list their starts in any order.
pub fn is_roll_former(lent: &[u8], count: usize) -> bool {
    call!(gf_is_roll_former(&lent, count))
}

/// What stands at a position of the roll in the first `count` bytes: a record, or `None` at the trailer.
pub fn read(lent: &[u8], count: usize, at: usize) -> Result<Option<Record<'_>>, Refusal> {
    let mut slots = [0; 6];
    let number = call!(gf_read_roll(&lent, count, at, &mut slots));
    found(lent, number, slots)
}

/// The same of an older roll, by the former rule.
pub fn read_former(lent: &[u8], count: usize, at: usize) -> Result<Option<Record<'_>>, Refusal> {
    let mut slots = [0; 6];
    let number = call!(gf_read_roll_former(&lent, count, at, &mut slots));
    found(lent, number, slots)
}

fn found(lent: &[u8], number: u8, slots: [usize; 6]) -> Result<Option<Record<'_>>, Refusal> {
    const END: u8 = 68;
    if number == END {
        return Ok(None);
    }
    answer(number)?;
    let [kind, set, earlier, from, length, next] = slots;
    Ok(Some(Record { kind: kind as u8, set: set as u32, earlier: earlier as u32, label: &lent[from..from + length], next }))
}

/// The records of a roll from byte 0, one after another; the refusal alone where the bytes are no roll.
pub fn records(lent: &[u8], count: usize) -> impl Iterator<Item = Result<Record<'_>, Refusal>> {
    walk(move |at| read(lent, count, at))
}

/// The records of an older roll, by the former rule; appended to an empty roll they make the roll that all other calls take.
pub fn records_former(lent: &[u8], count: usize) -> impl Iterator<Item = Result<Record<'_>, Refusal>> {
    walk(move |at| read_former(lent, count, at))
}

fn walk<'a>(read: impl Fn(usize) -> Result<Option<Record<'a>>, Refusal>) -> impl Iterator<Item = Result<Record<'a>, Refusal>> {
    let mut at = Some(0);
    std::iter::from_fn(move || {
        let found = read(at?).transpose();
        at = match &found {
            Some(Ok(record)) => Some(record.next),
            _ => None,
        };
        found
    })
}

/// Adds a record at the end of the roll in the first `count` bytes, and gives the new count. The bytes after the new roll stay.
pub fn append(lent: &mut [u8], count: usize, kind: u8, set: u32, earlier: u32, label: &[u8]) -> Result<usize, Refusal> {
    let mut new_count = [0];
    let number = call!(gf_append_roll(&mut lent, count, kind, set, earlier, &label, &mut new_count));
    answer(number)?;
    let [long] = new_count;
    Ok(long)
}

/// What a roll answers for a set.
#[derive(Clone, Copy, Debug, PartialEq, Eq)]
pub enum Standing {
    /// The set was never delivered.
    Unknown,
    /// The set at the end of the chain of replacements was retired.
    Retired,
    /// The number to use.
    Current(u32),
}

/// Which set stands now for `set`, by the roll in the first `count` bytes.
pub fn stands_now(lent: &[u8], count: usize, set: u32) -> Result<Standing, Refusal> {
    const UNKNOWN: u8 = 70;
    const RETIRED: u8 = 71;
    let mut use_set = [0];
    match call!(gf_stands_now(&lent, count, set, &mut use_set)) {
        UNKNOWN => Ok(Standing::Unknown),
        RETIRED => Ok(Standing::Retired),
        number => answer(number).map(|()| Standing::Current(use_set[0] as u32)),
    }
}

/// Retires `set` and all sets that replacements link with it, before and after it, by the roll in the first `count` bytes, which grows inside
/// the slice, and gives its new count. On a refusal no byte is written.
pub fn retire_all(lent: &mut [u8], count: usize, set: u32) -> Result<usize, Refusal> {
    let mut new_count = [0];
    answer(call!(gf_retire_all(&mut lent, count, set, &mut new_count)))?;
    let [long] = new_count;
    Ok(long)
}
