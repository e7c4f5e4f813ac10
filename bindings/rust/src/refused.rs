//! A refusal together with the argument that is its reason.
use crate::Refusal;
use std::{error, fmt};

/// Why a call of [`tables`](crate::tables) was refused, and which argument is the reason. Every slice is as it was.
///
/// ```
/// use gullyfork::tables::{self, Tables};
/// use gullyfork::{Argument, Refusal};
///
/// let tables = Tables::new(&[0], &[0, 0], &[0, 1], &[0, 1, 1, 0])?;
/// let (mut fc3, mut done) = (vec![0.0; 107], [0; 4]);
/// let refused = tables::set_permutation_symmetry_compact_fc3(&mut fc3, &tables, &mut done).unwrap_err();
/// assert_eq!(refused.refusal, Refusal::WrongLength);
/// assert!(matches!(refused.argument, Some(Argument::Length { name: "fc3", length: 107, stated: 108, .. })));
/// assert_eq!(
///     refused.to_string(),
///     "set_permutation_symmetry_compact_fc3: refusal 2, a slice is not as long as stated \
///      (fc3: length 107, stated n_patom * n_satom * n_satom * 27 = 108)"
/// );
/// # Ok::<(), gullyfork::Refused>(())
/// ```
#[derive(Clone, Copy, Debug, PartialEq, Eq)]
#[non_exhaustive]
pub struct Refused {
    /// The call's name.
    pub call: &'static str,
    /// The refusal, as the library answered it.
    pub refusal: Refusal,
    /// The argument that is the reason; of refusals 1 to 3 and 6, and of 4 where a slab is not below num_first.
    pub argument: Option<Argument>,
}

/// An argument that a call was refused for.
#[derive(Clone, Copy, Debug, PartialEq, Eq)]
#[non_exhaustive]
pub enum Argument {
    /// A count that is above its limit.
    #[non_exhaustive]
    Count {
        /// The argument's name.
        name: &'static str,
        /// What it is.
        value: usize,
        /// What it may be at most.
        limit: usize,
    },
    /// A slice of another length than the stated one.
    #[non_exhaustive]
    Length {
        /// The argument's name.
        name: &'static str,
        /// The length that it has.
        length: usize,
        /// The length that is stated for it.
        stated: usize,
        /// The same by the names of the counts.
        rule: &'static str,
    },
    /// The first entry of an index table that is out of range.
    #[non_exhaustive]
    Entry {
        /// The argument's name.
        name: &'static str,
        /// Which entry of the slice.
        place: usize,
        /// What it is.
        value: i64,
        /// The count that it has to be below.
        count: usize,
    },
    /// An index that is out of range.
    #[non_exhaustive]
    Index {
        /// The argument's name.
        name: &'static str,
        /// What it is.
        value: usize,
        /// The count that it has to be below.
        count: usize,
    },
    /// The first rule that the shift tables break.
    Rule(Rule),
}

/// A rule that shift tables break, with the least rows and atoms that show it: `explain_shift_tables` has their order.
///
/// ```
/// use gullyfork::{tables::Tables, Argument, Rule};
///
/// let refused = Tables::new(&[0], &[0, 0, 0], &[0, 1, 2], &[0, 1, 2, 1, 2, 0, 2, 0, 1])?.check().unwrap_err();
/// assert_eq!(refused.argument, Some(Argument::Rule(Rule::Lands { atom: 1, row: 1, to: 2, representative: 0 })));
/// assert_eq!(refused.argument.unwrap().to_string(), "nsym_list: entry 1 is 1, which sends atom 1 to 2, not to 0");
/// # Ok::<(), gullyfork::Refused>(())
/// ```
#[derive(Clone, Copy, Debug, PartialEq, Eq)]
#[allow(missing_docs)] // the fields are what the text of each has
#[non_exhaustive]
pub enum Rule {
    /// n_satom = n_patom × num_trans.
    Counts { n_satom: usize, n_patom: usize, num_trans: usize },
    /// A row sends different atoms to different atoms.
    Injective { row: usize, atoms: [usize; 2] },
    /// At least one row sends each atom to itself.
    Null,
    /// One row after another is a row.
    Closed { first: usize, then: usize },
    /// Different rows never send an atom to the same place.
    Free { rows: [usize; 2], atom: usize, to: i64 },
    /// s2pp\[p2s\[p\]\] = p.
    Back { p: usize, atom: i64, s2pp: i64 },
    /// s2pp is the same for an atom and its images.
    Kept { row: usize, atom: usize, s2pp: i64, image: i64, other: i64 },
    /// Row nsym_list\[a\] sends a to p2s\[s2pp\[a\]\].
    Lands { atom: usize, row: i64, to: i64, representative: i64 },
}

impl fmt::Display for Rule {
    fn fmt(&self, f: &mut fmt::Formatter) -> fmt::Result {
        match self {
            Rule::Counts { n_satom, n_patom, num_trans } => {
                write!(f, "perms: {num_trans} rows: n_satom {n_satom} is not n_patom {n_patom} x num_trans {num_trans}")
            }
            Rule::Injective { row, atoms: [a, b] } => write!(f, "perms: row {row} sends atoms {a} and {b} to the same place"),
            Rule::Null => write!(f, "perms: no row sends each atom to itself (the null shift)"),
            Rule::Closed { first, then } => write!(f, "perms: row {first} and then row {then} is no row: a shift is missing"),
            Rule::Free { rows: [t, u], atom, to } => write!(f, "perms: rows {t} and {u} both send atom {atom} to atom {to}"),
            Rule::Back { p, atom, s2pp } => write!(f, "s2pp: entry {atom} is {s2pp}, and p2s[{p}] is {atom}"),
            Rule::Kept { row, atom, s2pp, image, other } => {
                write!(f, "s2pp: it is {s2pp} for atom {atom} and {other} for atom {image}, where row {row} sends it")
            }
            Rule::Lands { atom, row, to, representative } => {
                write!(f, "nsym_list: entry {atom} is {row}, which sends atom {atom} to {to}, not to {representative}")
            }
        }
    }
}

impl fmt::Display for Argument {
    fn fmt(&self, f: &mut fmt::Formatter) -> fmt::Result {
        match self {
            Argument::Count { name, value, limit } => write!(f, "{name}: {value}, limit {limit}"),
            Argument::Length { name, length, stated, rule } => write!(f, "{name}: length {length}, stated {rule} = {stated}"),
            Argument::Entry { name, place, value, count } => write!(f, "{name}: entry {place} is {value}, count {count}"),
            Argument::Index { name, value, count } => write!(f, "{name}: {value}, count {count}"),
            Argument::Rule(rule) => rule.fmt(f),
        }
    }
}

impl fmt::Display for Refused {
    fn fmt(&self, f: &mut fmt::Formatter) -> fmt::Result {
        write!(f, "{}: refusal {}, {}", self.call, self.refusal.number(), self.refusal)?;
        match self.argument {
            Some(argument) => write!(f, " ({argument})"),
            None => Ok(()),
        }
    }
}

impl error::Error for Refused {}

/// What include/gullyfork.h states of an argument. A length is worked out only where no count is above its limit, so that it cannot
/// overflow.
#[derive(Clone, Copy)]
pub(crate) enum Stated<'a> {
    Count(&'static str, usize, usize),
    Length { name: &'static str, length: usize, stated: &'a dyn Fn() -> usize, rule: &'static str },
    Entries(&'static str, &'a [i64], usize),
    Index(&'static str, usize, usize),
    Slab(&'static str, usize, usize),
}

impl Stated<'_> {
    /// The argument, if it is the reason of this refusal.
    fn wrong(&self, refusal: Refusal) -> Option<Argument> {
        match (*self, refusal) {
            (Stated::Count(name, value, limit), Refusal::CountAboveLimit) => {
                (value > limit).then_some(Argument::Count { name, value, limit })
            }
            (Stated::Length { name, length, stated, rule }, Refusal::WrongLength) => {
                (length != stated()).then(|| Argument::Length { name, length, stated: stated(), rule })
            }
            (Stated::Entries(name, entries, count), Refusal::IndexOutOfRange) => {
                let place = entries.iter().position(|&e| usize::try_from(e).map_or(true, |e| e >= count))?;
                Some(Argument::Entry { name, place, value: entries[place], count })
            }
            (Stated::Index(name, value, count), Refusal::IndexOutOfRange) | (Stated::Slab(name, value, count), Refusal::BadSlab) => {
                (value >= count).then_some(Argument::Index { name, value, count })
            }
            _ => None,
        }
    }
}

/// The refusal with the first argument that is its reason; Tables::refused adds the rule that shift tables break.
pub(crate) fn refused(refusal: Refusal, call: &'static str, stated: &[Stated]) -> Refused {
    Refused { call, refusal, argument: stated.iter().find_map(|s| s.wrong(refusal)) }
}

macro_rules! count {
    ($x:ident, $limit:expr) => {
        $crate::refused::Stated::Count(stringify!($x), $x, $limit)
    };
}

macro_rules! length {
    ($x:ident, $stated:expr) => {
        $crate::refused::Stated::Length { name: stringify!($x), length: $x.len(), stated: &|| $stated, rule: stringify!($stated) }
    };
}

macro_rules! entries {
    ($x:ident, $count:expr) => {
        $crate::refused::Stated::Entries(stringify!($x), $x, $count)
    };
}

macro_rules! index {
    ($x:ident, $count:expr) => {
        $crate::refused::Stated::Index(stringify!($x), $x, $count)
    };
}

macro_rules! slab {
    ($x:ident, $count:expr) => {
        $crate::refused::Stated::Slab(stringify!($x), $x, $count)
    };
}

pub(crate) use {count, entries, index, length, slab};
