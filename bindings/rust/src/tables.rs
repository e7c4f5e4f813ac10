//! Every call with less to pass: the shift tables as one argument, what else belongs together as one, and a refusal that names the argument
//! which is its reason ([`Refused`]).
//!
//! A function here has the name of the function that it calls, passes its arguments on in order, and does nothing else; what that function
//! says of its work, lengths and limits holds here. Work memory is the caller's. Calls of compact sets take the set, the tables and the work
//! memory:
//!
//! ```
//! use gullyfork::tables::{self, Tables};
//!
//! // three atoms, one of them in the primitive cell, and their three shifts
//! let tables = Tables::new(&[0], &[0, 0, 0], &[0, 2, 1], &[0, 1, 2, 1, 2, 0, 2, 0, 1])?;
//! let mut fc3: Vec<f64> = (0..243).map(f64::from).collect();
//! let mut done = vec![0; tables.n_patom() * tables.n_satom() * tables.n_satom()];
//! tables::set_permutation_symmetry_compact_fc3(&mut fc3, &tables, &mut done)?;
//! assert_eq!(tables::audit_compact_fc3(&fc3, &tables)?, gullyfork::audit::Audit::Alike);
//!
//! let refused = tables::transpose_compact_fc3(&mut fc3, &tables, &mut done, 0).unwrap_err();
//! assert_eq!(
//!     refused.to_string(),
//!     "transpose_compact_fc3: refusal 2, a slice is not as long as stated (done: length 9, stated n_patom * n_satom = 3)"
//! );
//! # Ok::<(), gullyfork::Refused>(())
//! ```
// To add a call: a function with the plain one's name and arguments; the four tables and their counts are `tables: &Tables`, taken apart by
// `open!`. It calls the plain function, and `map_err` gives what include/gullyfork.h states of the arguments, in their order: `length!` for
// each slice, `count!` for each count with a limit, `entries!` for each index table. `tables.refused` has the tables' own, so only their limit
// is given. Then a case in tests/tables.rs, which tries each argument.
use crate::audit::{self, Audit};
use crate::cells::{self, MatchError};
use crate::fc2::{self, DriftReport};
use crate::fc3::{self, LegReport};
use crate::fc4;
use crate::ffi::call;
use crate::refused::{count, entries, index, length, refused, slab, Argument, Refused, Rule, Stated};
use crate::report::{self, CrystalReport, LegSums, Report};
use crate::{answer, Refusal};

/// Whether shift tables keep every rule, as every compact call of second order judges them: shift t takes atom a to
/// `perms[t * n_satom + a]`, `p2s` has the atom that stands for each atom of the primitive cell, `s2pp` the atom of the primitive cell
/// that each atom is an image of, and shift `nsym_list[a]` takes a to `p2s[s2pp[a]]`.
///
/// ```
/// use gullyfork::{tables::check_shift_tables, Refusal};
///
/// let rows = [0, 1, 2, 1, 2, 0, 2, 0, 1];
/// assert_eq!(check_shift_tables(&[0], &[0, 0, 0], &[0, 2, 1], &rows, 3, 1, 3), Ok(()));
/// assert_eq!(check_shift_tables(&[0], &[0, 0, 0], &[0, 1, 2], &rows, 3, 1, 3), Err(Refusal::BadShiftTables));
/// ```
pub fn check_shift_tables(
    p2s: &[i64],
    s2pp: &[i64],
    nsym_list: &[i64],
    perms: &[i64],
    n_satom: usize,
    n_patom: usize,
    num_trans: usize,
) -> Result<(), Refusal> {
    answer(call!(gf_check_shift_tables(&p2s, &s2pp, &nsym_list, &perms, n_satom, n_patom, num_trans)))
}

/// What [`explain_shift_tables`] says of tables.
#[derive(Clone, Copy, Debug, PartialEq, Eq)]
#[non_exhaustive]
pub struct Explanation {
    /// What [`check_shift_tables`] answers.
    pub answer: Result<(), Refusal>,
    /// Refusal 1: 0 `n_satom`, 1 `n_patom`, 2 `num_trans`. 2 and 3: 0 `perms`, 1 `p2s`, 2 `s2pp`, 3 `nsym_list`. 6: the rule, from 0 to 7, in the
    /// order of [`Rule`].
    pub which: usize,
    /// 3: the entry. 6: the least numbers that break the rule. What is not named is 0.
    pub place: [usize; 3],
}

/// Why [`check_shift_tables`] refuses tables: the first count, table, entry or rule that is wrong. Never refused.
///
/// ```
/// use gullyfork::{tables::explain_shift_tables, Refusal};
///
/// let e = explain_shift_tables(&[0], &[0, 0, 0], &[0, 1, 2], &[0, 1, 2, 1, 2, 0, 2, 0, 1], 3, 1, 3);
/// assert_eq!((e.answer, e.which, e.place), (Err(Refusal::BadShiftTables), 7, [1, 0, 0]));
/// ```
pub fn explain_shift_tables(
    p2s: &[i64],
    s2pp: &[i64],
    nsym_list: &[i64],
    perms: &[i64],
    n_satom: usize,
    n_patom: usize,
    num_trans: usize,
) -> Explanation {
    let mut place = [0; 5];
    call!(gf_explain_shift_tables(&p2s, &s2pp, &nsym_list, &perms, &mut place, n_satom, n_patom, num_trans));
    let [number, which, i, j, k] = place;
    Explanation { answer: answer(number as u8), which, place: [i, j, k] }
}

/// Shift tables whose lengths fit each other. What is in them is judged by each call; [`Tables::check`] judges it alone.
#[derive(Clone, Copy, Debug, PartialEq, Eq)]
pub struct Tables<'a> {
    p2s: &'a [i64],
    s2pp: &'a [i64],
    nsym_list: &'a [i64],
    perms: &'a [i64],
    n_satom: usize,
    n_patom: usize,
    num_trans: usize,
}

macro_rules! open {
    ($tables:expr, $($name:ident),*) => { let Tables { $($name,)* .. } = *$tables; };
}

impl<'a> Tables<'a> {
    /// The tables with the counts that their lengths tell: n_patom is the length of `p2s`, n_satom that of `s2pp` and `nsym_list`, and
    /// num_trans the number of rows of `perms`, of n_satom entries each. Refused where `nsym_list` or `perms` has another length.
    ///
    /// ```
    /// use gullyfork::tables::Tables;
    ///
    /// let refused = Tables::new(&[0], &[0, 0], &[0, 1], &[0, 1, 1]).unwrap_err();
    /// assert_eq!(refused.argument.unwrap().to_string(), "perms: length 3, stated num_trans * n_satom = 2");
    /// let refused = Tables::new(&[0], &[0, 0], &[0, 1], &[0, 1, 1, 2])?.check().unwrap_err();
    /// assert_eq!(refused.argument.unwrap().to_string(), "perms: entry 3 is 2, count 2");
    /// # Ok::<(), gullyfork::Refused>(())
    /// ```
    pub fn new(p2s: &'a [i64], s2pp: &'a [i64], nsym_list: &'a [i64], perms: &'a [i64]) -> Result<Tables<'a>, Refused> {
        let (n_satom, n_patom) = (s2pp.len(), p2s.len());
        let num_trans = crate::rows(perms.len(), n_satom);
        if nsym_list.len() != n_satom || perms.len() != num_trans * n_satom {
            let lengths = [length!(nsym_list, n_satom), length!(perms, num_trans * n_satom)];
            return Err(refused(Refusal::WrongLength, "Tables::new", &lengths));
        }
        Ok(Tables { p2s, s2pp, nsym_list, perms, n_satom, n_patom, num_trans })
    }

    /// How many atoms the supercell has.
    pub fn n_satom(&self) -> usize {
        self.n_satom
    }

    /// How many atoms the primitive cell has.
    pub fn n_patom(&self) -> usize {
        self.n_patom
    }

    /// How many shifts there are.
    pub fn num_trans(&self) -> usize {
        self.num_trans
    }

    /// [`check_shift_tables`]: whether the tables keep every rule.
    pub fn check(&self) -> Result<(), Refused> {
        open!(self, p2s, s2pp, nsym_list, perms, n_satom, n_patom, num_trans);
        check_shift_tables(p2s, s2pp, nsym_list, perms, n_satom, n_patom, num_trans)
            .map_err(|r| self.refused(r, "check_shift_tables", 1024, &[]))
    }

    /// [`explain_shift_tables`]: what a refusal of the tables is about.
    pub fn explain(&self) -> Explanation {
        open!(self, p2s, s2pp, nsym_list, perms, n_satom, n_patom, num_trans);
        explain_shift_tables(p2s, s2pp, nsym_list, perms, n_satom, n_patom, num_trans)
    }

    /// The first rule that the tables break, where they get refusal 6.
    fn broken(&self) -> Option<Rule> {
        open!(self, p2s, s2pp, nsym_list, perms, n_satom, n_patom, num_trans);
        let Explanation { answer: Err(Refusal::BadShiftTables), which, place: [i, j, k] } = self.explain() else { return None };
        let row = |t: usize, a: usize| perms[t * n_satom + a];
        Some(match which {
            0 => Rule::Counts { n_satom, n_patom, num_trans },
            1 => Rule::Injective { row: i, atoms: [j, k] },
            2 => Rule::Null,
            3 => Rule::Closed { first: i, then: j },
            4 => Rule::Free { rows: [i, j], atom: k, to: row(i, k) },
            5 => Rule::Back { p: i, atom: p2s[i], s2pp: s2pp[p2s[i] as usize] },
            6 => Rule::Kept { row: i, atom: j, s2pp: s2pp[j], image: row(i, j), other: s2pp[row(i, j) as usize] },
            _ => Rule::Lands { atom: i, row: nsym_list[i], to: row(nsym_list[i] as usize, i), representative: p2s[s2pp[i] as usize] },
        })
    }

    /// The refusal of a compact call: its arguments `stated`, and the tables with the limit of their counts.
    fn refused(&self, refusal: Refusal, call: &'static str, limit: usize, stated: &[Stated]) -> Refused {
        open!(self, p2s, s2pp, nsym_list, perms, n_satom, n_patom, num_trans);
        let own = [
            count!(n_satom, limit),
            count!(n_patom, limit),
            count!(num_trans, limit),
            entries!(p2s, n_satom),
            entries!(s2pp, n_patom),
            entries!(nsym_list, num_trans),
            entries!(perms, n_satom),
        ];
        let first = refused(refusal, call, &own);
        if first.argument.is_some() {
            return first;
        }
        if refusal == Refusal::BadShiftTables {
            return Refused { argument: self.broken().map(Argument::Rule), ..first };
        }
        refused(refusal, call, stated)
    }
}

// ---- matching

/// The cell in which positions are matched.
#[derive(Clone, Copy, Debug, PartialEq)]
pub struct Cell {
    /// Nine numbers, row after row, the basis vectors in the columns.
    pub lattice: [f64; 9],
    /// The tolerance.
    pub symprec: f64,
    /// For each axis whether the cell repeats along it.
    pub periodic: [bool; 3],
}

/// What [`compute_permutation`] finds.
#[derive(Clone, Copy, Debug, PartialEq, Eq)]
#[non_exhaustive]
pub enum Match {
    /// All slots are filled.
    Found,
    /// Some slot is left free; a match may exist all the same.
    NotFound,
    /// The same, and a distance was NaN: the first such pair that the search tried.
    #[non_exhaustive]
    NoNumber {
        /// The position.
        position: usize,
        /// The slot.
        slot: usize,
    },
}

/// [`cells::compute_permutation_in`]; a match that fails is no error here.
///
/// ```
/// use gullyfork::tables::{compute_permutation, Cell, Match};
///
/// let cell = Cell { lattice: [1.0, 0.0, 0.0, 0.0, 1.0, 0.0, 0.0, 0.0, 1.0], symprec: 1e-5, periodic: [true; 3] };
/// let mut slots = [0];
/// assert_eq!(compute_permutation(&mut slots, &cell, &[0.0; 3], &[1.0; 3], 1)?, Match::Found);
/// let refused = compute_permutation(&mut slots, &cell, &[0.0; 3], &[1.0; 2], 1).unwrap_err();
/// assert_eq!(refused.argument.unwrap().to_string(), "rot_pos: length 2, stated 3 * num_pos = 3");
/// # Ok::<(), gullyfork::Refused>(())
/// ```
pub fn compute_permutation(rot_atom: &mut [i64], cell: &Cell, pos: &[f64], rot_pos: &[f64], num_pos: usize) -> Result<Match, Refused> {
    let Cell { lattice, symprec, periodic } = cell;
    match cells::compute_permutation_in(rot_atom, lattice, *periodic, pos, rot_pos, num_pos, *symprec) {
        Ok(true) => Ok(Match::Found),
        Ok(false) => Ok(Match::NotFound),
        Err(MatchError::NoNumber { position, slot }) => Ok(Match::NoNumber { position, slot }),
        Err(MatchError::Refused(r)) => Err(refused(
            r,
            "compute_permutation",
            &[length!(rot_atom, num_pos), length!(pos, 3 * num_pos), length!(rot_pos, 3 * num_pos), count!(num_pos, 1024)],
        )),
    }
}

/// [`cells::find_permutation`].
pub fn find_permutation(
    rot_atom: &mut [i64],
    marks: &mut [u8],
    cell: &Cell,
    pos: &[f64],
    rot_pos: &[f64],
    num_pos: usize,
) -> Result<bool, Refused> {
    let Cell { lattice, symprec, periodic } = cell;
    cells::find_permutation(rot_atom, marks, lattice, *periodic, pos, rot_pos, num_pos, *symprec).map_err(|r| {
        let stated = [
            length!(rot_atom, num_pos),
            length!(marks, num_pos),
            length!(pos, 3 * num_pos),
            length!(rot_pos, 3 * num_pos),
            count!(num_pos, 1024),
        ];
        refused(r, "find_permutation", &stated)
    })
}

// ---- second order

/// [`fc2::perm_trans_symmetrize_fc`].
pub fn perm_trans_symmetrize_fc(fc: &mut [f64], n_satom: usize, level: usize) -> Result<(), Refused> {
    fc2::perm_trans_symmetrize_fc(fc, n_satom, level).map_err(|r| {
        refused(r, "perm_trans_symmetrize_fc", &[length!(fc, n_satom * n_satom * 9), count!(n_satom, 1024), count!(level, 1000)])
    })
}

/// [`fc2::perm_trans_symmetrize_compact_fc`], with n_patom × n_satom bytes of work memory.
pub fn perm_trans_symmetrize_compact_fc(fc: &mut [f64], tables: &Tables, done: &mut [u8], level: usize) -> Result<(), Refused> {
    open!(tables, p2s, s2pp, nsym_list, perms, n_satom, n_patom, num_trans);
    fc2::perm_trans_symmetrize_compact_fc_with(fc, p2s, s2pp, nsym_list, perms, done, n_satom, n_patom, num_trans, level).map_err(|r| {
        let stated = [length!(fc, n_patom * n_satom * 9), length!(done, n_patom * n_satom), count!(level, 1000)];
        tables.refused(r, "perm_trans_symmetrize_compact_fc", 1024, &stated)
    })
}

/// [`fc2::set_index_permutation_symmetry_compact_fc`], with n_patom × n_satom bytes of work memory.
pub fn set_index_permutation_symmetry_compact_fc(fc: &mut [f64], tables: &Tables, done: &mut [u8], transpose: bool) -> Result<(), Refused> {
    open!(tables, p2s, s2pp, nsym_list, perms, n_satom, n_patom, num_trans);
    fc2::set_index_permutation_symmetry_compact_fc_with(fc, p2s, s2pp, nsym_list, perms, done, n_satom, n_patom, num_trans, transpose)
        .map_err(|r| {
            let stated = [length!(fc, n_patom * n_satom * 9), length!(done, n_patom * n_satom)];
            tables.refused(r, "set_index_permutation_symmetry_compact_fc", 1024, &stated)
        })
}

/// [`fc2::true_transpose_compact_fc2`], with n_patom × n_satom bytes of work memory.
pub fn true_transpose_compact_fc2(fc: &mut [f64], tables: &Tables, done: &mut [u8]) -> Result<(), Refused> {
    open!(tables, p2s, s2pp, nsym_list, perms, n_satom, n_patom, num_trans);
    fc2::true_transpose_compact_fc2_with(fc, p2s, s2pp, nsym_list, perms, done, n_satom, n_patom, num_trans).map_err(|r| {
        let stated = [length!(fc, n_patom * n_satom * 9), length!(done, n_patom * n_satom)];
        tables.refused(r, "true_transpose_compact_fc2", 1024, &stated)
    })
}

/// [`fc2::drift_report`].
pub fn drift_report(fc: &[f64], n_satom: usize) -> Result<DriftReport, Refused> {
    fc2::drift_report(fc, n_satom).map_err(|r| refused(r, "drift_report", &[length!(fc, n_satom * n_satom * 9), count!(n_satom, 1024)]))
}

/// [`fc2::drift_report_compact_fc2`].
pub fn drift_report_compact_fc2(fc: &[f64], tables: &Tables) -> Result<DriftReport, Refused> {
    open!(tables, p2s, s2pp, nsym_list, perms, n_satom, n_patom);
    fc2::drift_report_compact_fc2(fc, p2s, s2pp, nsym_list, perms, n_satom, n_patom)
        .map_err(|r| tables.refused(r, "drift_report_compact_fc2", 1024, &[length!(fc, n_patom * n_satom * 9)]))
}

/// The listed atoms and the rotations of [`distribute_fc2`]: its arguments by their names.
#[derive(Clone, Copy, Debug, PartialEq)]
pub struct Listed<'a> {
    /// Up to 1,024 atoms, each below num_pos.
    pub atom_list: &'a [i64],
    /// The row of the set that each listed atom has, below num_first; as long as `atom_list`.
    pub fc_indices_of_atom_list: &'a [i64],
    /// num_rot × 9 numbers.
    pub r_carts: &'a [f64],
    /// num_rot × num_pos entries below num_pos: rotation s sends atom a to `permutations[s * num_pos + a]`.
    pub permutations: &'a [i64],
    /// num_pos entries below num_pos: the atom that represents each atom.
    pub map_atoms: &'a [i64],
    /// num_pos entries below num_rot: the rotation that sends each atom to its representative.
    pub map_syms: &'a [i64],
    /// How many atoms there are.
    pub num_pos: usize,
    /// How many rows the set has.
    pub num_first: usize,
    /// How many rotations there are.
    pub num_rot: usize,
}

/// [`fc2::distribute_fc2`] on num_first × num_pos × 9 numbers, with num_pos integers of work memory.
pub fn distribute_fc2(fc2: &mut [f64], listed: &Listed, atom_list_reverse: &mut [i64]) -> Result<(), Refused> {
    let Listed { atom_list, fc_indices_of_atom_list, r_carts, permutations, map_atoms, map_syms, num_pos, num_first, num_rot } = *listed;
    fc2::distribute_fc2_with(
        fc2,
        atom_list,
        fc_indices_of_atom_list,
        r_carts,
        permutations,
        map_atoms,
        map_syms,
        atom_list_reverse,
        num_pos,
        num_first,
        num_rot,
    )
    .map_err(|r| {
        let stated = [
            length!(fc2, num_first * num_pos * 9),
            Stated::Count("atom_list.len()", atom_list.len(), 1024),
            entries!(atom_list, num_pos),
            length!(fc_indices_of_atom_list, atom_list.len()),
            entries!(fc_indices_of_atom_list, num_first),
            length!(r_carts, num_rot * 9),
            length!(permutations, num_rot * num_pos),
            entries!(permutations, num_pos),
            length!(map_atoms, num_pos),
            entries!(map_atoms, num_pos),
            length!(map_syms, num_pos),
            entries!(map_syms, num_rot),
            length!(atom_list_reverse, num_pos),
            count!(num_pos, 1024),
            count!(num_first, 1024),
            count!(num_rot, 1024),
        ];
        refused(r, "distribute_fc2", &stated)
    })
}

/// [`fc2::row_sums_fc2`].
pub fn row_sums_fc2(sums: &mut [f64], fc: &[f64], n_satom: usize) -> Result<(), Refused> {
    fc2::row_sums_fc2(sums, fc, n_satom)
        .map_err(|r| refused(r, "row_sums_fc2", &[length!(sums, n_satom * 9), length!(fc, n_satom * n_satom * 9), count!(n_satom, 1024)]))
}

/// [`fc2::replace_block_fc2`].
pub fn replace_block_fc2(fc: &mut [f64], sums: &mut [f64], block: [f64; 9], i: usize, j: usize, n_satom: usize) -> Result<(), Refused> {
    fc2::replace_block_fc2(fc, sums, block, i, j, n_satom).map_err(|r| {
        let stated =
            [length!(fc, n_satom * n_satom * 9), length!(sums, n_satom * 9), index!(i, n_satom), index!(j, n_satom), count!(n_satom, 1024)];
        refused(r, "replace_block_fc2", &stated)
    })
}

/// [`fc2::compact_to_full_fc2`].
pub fn compact_to_full_fc2(full: &mut [f64], fc2: &[f64], tables: &Tables) -> Result<(), Refused> {
    open!(tables, p2s, s2pp, nsym_list, perms, n_satom, n_patom);
    fc2::compact_to_full_fc2(full, fc2, p2s, s2pp, nsym_list, perms, n_satom, n_patom).map_err(|r| {
        let stated = [length!(full, n_satom * n_satom * 9), length!(fc2, n_patom * n_satom * 9)];
        tables.refused(r, "compact_to_full_fc2", 1024, &stated)
    })
}

// ---- third order

/// [`fc3::set_permutation_symmetry_fc3`].
pub fn set_permutation_symmetry_fc3(fc3: &mut [f64], num_atom: usize) -> Result<(), Refused> {
    fc3::set_permutation_symmetry_fc3(fc3, num_atom).map_err(|r| {
        refused(r, "set_permutation_symmetry_fc3", &[length!(fc3, num_atom * num_atom * num_atom * 27), count!(num_atom, 256)])
    })
}

/// [`fc3::set_permutation_symmetry_compact_fc3`], with n_patom × n_satom² bytes of work memory.
pub fn set_permutation_symmetry_compact_fc3(fc3: &mut [f64], tables: &Tables, done: &mut [u8]) -> Result<(), Refused> {
    open!(tables, p2s, s2pp, nsym_list, perms, n_satom, n_patom, num_trans);
    fc3::set_permutation_symmetry_compact_fc3_with(fc3, p2s, s2pp, nsym_list, perms, done, n_satom, n_patom, num_trans).map_err(|r| {
        let stated = [length!(fc3, n_patom * n_satom * n_satom * 27), length!(done, n_patom * n_satom * n_satom)];
        tables.refused(r, "set_permutation_symmetry_compact_fc3", 256, &stated)
    })
}

/// [`fc3::perm_trans_symmetrize_fc3`], with num_atom² × 27 numbers of work memory.
pub fn perm_trans_symmetrize_fc3(fc3: &mut [f64], drift: &mut [f64], num_atom: usize, level: usize) -> Result<(), Refused> {
    fc3::perm_trans_symmetrize_fc3_with(fc3, drift, num_atom, level).map_err(|r| {
        let lengths = [length!(fc3, num_atom * num_atom * num_atom * 27), length!(drift, num_atom * num_atom * 27)];
        let counts = [count!(num_atom, 256), count!(level, 1000)];
        refused(r, "perm_trans_symmetrize_fc3", &[lengths, counts].concat())
    })
}

/// [`fc3::perm_trans_symmetrize_compact_fc3`], with n_patom × n_satom² bytes and n_patom × n_satom × 27 numbers of work memory.
pub fn perm_trans_symmetrize_compact_fc3(
    fc3: &mut [f64],
    tables: &Tables,
    done: &mut [u8],
    drift: &mut [f64],
    level: usize,
) -> Result<(), Refused> {
    open!(tables, p2s, s2pp, nsym_list, perms, n_satom, n_patom, num_trans);
    fc3::perm_trans_symmetrize_compact_fc3_with(fc3, p2s, s2pp, nsym_list, perms, done, drift, n_satom, n_patom, num_trans, level).map_err(
        |r| {
            let stated = [
                length!(fc3, n_patom * n_satom * n_satom * 27),
                length!(done, n_patom * n_satom * n_satom),
                length!(drift, n_patom * n_satom * 27),
                count!(level, 1000),
            ];
            tables.refused(r, "perm_trans_symmetrize_compact_fc3", 256, &stated)
        },
    )
}

/// [`fc3::transpose_compact_fc3`], with n_patom × n_satom bytes of work memory.
pub fn transpose_compact_fc3(fc3: &mut [f64], tables: &Tables, done: &mut [u8], t_type: i64) -> Result<(), Refused> {
    open!(tables, p2s, s2pp, nsym_list, perms, n_satom, n_patom, num_trans);
    fc3::transpose_compact_fc3_with(fc3, p2s, s2pp, nsym_list, perms, done, n_satom, n_patom, num_trans, t_type).map_err(|r| {
        let stated = [length!(fc3, n_patom * n_satom * n_satom * 27), length!(done, n_patom * n_satom)];
        tables.refused(r, "transpose_compact_fc3", 256, &stated)
    })
}

/// [`fc3::true_transpose_compact_fc3`], with n_patom × n_satom bytes of work memory.
pub fn true_transpose_compact_fc3(fc3: &mut [f64], tables: &Tables, done: &mut [u8], t_type: i64) -> Result<(), Refused> {
    open!(tables, p2s, s2pp, nsym_list, perms, n_satom, n_patom, num_trans);
    fc3::true_transpose_compact_fc3_with(fc3, p2s, s2pp, nsym_list, perms, done, n_satom, n_patom, num_trans, t_type).map_err(|r| {
        let stated = [length!(fc3, n_patom * n_satom * n_satom * 27), length!(done, n_patom * n_satom)];
        tables.refused(r, "true_transpose_compact_fc3", 256, &stated)
    })
}

/// [`fc3::distribute_fc3`] on num_first × num_atom² × 27 numbers.
pub fn distribute_fc3(
    fc3: &mut [f64],
    target: usize,
    source: usize,
    atom_mapping: &[i64],
    num_atom: usize,
    rot_cart: &[f64],
    num_first: usize,
) -> Result<(), Refused> {
    fc3::distribute_fc3_with(fc3, target, source, atom_mapping, num_atom, rot_cart, num_first).map_err(|r| {
        let stated = [
            length!(fc3, num_first * num_atom * num_atom * 27),
            slab!(target, num_first),
            slab!(source, num_first),
            length!(atom_mapping, num_atom),
            entries!(atom_mapping, num_atom),
            count!(num_atom, 256),
            length!(rot_cart, 9),
            count!(num_first, 256),
        ];
        refused(r, "distribute_fc3", &stated)
    })
}

/// The displacements of [`rotate_delta_fc2s`] and [`rotate_delta_fc3s`]: their arguments by their names.
#[derive(Clone, Copy, Debug, PartialEq)]
pub struct Displaced<'a> {
    /// The changes: num_disp × num_atom² × 9 numbers (delta_fc2s), or num_disp × num_atom³ × 27 (delta_fc3s).
    pub deltas: &'a [f64],
    /// 3 × num_disp × num_site_sym numbers.
    pub inv_u: &'a [f64],
    /// num_site_sym × 9 numbers.
    pub site_sym_cart: &'a [f64],
    /// num_site_sym × num_atom entries below num_atom: symmetry s sends atom a to `rot_map_syms[s * num_atom + a]`.
    pub rot_map_syms: &'a [i64],
    /// How many atoms there are.
    pub num_atom: usize,
    /// How many site symmetries there are.
    pub num_site_sym: usize,
    /// How many displacements there are.
    pub num_disp: usize,
}

/// [`fc3::rotate_delta_fc2s`], with num_disp × num_site_sym × 9 numbers of work memory.
pub fn rotate_delta_fc2s(fc3: &mut [f64], displaced: &Displaced, rot_delta: &mut [f64]) -> Result<(), Refused> {
    let Displaced { deltas: delta_fc2s, inv_u, site_sym_cart, rot_map_syms, num_atom, num_site_sym, num_disp } = *displaced;
    fc3::rotate_delta_fc2s_with(fc3, delta_fc2s, inv_u, site_sym_cart, rot_map_syms, rot_delta, num_atom, num_site_sym, num_disp).map_err(
        |r| {
            let stated = [
                length!(fc3, num_atom * num_atom * 27),
                length!(delta_fc2s, num_disp * num_atom * num_atom * 9),
                length!(inv_u, 3 * num_disp * num_site_sym),
                length!(site_sym_cart, num_site_sym * 9),
                length!(rot_map_syms, num_site_sym * num_atom),
                entries!(rot_map_syms, num_atom),
                length!(rot_delta, num_disp * num_site_sym * 9),
                count!(num_atom, 256),
                count!(num_site_sym, 1024),
                count!(num_disp, 1024),
            ];
            refused(r, "rotate_delta_fc2s", &stated)
        },
    )
}

/// [`fc3::compact_to_full_fc3`].
pub fn compact_to_full_fc3(full: &mut [f64], fc3: &[f64], tables: &Tables) -> Result<(), Refused> {
    open!(tables, p2s, s2pp, nsym_list, perms, n_satom, n_patom);
    fc3::compact_to_full_fc3(full, fc3, p2s, s2pp, nsym_list, perms, n_satom, n_patom).map_err(|r| {
        let stated = [length!(full, n_satom * n_satom * n_satom * 27), length!(fc3, n_patom * n_satom * n_satom * 27)];
        tables.refused(r, "compact_to_full_fc3", 256, &stated)
    })
}

/// [`fc3::drift_report_fc3`].
pub fn drift_report_fc3(fc: &[f64], num_atom: usize) -> Result<LegReport, Refused> {
    fc3::drift_report_fc3(fc, num_atom)
        .map_err(|r| refused(r, "drift_report_fc3", &[length!(fc, num_atom * num_atom * num_atom * 27), count!(num_atom, 256)]))
}

// ---- fourth order

/// [`fc4::set_permutation_symmetry_fc4`], with num_atom⁴ bytes of work memory.
pub fn set_permutation_symmetry_fc4(fc4: &mut [f64], done: &mut [u8], num_atom: usize) -> Result<(), Refused> {
    fc4::set_permutation_symmetry_fc4_with(fc4, done, num_atom).map_err(|r| {
        let stated = [
            length!(fc4, num_atom * num_atom * num_atom * num_atom * 81),
            length!(done, num_atom * num_atom * num_atom * num_atom),
            count!(num_atom, 64),
        ];
        refused(r, "set_permutation_symmetry_fc4", &stated)
    })
}

/// [`fc4::set_permutation_symmetry_compact_fc4`], with n_patom × n_satom³ bytes of work memory.
pub fn set_permutation_symmetry_compact_fc4(fc4: &mut [f64], tables: &Tables, done: &mut [u8]) -> Result<(), Refused> {
    open!(tables, p2s, s2pp, nsym_list, perms, n_satom, n_patom, num_trans);
    fc4::set_permutation_symmetry_compact_fc4_with(fc4, p2s, s2pp, nsym_list, perms, done, n_satom, n_patom, num_trans).map_err(|r| {
        let stated = [length!(fc4, n_patom * n_satom * n_satom * n_satom * 81), length!(done, n_patom * n_satom * n_satom * n_satom)];
        tables.refused(r, "set_permutation_symmetry_compact_fc4", 64, &stated)
    })
}

/// [`fc4::perm_trans_symmetrize_fc4`], with num_atom⁴ bytes and num_atom³ × 81 numbers of work memory.
pub fn perm_trans_symmetrize_fc4(
    fc4: &mut [f64],
    done: &mut [u8],
    drift: &mut [f64],
    num_atom: usize,
    level: usize,
) -> Result<(), Refused> {
    fc4::perm_trans_symmetrize_fc4_with(fc4, done, drift, num_atom, level).map_err(|r| {
        let stated = [
            length!(fc4, num_atom * num_atom * num_atom * num_atom * 81),
            length!(done, num_atom * num_atom * num_atom * num_atom),
            length!(drift, num_atom * num_atom * num_atom * 81),
            count!(num_atom, 64),
            count!(level, 1000),
        ];
        refused(r, "perm_trans_symmetrize_fc4", &stated)
    })
}

/// [`fc4::perm_trans_symmetrize_compact_fc4`], with n_patom × n_satom³ bytes and n_patom × n_satom² × 81 numbers of work memory.
pub fn perm_trans_symmetrize_compact_fc4(
    fc4: &mut [f64],
    tables: &Tables,
    done: &mut [u8],
    drift: &mut [f64],
    level: usize,
) -> Result<(), Refused> {
    open!(tables, p2s, s2pp, nsym_list, perms, n_satom, n_patom, num_trans);
    fc4::perm_trans_symmetrize_compact_fc4_with(fc4, p2s, s2pp, nsym_list, perms, done, drift, n_satom, n_patom, num_trans, level).map_err(
        |r| {
            let stated = [
                length!(fc4, n_patom * n_satom * n_satom * n_satom * 81),
                length!(done, n_patom * n_satom * n_satom * n_satom),
                length!(drift, n_patom * n_satom * n_satom * 81),
                count!(level, 1000),
            ];
            tables.refused(r, "perm_trans_symmetrize_compact_fc4", 64, &stated)
        },
    )
}

/// [`fc4::transpose_compact_fc4`], with n_patom × n_satom bytes of work memory.
pub fn transpose_compact_fc4(fc4: &mut [f64], tables: &Tables, done: &mut [u8], t_type: i64) -> Result<(), Refused> {
    open!(tables, p2s, s2pp, nsym_list, perms, n_satom, n_patom, num_trans);
    fc4::transpose_compact_fc4_with(fc4, p2s, s2pp, nsym_list, perms, done, n_satom, n_patom, num_trans, t_type).map_err(|r| {
        let stated = [length!(fc4, n_patom * n_satom * n_satom * n_satom * 81), length!(done, n_patom * n_satom)];
        tables.refused(r, "transpose_compact_fc4", 64, &stated)
    })
}

/// [`fc4::true_transpose_compact_fc4`], with n_patom × n_satom bytes of work memory.
pub fn true_transpose_compact_fc4(fc4: &mut [f64], tables: &Tables, done: &mut [u8], t_type: i64) -> Result<(), Refused> {
    open!(tables, p2s, s2pp, nsym_list, perms, n_satom, n_patom, num_trans);
    fc4::true_transpose_compact_fc4_with(fc4, p2s, s2pp, nsym_list, perms, done, n_satom, n_patom, num_trans, t_type).map_err(|r| {
        let stated = [length!(fc4, n_patom * n_satom * n_satom * n_satom * 81), length!(done, n_patom * n_satom)];
        tables.refused(r, "true_transpose_compact_fc4", 64, &stated)
    })
}

/// [`fc4::swap_pairs_compact_fc4`], with n_patom × n_satom bytes of work memory.
pub fn swap_pairs_compact_fc4(fc4: &mut [f64], tables: &Tables, done: &mut [u8], leg_a: usize, leg_b: usize) -> Result<(), Refused> {
    open!(tables, p2s, s2pp, nsym_list, perms, n_satom, n_patom, num_trans);
    fc4::swap_pairs_compact_fc4_with(fc4, p2s, s2pp, nsym_list, perms, done, n_satom, n_patom, num_trans, leg_a, leg_b).map_err(|r| {
        let stated = [
            length!(fc4, n_patom * n_satom * n_satom * n_satom * 81),
            length!(done, n_patom * n_satom),
            index!(leg_a, 4),
            index!(leg_b, 4),
        ];
        tables.refused(r, "swap_pairs_compact_fc4", 64, &stated)
    })
}

/// [`fc4::distribute_fc4`] on num_first × num_atom³ × 81 numbers.
pub fn distribute_fc4(
    fc4: &mut [f64],
    target: usize,
    source: usize,
    atom_mapping: &[i64],
    num_atom: usize,
    rot_cart: &[f64],
    num_first: usize,
) -> Result<(), Refused> {
    fc4::distribute_fc4_with(fc4, target, source, atom_mapping, num_atom, rot_cart, num_first).map_err(|r| {
        let stated = [
            length!(fc4, num_first * num_atom * num_atom * num_atom * 81),
            slab!(target, num_first),
            slab!(source, num_first),
            length!(atom_mapping, num_atom),
            entries!(atom_mapping, num_atom),
            count!(num_atom, 64),
            length!(rot_cart, 9),
            count!(num_first, 64),
        ];
        refused(r, "distribute_fc4", &stated)
    })
}

/// [`fc4::rotate_delta_fc3s`], with num_disp × num_site_sym × 27 numbers of work memory.
pub fn rotate_delta_fc3s(fc4: &mut [f64], displaced: &Displaced, rot_delta: &mut [f64]) -> Result<(), Refused> {
    let Displaced { deltas: delta_fc3s, inv_u, site_sym_cart, rot_map_syms, num_atom, num_site_sym, num_disp } = *displaced;
    fc4::rotate_delta_fc3s_with(fc4, delta_fc3s, inv_u, site_sym_cart, rot_map_syms, rot_delta, num_atom, num_site_sym, num_disp).map_err(
        |r| {
            let stated = [
                length!(fc4, num_atom * num_atom * num_atom * 81),
                length!(delta_fc3s, num_disp * num_atom * num_atom * num_atom * 27),
                length!(inv_u, 3 * num_disp * num_site_sym),
                length!(site_sym_cart, num_site_sym * 9),
                length!(rot_map_syms, num_site_sym * num_atom),
                entries!(rot_map_syms, num_atom),
                length!(rot_delta, num_disp * num_site_sym * 27),
                count!(num_atom, 64),
                count!(num_site_sym, 1024),
                count!(num_disp, 1024),
            ];
            refused(r, "rotate_delta_fc3s", &stated)
        },
    )
}

/// [`fc4::compact_to_full_fc4`].
pub fn compact_to_full_fc4(full: &mut [f64], fc4: &[f64], tables: &Tables) -> Result<(), Refused> {
    open!(tables, p2s, s2pp, nsym_list, perms, n_satom, n_patom);
    fc4::compact_to_full_fc4(full, fc4, p2s, s2pp, nsym_list, perms, n_satom, n_patom).map_err(|r| {
        let stated = [length!(full, n_satom * n_satom * n_satom * n_satom * 81), length!(fc4, n_patom * n_satom * n_satom * n_satom * 81)];
        tables.refused(r, "compact_to_full_fc4", 64, &stated)
    })
}

// ---- audits

/// [`audit::same_set`].
pub fn same_set(a: &[f64], b: &[f64]) -> Result<Audit, Refused> {
    audit::same_set(a, b).map_err(|r| refused(r, "same_set", &[length!(b, a.len())]))
}

/// [`audit::audit_compact_fc2`].
pub fn audit_compact_fc2(fc: &[f64], tables: &Tables) -> Result<Audit, Refused> {
    open!(tables, p2s, s2pp, nsym_list, perms, n_satom, n_patom);
    audit::audit_compact_fc2(fc, p2s, s2pp, nsym_list, perms, n_satom, n_patom)
        .map_err(|r| tables.refused(r, "audit_compact_fc2", 1024, &[length!(fc, n_patom * n_satom * 9)]))
}

/// [`audit::audit_fc2`].
pub fn audit_fc2(fc: &[f64], num_atom: usize) -> Result<Audit, Refused> {
    audit::audit_fc2(fc, num_atom).map_err(|r| refused(r, "audit_fc2", &[length!(fc, num_atom * num_atom * 9), count!(num_atom, 1024)]))
}

/// [`audit::audit_compact_fc3`].
pub fn audit_compact_fc3(fc: &[f64], tables: &Tables) -> Result<Audit, Refused> {
    open!(tables, p2s, s2pp, nsym_list, perms, n_satom, n_patom);
    audit::audit_compact_fc3(fc, p2s, s2pp, nsym_list, perms, n_satom, n_patom)
        .map_err(|r| tables.refused(r, "audit_compact_fc3", 256, &[length!(fc, n_patom * n_satom * n_satom * 27)]))
}

/// [`audit::audit_fc3`].
pub fn audit_fc3(fc: &[f64], num_atom: usize) -> Result<Audit, Refused> {
    audit::audit_fc3(fc, num_atom)
        .map_err(|r| refused(r, "audit_fc3", &[length!(fc, num_atom * num_atom * num_atom * 27), count!(num_atom, 256)]))
}

/// [`audit::audit_compact_fc4`].
pub fn audit_compact_fc4(fc: &[f64], tables: &Tables) -> Result<Audit, Refused> {
    open!(tables, p2s, s2pp, nsym_list, perms, n_satom, n_patom);
    audit::audit_compact_fc4(fc, p2s, s2pp, nsym_list, perms, n_satom, n_patom)
        .map_err(|r| tables.refused(r, "audit_compact_fc4", 64, &[length!(fc, n_patom * n_satom * n_satom * n_satom * 81)]))
}

/// [`audit::audit_fc4`].
pub fn audit_fc4(fc: &[f64], num_atom: usize) -> Result<Audit, Refused> {
    audit::audit_fc4(fc, num_atom)
        .map_err(|r| refused(r, "audit_fc4", &[length!(fc, num_atom * num_atom * num_atom * num_atom * 81), count!(num_atom, 64)]))
}

// ---- reports

/// [`report::set_difference`].
pub fn set_difference(a: &[f64], b: &[f64]) -> Result<Report, Refused> {
    report::set_difference(a, b).map_err(|r| refused(r, "set_difference", &[length!(b, a.len())]))
}

/// [`report::difference_report_compact_fc2`].
pub fn difference_report_compact_fc2(fc: &[f64], tables: &Tables) -> Result<Report, Refused> {
    open!(tables, p2s, s2pp, nsym_list, perms, n_satom, n_patom);
    report::difference_report_compact_fc2(fc, p2s, s2pp, nsym_list, perms, n_satom, n_patom)
        .map_err(|r| tables.refused(r, "difference_report_compact_fc2", 1024, &[length!(fc, n_patom * n_satom * 9)]))
}

/// [`report::difference_report_fc2`].
pub fn difference_report_fc2(fc: &[f64], num_atom: usize) -> Result<Report, Refused> {
    report::difference_report_fc2(fc, num_atom)
        .map_err(|r| refused(r, "difference_report_fc2", &[length!(fc, num_atom * num_atom * 9), count!(num_atom, 1024)]))
}

/// [`report::difference_report_compact_fc3`].
pub fn difference_report_compact_fc3(fc: &[f64], tables: &Tables) -> Result<Report, Refused> {
    open!(tables, p2s, s2pp, nsym_list, perms, n_satom, n_patom);
    report::difference_report_compact_fc3(fc, p2s, s2pp, nsym_list, perms, n_satom, n_patom)
        .map_err(|r| tables.refused(r, "difference_report_compact_fc3", 256, &[length!(fc, n_patom * n_satom * n_satom * 27)]))
}

/// [`report::difference_report_fc3`].
pub fn difference_report_fc3(fc: &[f64], num_atom: usize) -> Result<Report, Refused> {
    report::difference_report_fc3(fc, num_atom)
        .map_err(|r| refused(r, "difference_report_fc3", &[length!(fc, num_atom * num_atom * num_atom * 27), count!(num_atom, 256)]))
}

/// [`report::difference_report_compact_fc4`].
pub fn difference_report_compact_fc4(fc: &[f64], tables: &Tables) -> Result<Report, Refused> {
    open!(tables, p2s, s2pp, nsym_list, perms, n_satom, n_patom);
    report::difference_report_compact_fc4(fc, p2s, s2pp, nsym_list, perms, n_satom, n_patom)
        .map_err(|r| tables.refused(r, "difference_report_compact_fc4", 64, &[length!(fc, n_patom * n_satom * n_satom * n_satom * 81)]))
}

/// [`report::difference_report_fc4`].
pub fn difference_report_fc4(fc: &[f64], num_atom: usize) -> Result<Report, Refused> {
    report::difference_report_fc4(fc, num_atom).map_err(|r| {
        refused(r, "difference_report_fc4", &[length!(fc, num_atom * num_atom * num_atom * num_atom * 81), count!(num_atom, 64)])
    })
}

/// [`report::crystal_report_compact_fc2`].
pub fn crystal_report_compact_fc2(fc: &[f64], tables: &Tables, r_carts: &[f64], operations: &[i64]) -> Result<CrystalReport, Refused> {
    open!(tables, p2s, s2pp, nsym_list, perms, n_satom, n_patom);
    report::crystal_report_compact_fc2(fc, p2s, s2pp, nsym_list, perms, r_carts, operations, n_satom, n_patom).map_err(|r| {
        let num_rot = r_carts.len() / 9;
        let stated = [
            length!(fc, n_patom * n_satom * 9),
            length!(r_carts, num_rot * 9),
            length!(operations, num_rot * n_satom),
            entries!(operations, n_satom),
            count!(num_rot, 1024),
        ];
        tables.refused(r, "crystal_report_compact_fc2", 1024, &stated)
    })
}

/// [`report::crystal_report_fc2`].
pub fn crystal_report_fc2(fc: &[f64], r_carts: &[f64], operations: &[i64], num_atom: usize) -> Result<CrystalReport, Refused> {
    report::crystal_report_fc2(fc, r_carts, operations, num_atom).map_err(|r| {
        let num_rot = r_carts.len() / 9;
        let stated = [
            length!(fc, num_atom * num_atom * 9),
            length!(r_carts, num_rot * 9),
            length!(operations, num_rot * num_atom),
            entries!(operations, num_atom),
            count!(num_atom, 1024),
            count!(num_rot, 1024),
        ];
        refused(r, "crystal_report_fc2", &stated)
    })
}

/// [`report::crystal_report_compact_fc3`].
pub fn crystal_report_compact_fc3(fc: &[f64], tables: &Tables, r_carts: &[f64], operations: &[i64]) -> Result<CrystalReport, Refused> {
    open!(tables, p2s, s2pp, nsym_list, perms, n_satom, n_patom);
    report::crystal_report_compact_fc3(fc, p2s, s2pp, nsym_list, perms, r_carts, operations, n_satom, n_patom).map_err(|r| {
        let num_rot = r_carts.len() / 9;
        let stated = [
            length!(fc, n_patom * n_satom * n_satom * 27),
            length!(r_carts, num_rot * 9),
            length!(operations, num_rot * n_satom),
            entries!(operations, n_satom),
            count!(num_rot, 1024),
        ];
        tables.refused(r, "crystal_report_compact_fc3", 256, &stated)
    })
}

/// [`report::crystal_report_fc3`].
pub fn crystal_report_fc3(fc: &[f64], r_carts: &[f64], operations: &[i64], num_atom: usize) -> Result<CrystalReport, Refused> {
    report::crystal_report_fc3(fc, r_carts, operations, num_atom).map_err(|r| {
        let num_rot = r_carts.len() / 9;
        let stated = [
            length!(fc, num_atom * num_atom * num_atom * 27),
            length!(r_carts, num_rot * 9),
            length!(operations, num_rot * num_atom),
            entries!(operations, num_atom),
            count!(num_atom, 256),
            count!(num_rot, 1024),
        ];
        refused(r, "crystal_report_fc3", &stated)
    })
}

/// [`report::crystal_report_compact_fc4`].
pub fn crystal_report_compact_fc4(fc: &[f64], tables: &Tables, r_carts: &[f64], operations: &[i64]) -> Result<CrystalReport, Refused> {
    open!(tables, p2s, s2pp, nsym_list, perms, n_satom, n_patom);
    report::crystal_report_compact_fc4(fc, p2s, s2pp, nsym_list, perms, r_carts, operations, n_satom, n_patom).map_err(|r| {
        let num_rot = r_carts.len() / 9;
        let stated = [
            length!(fc, n_patom * n_satom * n_satom * n_satom * 81),
            length!(r_carts, num_rot * 9),
            length!(operations, num_rot * n_satom),
            entries!(operations, n_satom),
            count!(num_rot, 1024),
        ];
        tables.refused(r, "crystal_report_compact_fc4", 64, &stated)
    })
}

/// [`report::crystal_report_fc4`].
pub fn crystal_report_fc4(fc: &[f64], r_carts: &[f64], operations: &[i64], num_atom: usize) -> Result<CrystalReport, Refused> {
    report::crystal_report_fc4(fc, r_carts, operations, num_atom).map_err(|r| {
        let num_rot = r_carts.len() / 9;
        let stated = [
            length!(fc, num_atom * num_atom * num_atom * num_atom * 81),
            length!(r_carts, num_rot * 9),
            length!(operations, num_rot * num_atom),
            entries!(operations, num_atom),
            count!(num_atom, 64),
            count!(num_rot, 1024),
        ];
        refused(r, "crystal_report_fc4", &stated)
    })
}

/// [`report::drift_report_compact_fc3`].
pub fn drift_report_compact_fc3(fc: &[f64], tables: &Tables) -> Result<LegSums, Refused> {
    open!(tables, p2s, s2pp, nsym_list, perms, n_satom, n_patom);
    report::drift_report_compact_fc3(fc, p2s, s2pp, nsym_list, perms, n_satom, n_patom)
        .map_err(|r| tables.refused(r, "drift_report_compact_fc3", 256, &[length!(fc, n_patom * n_satom * n_satom * 27)]))
}

/// [`report::drift_report_compact_fc4`].
pub fn drift_report_compact_fc4(fc: &[f64], tables: &Tables) -> Result<LegSums, Refused> {
    open!(tables, p2s, s2pp, nsym_list, perms, n_satom, n_patom);
    report::drift_report_compact_fc4(fc, p2s, s2pp, nsym_list, perms, n_satom, n_patom)
        .map_err(|r| tables.refused(r, "drift_report_compact_fc4", 64, &[length!(fc, n_patom * n_satom * n_satom * n_satom * 81)]))
}

/// [`report::drift_report_fc4`].
pub fn drift_report_fc4(fc: &[f64], num_atom: usize) -> Result<LegSums, Refused> {
    report::drift_report_fc4(fc, num_atom)
        .map_err(|r| refused(r, "drift_report_fc4", &[length!(fc, num_atom * num_atom * num_atom * num_atom * 81), count!(num_atom, 64)]))
}
