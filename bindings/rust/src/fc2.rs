//! Second order.
use crate::ffi::call;
use crate::{answer, room, rows, Refusal};

/// Atoms, and the counts beside them.
const LIMIT: usize = 1024;

/// Symmetrizes a full set of n_satom² × 9 numbers: per level column drift, row drift and pair averages; at the end the diagonal
/// blocks. n_satom up to 1,024, level up to 1,000.
///
/// ```
/// use gullyfork::{fc2, Refusal};
///
/// // block (0, 1) of two atoms is zero but at its directions 0, 1 and 1, 0
/// let mut fc = [0.0; 36];
/// fc[9 + 1] = 2.0;
/// fc[9 + 3] = 4.0;
/// fc2::perm_trans_symmetrize_fc(&mut fc, 2, 0)?;
/// assert_eq!(fc[..9], [0.0, -3.0, 0.0, -3.0, 0.0, 0.0, 0.0, 0.0, 0.0]);
/// assert_eq!(fc2::perm_trans_symmetrize_fc(&mut fc, 1025, 0), Err(Refusal::CountAboveLimit));
/// # Ok::<(), Refusal>(())
/// ```
pub fn perm_trans_symmetrize_fc(fc: &mut [f64], n_satom: usize, level: usize) -> Result<(), Refusal> {
    answer(call!(gf_perm_trans_symmetrize_fc(&mut fc, n_satom, level)))
}

/// Symmetrizes a compact set of n_patom × n_satom × 9 numbers: per level twice the transpose and the row drift, then the averages; at
/// the end the blocks of the atoms with themselves.
///
/// ```
/// use gullyfork::{fc2, Refusal};
///
/// let rows = [0, 1, 2, 1, 2, 0, 2, 0, 1];
/// let mut fc: Vec<f64> = (0..27).map(f64::from).collect();
/// fc2::perm_trans_symmetrize_compact_fc(&mut fc, &[0], &[0, 0, 0], &[0, 2, 1], &rows, 3, 1, 1)?;
/// // each row adds up to zero
/// assert!((fc[0] + fc[9] + fc[18]).abs() < 1e-12);
/// # Ok::<(), Refusal>(())
/// ```
#[allow(clippy::too_many_arguments)]
pub fn perm_trans_symmetrize_compact_fc(
    fc: &mut [f64],
    p2s: &[i64],
    s2pp: &[i64],
    nsym_list: &[i64],
    perms: &[i64],
    n_satom: usize,
    n_patom: usize,
    level: usize,
) -> Result<(), Refusal> {
    let mut done = vec![0; room(&[(n_patom, LIMIT), (n_satom, LIMIT)])];
    let num_trans = rows(perms.len(), n_satom);
    perm_trans_symmetrize_compact_fc_with(fc, p2s, s2pp, nsym_list, perms, &mut done, n_satom, n_patom, num_trans, level)
}

/// [`perm_trans_symmetrize_compact_fc`] with n_patom × n_satom bytes of work memory.
#[allow(clippy::too_many_arguments)]
pub fn perm_trans_symmetrize_compact_fc_with(
    fc: &mut [f64],
    p2s: &[i64],
    s2pp: &[i64],
    nsym_list: &[i64],
    perms: &[i64],
    done: &mut [u8],
    n_satom: usize,
    n_patom: usize,
    num_trans: usize,
    level: usize,
) -> Result<(), Refusal> {
    answer(call!(gf_perm_trans_symmetrize_compact_fc(
        &mut fc, &p2s, &s2pp, &nsym_list, &perms, &mut done, n_satom, n_patom, num_trans, level
    )))
}

/// Exchanges the atoms of every pair of a compact set of n_patom × n_satom × 9 numbers, and the directions (`transpose`), or averages
/// every number with that of the exchanged pair. The transpose leaves blocks that a half shift exchanges, as phonors does.
///
/// ```
/// use gullyfork::{fc2, Refusal};
///
/// let rows = [0, 1, 2, 1, 2, 0, 2, 0, 1];
/// let mut fc: Vec<f64> = (0..27).map(f64::from).collect();
/// fc2::set_index_permutation_symmetry_compact_fc(&mut fc, &[0], &[0, 0, 0], &[0, 2, 1], &rows, 3, 1, true)?;
/// // the pair of atoms 1 and 0 is stored at 0 and 2
/// assert_eq!(fc[9 + 1], 21.0);
/// # Ok::<(), Refusal>(())
/// ```
#[allow(clippy::too_many_arguments)]
pub fn set_index_permutation_symmetry_compact_fc(
    fc: &mut [f64],
    p2s: &[i64],
    s2pp: &[i64],
    nsym_list: &[i64],
    perms: &[i64],
    n_satom: usize,
    n_patom: usize,
    transpose: bool,
) -> Result<(), Refusal> {
    let mut done = vec![0; room(&[(n_patom, LIMIT), (n_satom, LIMIT)])];
    let num_trans = rows(perms.len(), n_satom);
    set_index_permutation_symmetry_compact_fc_with(fc, p2s, s2pp, nsym_list, perms, &mut done, n_satom, n_patom, num_trans, transpose)
}

/// [`set_index_permutation_symmetry_compact_fc`] with n_patom × n_satom bytes of work memory.
#[allow(clippy::too_many_arguments)]
pub fn set_index_permutation_symmetry_compact_fc_with(
    fc: &mut [f64],
    p2s: &[i64],
    s2pp: &[i64],
    nsym_list: &[i64],
    perms: &[i64],
    done: &mut [u8],
    n_satom: usize,
    n_patom: usize,
    num_trans: usize,
    transpose: bool,
) -> Result<(), Refusal> {
    answer(call!(gf_set_index_permutation_symmetry_compact_fc(
        &mut fc, &p2s, &s2pp, &nsym_list, &perms, &mut done, n_satom, n_patom, num_trans, transpose
    )))
}

/// Exchanges the atoms of every pair of a compact set of n_patom × n_satom × 9 numbers, and the directions. Every block moves, also those
/// that a half shift exchanges; phonors has no such call.
///
/// ```
/// use gullyfork::{fc2, Refusal};
///
/// // a shift exchanges the two atoms: block (0, 1) is its own counterpart and is turned
/// let mut fc: Vec<f64> = (0..18).map(f64::from).collect();
/// fc2::true_transpose_compact_fc2(&mut fc, &[0], &[0, 0], &[0, 1], &[0, 1, 1, 0], 2, 1)?;
/// assert_eq!([fc[9 + 1], fc[9 + 3]], [12.0, 10.0]);
/// # Ok::<(), Refusal>(())
/// ```
#[allow(clippy::too_many_arguments)]
pub fn true_transpose_compact_fc2(
    fc: &mut [f64],
    p2s: &[i64],
    s2pp: &[i64],
    nsym_list: &[i64],
    perms: &[i64],
    n_satom: usize,
    n_patom: usize,
) -> Result<(), Refusal> {
    let mut done = vec![0; room(&[(n_patom, LIMIT), (n_satom, LIMIT)])];
    let num_trans = rows(perms.len(), n_satom);
    true_transpose_compact_fc2_with(fc, p2s, s2pp, nsym_list, perms, &mut done, n_satom, n_patom, num_trans)
}

/// [`true_transpose_compact_fc2`] with n_patom × n_satom bytes of work memory.
#[allow(clippy::too_many_arguments)]
pub fn true_transpose_compact_fc2_with(
    fc: &mut [f64],
    p2s: &[i64],
    s2pp: &[i64],
    nsym_list: &[i64],
    perms: &[i64],
    done: &mut [u8],
    n_satom: usize,
    n_patom: usize,
    num_trans: usize,
) -> Result<(), Refusal> {
    answer(call!(gf_true_transpose_compact_fc2(&mut fc, &p2s, &s2pp, &nsym_list, &perms, &mut done, n_satom, n_patom, num_trans)))
}

/// Fills the rows of the listed atoms from those of their representatives: to each block the rotated block is added. The set has a
/// row of num_pos × 9 numbers for each first atom; position i of the list is atom `atom_list[i]` with row `fc_indices_of_atom_list[i]`.
/// Atom a is represented by atom `map_atoms[a]`, to which rotation `map_syms[a]` sends it.
///
/// ```
/// use gullyfork::{fc2, Refusal};
///
/// // rotation 1 exchanges the two atoms and the first two axes; atom 0 represents atom 1
/// let r_carts = [[1.0, 0.0, 0.0, 0.0, 1.0, 0.0, 0.0, 0.0, 1.0], [0.0, 1.0, 0.0, 1.0, 0.0, 0.0, 0.0, 0.0, 1.0]].concat();
/// let mut fc: Vec<f64> = (0..18).map(f64::from).chain([0.0; 18]).collect();
/// fc2::distribute_fc2(&mut fc, &[0, 1], &[0, 1], &r_carts, &[0, 1, 1, 0], &[0, 0], &[0, 1], 2)?;
/// assert_eq!(fc[18], 13.0); // the second block's number at 1, 1
/// let stray = fc2::distribute_fc2(&mut fc, &[0, 1], &[0, 1], &r_carts, &[0, 1, 1, 0], &[1, 0], &[0, 1], 2);
/// assert_eq!(stray, Err(Refusal::BadRepresentative));
/// # Ok::<(), Refusal>(())
/// ```
#[allow(clippy::too_many_arguments)]
pub fn distribute_fc2(
    fc2: &mut [f64],
    atom_list: &[i64],
    fc_indices_of_atom_list: &[i64],
    r_carts: &[f64],
    permutations: &[i64],
    map_atoms: &[i64],
    map_syms: &[i64],
    num_pos: usize,
) -> Result<(), Refusal> {
    let mut atom_list_reverse = vec![0; room(&[(num_pos, LIMIT)])];
    let num_first = rows(fc2.len(), num_pos.saturating_mul(9));
    let num_rot = rows(r_carts.len(), 9);
    distribute_fc2_with(
        fc2,
        atom_list,
        fc_indices_of_atom_list,
        r_carts,
        permutations,
        map_atoms,
        map_syms,
        &mut atom_list_reverse,
        num_pos,
        num_first,
        num_rot,
    )
}

/// [`distribute_fc2`] with num_pos integers of work memory.
#[allow(clippy::too_many_arguments)]
pub fn distribute_fc2_with(
    fc2: &mut [f64],
    atom_list: &[i64],
    fc_indices_of_atom_list: &[i64],
    r_carts: &[f64],
    permutations: &[i64],
    map_atoms: &[i64],
    map_syms: &[i64],
    atom_list_reverse: &mut [i64],
    num_pos: usize,
    num_first: usize,
    num_rot: usize,
) -> Result<(), Refusal> {
    answer(call!(gf_distribute_fc2(
        &mut fc2,
        &atom_list,
        &fc_indices_of_atom_list,
        &r_carts,
        &permutations,
        &map_atoms,
        &map_syms,
        &mut atom_list_reverse,
        num_pos,
        num_first,
        num_rot
    )))
}

/// What a report says of its numbers: the sums of a drift report, the differences of the others.
#[derive(Clone, Copy, Debug, PartialEq)]
pub enum Drift {
    /// All numbers are zero.
    Still,
    /// The largest absolute value of a number.
    Worst(f64),
    /// A number is NaN.
    NoNumber,
}

/// Which sums a report names.
#[derive(Clone, Copy, Debug, PartialEq)]
pub enum Along {
    /// Of a row, over the second atom.
    Rows,
    /// Of a column, over the first atom.
    Columns,
}

/// A drift and its place: a row or a column, its atom and two directions. Still has rows, 0 and 0, 0; otherwise it is the first place
/// that has the worst value, or that is NaN: rows come before columns, then by atom, then by directions.
#[derive(Clone, Copy, Debug, PartialEq)]
pub struct DriftReport {
    /// How far.
    pub drift: Drift,
    /// A row or a column.
    pub along: Along,
    /// Its atom.
    pub atom: usize,
    /// The directions of both atoms.
    pub directions: [usize; 2],
}

/// The drift of a full set of n_satom² × 9 numbers: of each atom and pair of directions the row sum over the second atom, and the column
/// sum over the first, each from 0.0 and rising. Not in phonors.
///
/// ```
/// use gullyfork::fc2::{drift_report, Along, Drift, DriftReport};
///
/// let mut fc = [0.0; 36];
/// fc[18 + 5] = -3.0;
/// fc[27 + 5] = 0.5;
/// // the row of atom 1 has -3.0 + 0.5, the column of atom 0 has -3.0
/// let worst = DriftReport { drift: Drift::Worst(3.0), along: Along::Columns, atom: 0, directions: [1, 2] };
/// assert_eq!(drift_report(&fc, 2)?, worst);
/// # Ok::<(), gullyfork::Refusal>(())
/// ```
pub fn drift_report(fc: &[f64], n_satom: usize) -> Result<DriftReport, Refusal> {
    let (mut value, mut place) = ([0.0], [0; 4]);
    let number = call!(gf_drift_report(&fc, &mut value, &mut place, n_satom));
    Ok(placed(drift_of(number, value)?, place))
}

/// The drift of an answer.
pub(crate) fn drift_of(number: u8, value: [f64; 1]) -> Result<Drift, Refusal> {
    match number {
        65 => Ok(Drift::Still),
        66 => Ok(Drift::Worst(value[0])),
        67 => Ok(Drift::NoNumber),
        _ => Err(answer(number).expect_err("a report is never answered with 0")),
    }
}

fn placed(drift: Drift, place: [usize; 4]) -> DriftReport {
    let along = if place[0] == 0 { Along::Rows } else { Along::Columns };
    DriftReport { drift, along, atom: place[1], directions: [place[2], place[3]] }
}

/// The drift of a compact set of n_patom × n_satom × 9 numbers: that of the full set which it reads out to. Not in phonors.
///
/// ```
/// use gullyfork::fc2::{drift_report_compact_fc2, Drift};
///
/// let mut fc = [0.0; 18]; // two atoms that a shift exchanges: blocks (0, 0) and (0, 1)
/// (fc[0], fc[9]) = (2.0, -1.5);
/// assert_eq!(drift_report_compact_fc2(&fc, &[0], &[0, 0], &[0, 1], &[0, 1, 1, 0], 2, 1)?.drift, Drift::Worst(0.5));
/// # Ok::<(), gullyfork::Refusal>(())
/// ```
pub fn drift_report_compact_fc2(
    fc: &[f64],
    p2s: &[i64],
    s2pp: &[i64],
    nsym_list: &[i64],
    perms: &[i64],
    n_satom: usize,
    n_patom: usize,
) -> Result<DriftReport, Refusal> {
    let (mut value, mut place) = ([0.0], [0; 4]);
    let num_trans = rows(perms.len(), n_satom);
    let number =
        call!(gf_drift_report_compact_fc2(&fc, &p2s, &s2pp, &nsym_list, &perms, &mut value, &mut place, n_satom, n_patom, num_trans));
    Ok(placed(drift_of(number, value)?, place))
}

/// The row sums of a full set of n_satom² × 9 numbers: for each atom and pair of directions its numbers added up over the second
/// atom, from 0.0 on. Sum k of atom i is `sums[i * 9 + k]`. Not in phonors.
pub fn row_sums_fc2(sums: &mut [f64], fc: &[f64], n_satom: usize) -> Result<(), Refusal> {
    answer(call!(gf_row_sums_fc2(&mut sums, &fc, n_satom)))
}

/// Replaces block (i, j) of a full set of n_satom² × 9 numbers, and brings the nine sums of atom i up to date: from each the old number is
/// subtracted, and then the new one is added. Nine zeros take a block out. Not in phonors.
///
/// If every number of the set is on the grid (multiples of 2^-20 from -2^20 to 2^20) and the sums are those of
/// [`row_sums_fc2`], then after any series of these calls they still are, bit for bit. A number of the old block or of the new one that is
/// off the grid is refused.
///
/// ```
/// use gullyfork::{fc2, Refusal};
///
/// let (mut fc, mut sums, mut fresh) = ([0.25; 36], [0.0; 18], [0.0; 18]);
/// fc2::row_sums_fc2(&mut sums, &fc, 2)?;
/// fc2::replace_block_fc2(&mut fc, &mut sums, [1.5; 9], 1, 0, 2)?;
/// assert_eq!((sums[0], sums[9]), (0.5, 1.75));
/// fc2::row_sums_fc2(&mut fresh, &fc, 2)?;
/// assert_eq!(sums, fresh);
/// assert_eq!(fc2::replace_block_fc2(&mut fc, &mut sums, [0.1; 9], 1, 0, 2), Err(Refusal::OffGrid));
/// # Ok::<(), Refusal>(())
/// ```
pub fn replace_block_fc2(fc: &mut [f64], sums: &mut [f64], block: [f64; 9], i: usize, j: usize, n_satom: usize) -> Result<(), Refusal> {
    answer(call!(gf_replace_block_fc2(&mut fc, &mut sums, &block, i, j, n_satom)))
}

/// Reads a compact set of n_patom × n_satom × 9 numbers out to the full one of n_satom² × 9: for any atoms and directions of the supercell
/// the number that the compact set has for them. What was in `full` has no influence. Not in phonors.
///
/// ```
/// use gullyfork::{fc2, Refusal};
///
/// let fc2: Vec<f64> = (0..18).map(f64::from).collect(); // one atom and its image
/// let mut full = [0.0; 36];
/// fc2::compact_to_full_fc2(&mut full, &fc2, &[0], &[0, 0], &[0, 1], &[0, 1, 1, 0], 2, 1)?;
/// assert_eq!((&full[..18], &full[18..27], &full[27..]), (&fc2[..], &fc2[9..], &fc2[..9]));
/// # Ok::<(), Refusal>(())
/// ```
#[allow(clippy::too_many_arguments)]
pub fn compact_to_full_fc2(
    full: &mut [f64],
    fc2: &[f64],
    p2s: &[i64],
    s2pp: &[i64],
    nsym_list: &[i64],
    perms: &[i64],
    n_satom: usize,
    n_patom: usize,
) -> Result<(), Refusal> {
    let num_trans = rows(perms.len(), n_satom);
    answer(call!(gf_compact_to_full_fc2(&mut full, &fc2, &p2s, &s2pp, &nsym_list, &perms, n_satom, n_patom, num_trans)))
}
