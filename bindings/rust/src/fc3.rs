//! Third order.
use crate::fc2::{drift_of, Drift};
use crate::ffi::call;
use crate::{answer, room, rows, Refusal};

/// Atoms, and the counts beside them.
const LIMIT: usize = 256;

/// num_disp and num_site_sym.
const LIMIT_LIST: usize = 1024;

/// Symmetrizes a full set of num_atom³ × 27 numbers: the six orders of any three (atom, direction) pairs get their mean. num_atom up to
/// 256.
///
/// ```
/// use gullyfork::{fc3, Refusal};
///
/// let mut set = [0.0; 27];
/// set[1] = 3.0; // directions 0, 0, 1; their other orders are 0, 1, 0 and 1, 0, 0
/// fc3::set_permutation_symmetry_fc3(&mut set, 1)?;
/// assert_eq!([set[1], set[3], set[9]], [1.0; 3]);
/// # Ok::<(), Refusal>(())
/// ```
pub fn set_permutation_symmetry_fc3(fc3: &mut [f64], num_atom: usize) -> Result<(), Refusal> {
    answer(call!(gf_set_permutation_symmetry_fc3(&mut fc3, num_atom)))
}

/// Symmetrizes a compact set of n_patom × n_satom² × 27 numbers: read out to all atoms, the six orders of any three (atom, direction)
/// pairs then hold the same bits.
///
/// ```
/// use gullyfork::{fc3, Refusal};
///
/// let mut set = [0.0; 27];
/// set[1] = 3.0;
/// fc3::set_permutation_symmetry_compact_fc3(&mut set, &[0], &[0], &[0], &[0], 1, 1)?;
/// assert_eq!([set[1], set[3], set[9]], [1.0; 3]);
/// let refused = fc3::set_permutation_symmetry_compact_fc3(&mut set, &[1], &[0], &[0], &[0], 1, 1);
/// assert_eq!(refused, Err(Refusal::IndexOutOfRange));
/// # Ok::<(), Refusal>(())
/// ```
#[allow(clippy::too_many_arguments)]
pub fn set_permutation_symmetry_compact_fc3(
    fc3: &mut [f64],
    p2s: &[i64],
    s2pp: &[i64],
    nsym_list: &[i64],
    perms: &[i64],
    n_satom: usize,
    n_patom: usize,
) -> Result<(), Refusal> {
    let mut done = vec![0; room(&[(n_patom, LIMIT), (n_satom, LIMIT), (n_satom, LIMIT)])];
    let num_trans = rows(perms.len(), n_satom);
    set_permutation_symmetry_compact_fc3_with(fc3, p2s, s2pp, nsym_list, perms, &mut done, n_satom, n_patom, num_trans)
}

/// [`set_permutation_symmetry_compact_fc3`] with n_patom × n_satom² bytes of work memory.
#[allow(clippy::too_many_arguments)]
pub fn set_permutation_symmetry_compact_fc3_with(
    fc3: &mut [f64],
    p2s: &[i64],
    s2pp: &[i64],
    nsym_list: &[i64],
    perms: &[i64],
    done: &mut [u8],
    n_satom: usize,
    n_patom: usize,
    num_trans: usize,
) -> Result<(), Refusal> {
    answer(call!(gf_set_permutation_symmetry_compact_fc3(
        &mut fc3, &p2s, &s2pp, &nsym_list, &perms, &mut done, n_satom, n_patom, num_trans
    )))
}

/// Symmetrizes a full set of num_atom³ × 27 numbers and takes its drift off. Per level: of leg 0, then 1, then 2 the mean over that leg's
/// atom is taken off every number; then the six orders of any three (atom, direction) pairs get their mean. Level 0 is
/// [`set_permutation_symmetry_fc3`]. num_atom up to 256, level up to 1,000. Not in phonors.
///
/// ```
/// use gullyfork::{fc3, Refusal};
///
/// let mut set = [0.0; 216]; // two atoms
/// set[189] = 8.0; // block (1, 1, 1), x x x
/// fc3::perm_trans_symmetrize_fc3(&mut set, 2, 1)?;
/// assert_eq!([set[0], set[27], set[189]], [-1.0, 1.0, 1.0]);
/// # Ok::<(), Refusal>(())
/// ```
pub fn perm_trans_symmetrize_fc3(fc3: &mut [f64], num_atom: usize, level: usize) -> Result<(), Refusal> {
    let mut drift = vec![0.0; room(&[(num_atom, LIMIT), (num_atom, LIMIT), (27, 27)])];
    perm_trans_symmetrize_fc3_with(fc3, &mut drift, num_atom, level)
}

/// [`perm_trans_symmetrize_fc3`] with num_atom² × 27 numbers of work memory.
pub fn perm_trans_symmetrize_fc3_with(fc3: &mut [f64], drift: &mut [f64], num_atom: usize, level: usize) -> Result<(), Refusal> {
    answer(call!(gf_perm_trans_symmetrize_fc3(&mut fc3, &mut drift, num_atom, level)))
}

/// Symmetrizes a compact set of n_patom × n_satom² × 27 numbers and takes its drift off: as [`perm_trans_symmetrize_fc3`], with the sums
/// over all atoms of the supercell of what the set reads out to, half shifts or not. Level 0 is
/// [`set_permutation_symmetry_compact_fc3`]. Not in phonors.
///
/// ```
/// use gullyfork::fc2::Drift;
/// use gullyfork::{fc3, report, Refusal};
///
/// let t = (&[0][..], &[0; 3][..], &[0, 2, 1][..], &[0, 1, 2, 1, 2, 0, 2, 0, 1][..]);
/// let mut set: Vec<f64> = (0..243).map(|k| f64::from(k * k % 17)).collect();
/// fc3::perm_trans_symmetrize_compact_fc3(&mut set, t.0, t.1, t.2, t.3, 3, 1, 1)?;
/// let left = report::drift_report_compact_fc3(&set, t.0, t.1, t.2, t.3, 3, 1)?;
/// assert!(matches!(left.drift, Drift::Still) || matches!(left.drift, Drift::Worst(x) if x < 1e-13));
/// # Ok::<(), Refusal>(())
/// ```
#[allow(clippy::too_many_arguments)]
pub fn perm_trans_symmetrize_compact_fc3(
    fc3: &mut [f64],
    p2s: &[i64],
    s2pp: &[i64],
    nsym_list: &[i64],
    perms: &[i64],
    n_satom: usize,
    n_patom: usize,
    level: usize,
) -> Result<(), Refusal> {
    let blocks = room(&[(n_patom, LIMIT), (n_satom, LIMIT)]);
    let (mut done, mut drift) = (vec![0; blocks * n_satom.min(LIMIT)], vec![0.0; blocks * 27]);
    let num_trans = rows(perms.len(), n_satom);
    perm_trans_symmetrize_compact_fc3_with(fc3, p2s, s2pp, nsym_list, perms, &mut done, &mut drift, n_satom, n_patom, num_trans, level)
}

/// [`perm_trans_symmetrize_compact_fc3`] with n_patom × n_satom² bytes and n_patom × n_satom × 27 numbers of work memory.
#[allow(clippy::too_many_arguments)]
pub fn perm_trans_symmetrize_compact_fc3_with(
    fc3: &mut [f64],
    p2s: &[i64],
    s2pp: &[i64],
    nsym_list: &[i64],
    perms: &[i64],
    done: &mut [u8],
    drift: &mut [f64],
    n_satom: usize,
    n_patom: usize,
    num_trans: usize,
    level: usize,
) -> Result<(), Refusal> {
    answer(call!(gf_perm_trans_symmetrize_compact_fc3(
        &mut fc3, &p2s, &s2pp, &nsym_list, &perms, &mut done, &mut drift, n_satom, n_patom, num_trans, level
    )))
}

/// Exchanges two of the three (atom, direction) pairs of every number of a compact set of n_patom × n_satom² × 27 numbers: type 0 the
/// first two, type 1 the first and the third, type 2 the last two; any other type changes nothing. Types 0 and 1 leave blocks that a half shift
/// exchanges, as phonors does.
///
/// ```
/// use gullyfork::{fc3, Refusal};
///
/// let rows = [0, 1, 2, 1, 2, 0, 2, 0, 1];
/// let mut set: Vec<f64> = (0..243).map(f64::from).collect();
/// fc3::transpose_compact_fc3(&mut set, &[0], &[0, 0, 0], &[0, 2, 1], &rows, 3, 1, 0)?;
/// // block (0, 1, 2) is the old block (0, 2, 1) with the first two directions exchanged
/// assert_eq!(set[5 * 27 + 3], f64::from(7 * 27 + 9));
/// # Ok::<(), Refusal>(())
/// ```
#[allow(clippy::too_many_arguments)]
pub fn transpose_compact_fc3(
    fc3: &mut [f64],
    p2s: &[i64],
    s2pp: &[i64],
    nsym_list: &[i64],
    perms: &[i64],
    n_satom: usize,
    n_patom: usize,
    t_type: i64,
) -> Result<(), Refusal> {
    let mut done = vec![0; room(&[(n_patom, LIMIT), (n_satom, LIMIT)])];
    let num_trans = rows(perms.len(), n_satom);
    transpose_compact_fc3_with(fc3, p2s, s2pp, nsym_list, perms, &mut done, n_satom, n_patom, num_trans, t_type)
}

/// [`transpose_compact_fc3`] with n_patom × n_satom bytes of work memory.
#[allow(clippy::too_many_arguments)]
pub fn transpose_compact_fc3_with(
    fc3: &mut [f64],
    p2s: &[i64],
    s2pp: &[i64],
    nsym_list: &[i64],
    perms: &[i64],
    done: &mut [u8],
    n_satom: usize,
    n_patom: usize,
    num_trans: usize,
    t_type: i64,
) -> Result<(), Refusal> {
    answer(call!(gf_transpose_compact_fc3(&mut fc3, &p2s, &s2pp, &nsym_list, &perms, &mut done, n_satom, n_patom, num_trans, t_type)))
}

/// Exchanges two of the three (atom, direction) pairs of every number of a compact set of n_patom × n_satom² × 27 numbers: type 0 the
/// first two, type 1 the first and the third, type 2 the last two; any other type changes nothing. Every block moves, also those that a half shift
/// exchanges; phonors has no such call.
///
/// ```
/// use gullyfork::{fc3, Refusal};
///
/// // a shift exchanges the two atoms
/// let mut set: Vec<f64> = (0..108).map(f64::from).collect();
/// fc3::true_transpose_compact_fc3(&mut set, &[0], &[0, 0], &[0, 1], &[0, 1, 1, 0], 2, 1, 0)?;
/// // block (0, 1, 0) is the old block (0, 1, 1) with the first two directions exchanged
/// assert_eq!(set[2 * 27 + 3], f64::from(3 * 27 + 9));
/// # Ok::<(), Refusal>(())
/// ```
#[allow(clippy::too_many_arguments)]
pub fn true_transpose_compact_fc3(
    fc3: &mut [f64],
    p2s: &[i64],
    s2pp: &[i64],
    nsym_list: &[i64],
    perms: &[i64],
    n_satom: usize,
    n_patom: usize,
    t_type: i64,
) -> Result<(), Refusal> {
    let mut done = vec![0; room(&[(n_patom, LIMIT), (n_satom, LIMIT)])];
    let num_trans = rows(perms.len(), n_satom);
    true_transpose_compact_fc3_with(fc3, p2s, s2pp, nsym_list, perms, &mut done, n_satom, n_patom, num_trans, t_type)
}

/// [`true_transpose_compact_fc3`] with n_patom × n_satom bytes of work memory.
#[allow(clippy::too_many_arguments)]
pub fn true_transpose_compact_fc3_with(
    fc3: &mut [f64],
    p2s: &[i64],
    s2pp: &[i64],
    nsym_list: &[i64],
    perms: &[i64],
    done: &mut [u8],
    n_satom: usize,
    n_patom: usize,
    num_trans: usize,
    t_type: i64,
) -> Result<(), Refusal> {
    answer(call!(gf_true_transpose_compact_fc3(&mut fc3, &p2s, &s2pp, &nsym_list, &perms, &mut done, n_satom, n_patom, num_trans, t_type)))
}

/// Fills slab `target` from slab `source`, a slab being the num_atom² × 27 numbers of one first atom: block (i, j) of the target is block
/// (`atom_mapping[i]`, `atom_mapping[j]`) of the source, rotated by `rot_cart` on each leg. There are as many slabs as the set has room for;
/// with no atoms there is none, and the call is refused.
///
/// ```
/// use gullyfork::{fc3, Refusal};
///
/// let identity = [1.0, 0.0, 0.0, 0.0, 1.0, 0.0, 0.0, 0.0, 1.0];
/// let mut set: Vec<f64> = (0..54).map(f64::from).collect();
/// fc3::distribute_fc3(&mut set, 1, 0, &[0], 1, &identity)?;
/// assert_eq!(set[27..], (0..27).map(f64::from).collect::<Vec<_>>());
/// assert_eq!(fc3::distribute_fc3(&mut set, 1, 2, &[0], 1, &identity), Err(Refusal::BadSlab));
/// # Ok::<(), Refusal>(())
/// ```
pub fn distribute_fc3(
    fc3: &mut [f64],
    target: usize,
    source: usize,
    atom_mapping: &[i64],
    num_atom: usize,
    rot_cart: &[f64],
) -> Result<(), Refusal> {
    let slab = num_atom.saturating_mul(num_atom).saturating_mul(27);
    let num_first = rows(fc3.len(), slab);
    distribute_fc3_with(fc3, target, source, atom_mapping, num_atom, rot_cart, num_first)
}

/// [`distribute_fc3`] with the number of slabs given.
pub fn distribute_fc3_with(
    fc3: &mut [f64],
    target: usize,
    source: usize,
    atom_mapping: &[i64],
    num_atom: usize,
    rot_cart: &[f64],
    num_first: usize,
) -> Result<(), Refusal> {
    answer(call!(gf_distribute_fc3(&mut fc3, target, source, &atom_mapping, num_atom, &rot_cart, num_first)))
}

/// The num_atom² × 27 numbers of third order of one displaced atom, from the changes `delta_fc2s` (num_disp × num_atom² × 9) that num_disp
/// displacements of that atom make to a set of second order. Each is rotated by each site symmetry (`site_sym_cart`, num_site_sym × 9, which
/// sends atom a to `rot_map_syms[s * num_atom + a]`); `inv_u`, 3 × num_disp × num_site_sym, makes of them one block for each direction of the
/// displaced atom.
///
/// ```
/// use gullyfork::{fc3, Refusal};
///
/// let identity = [1.0, 0.0, 0.0, 0.0, 1.0, 0.0, 0.0, 0.0, 1.0];
/// let change: Vec<f64> = (0..9).map(f64::from).collect();
/// let mut blocks = [0.0; 27];
/// fc3::rotate_delta_fc2s(&mut blocks, &change, &[1.0, 0.0, 2.0], &identity, &[0], 1, 1, 1)?;
/// assert_eq!([blocks[8], blocks[9 + 8], blocks[18 + 8]], [8.0, 0.0, 16.0]);
/// # Ok::<(), Refusal>(())
/// ```
#[allow(clippy::too_many_arguments)]
pub fn rotate_delta_fc2s(
    fc3: &mut [f64],
    delta_fc2s: &[f64],
    inv_u: &[f64],
    site_sym_cart: &[f64],
    rot_map_syms: &[i64],
    num_atom: usize,
    num_site_sym: usize,
    num_disp: usize,
) -> Result<(), Refusal> {
    let mut rot_delta = vec![0.0; room(&[(num_disp, LIMIT_LIST), (num_site_sym, LIMIT_LIST), (9, 9)])];
    rotate_delta_fc2s_with(fc3, delta_fc2s, inv_u, site_sym_cart, rot_map_syms, &mut rot_delta, num_atom, num_site_sym, num_disp)
}

/// [`rotate_delta_fc2s`] with num_disp × num_site_sym × 9 numbers of work memory.
#[allow(clippy::too_many_arguments)]
pub fn rotate_delta_fc2s_with(
    fc3: &mut [f64],
    delta_fc2s: &[f64],
    inv_u: &[f64],
    site_sym_cart: &[f64],
    rot_map_syms: &[i64],
    rot_delta: &mut [f64],
    num_atom: usize,
    num_site_sym: usize,
    num_disp: usize,
) -> Result<(), Refusal> {
    answer(call!(gf_rotate_delta_fc2s(
        &mut fc3,
        &delta_fc2s,
        &inv_u,
        &site_sym_cart,
        &rot_map_syms,
        &mut rot_delta,
        num_atom,
        num_site_sym,
        num_disp
    )))
}

/// Reads a compact set of n_patom × n_satom² × 27 numbers out to the full one of n_satom³ × 27: for any atoms and directions of the supercell
/// the number that the compact set has for them. What was in `full` has no influence. Not in phonors.
///
/// If every number of the set is on the grid of [`replace_block_fc2`](crate::fc2::replace_block_fc2), reading out and then symmetrizing the
/// full set gives the same bits as symmetrizing the compact set and then reading out.
///
/// ```
/// use gullyfork::{fc3, Refusal};
///
/// let t = (&[0][..], &[0, 0][..], &[0, 1][..], &[0, 1, 1, 0][..]); // one atom and its image: a half shift
/// let mut set: Vec<f64> = (0..108).map(|k| f64::from(k % 7) - 0.25).collect();
/// let (mut one, mut other) = (vec![0.0; 216], vec![0.0; 216]);
/// fc3::compact_to_full_fc3(&mut one, &set, t.0, t.1, t.2, t.3, 2, 1)?;
/// fc3::set_permutation_symmetry_fc3(&mut one, 2)?;
/// fc3::set_permutation_symmetry_compact_fc3(&mut set, t.0, t.1, t.2, t.3, 2, 1)?;
/// fc3::compact_to_full_fc3(&mut other, &set, t.0, t.1, t.2, t.3, 2, 1)?;
/// assert_eq!(one, other);
/// # Ok::<(), Refusal>(())
/// ```
#[allow(clippy::too_many_arguments)]
pub fn compact_to_full_fc3(
    full: &mut [f64],
    fc3: &[f64],
    p2s: &[i64],
    s2pp: &[i64],
    nsym_list: &[i64],
    perms: &[i64],
    n_satom: usize,
    n_patom: usize,
) -> Result<(), Refusal> {
    let num_trans = rows(perms.len(), n_satom);
    answer(call!(gf_compact_to_full_fc3(&mut full, &fc3, &p2s, &s2pp, &nsym_list, &perms, n_satom, n_patom, num_trans)))
}

/// A drift and its place: the leg that is summed over (0, 1 or 2), the atoms of the two other legs, and three directions. Still has leg 2
/// and zeros; otherwise it is the first place that has the worst value, or that is NaN: the sums over the last leg come first, then those
/// over the middle one and the first; then by atoms, then by directions.
#[derive(Clone, Copy, Debug, PartialEq)]
pub struct LegReport {
    /// How far.
    pub drift: Drift,
    /// The leg that is summed over.
    pub leg: usize,
    /// The atoms of the two other legs.
    pub atoms: [usize; 2],
    /// The directions of all three.
    pub directions: [usize; 3],
}

/// The drift of a full set of num_atom³ × 27 numbers: the sums over each leg, each from 0.0 and rising. Not in phonors.
///
/// ```
/// use gullyfork::fc2::Drift;
/// use gullyfork::fc3::{drift_report_fc3, LegReport};
///
/// let mut fc3 = [0.0; 216]; // two atoms
/// (fc3[108], fc3[135]) = (1.0, -1.0); // blocks (1, 0, 0) and (1, 0, 1): over the last leg they cancel
/// let worst = LegReport { drift: Drift::Worst(1.0), leg: 1, atoms: [1, 0], directions: [0, 0, 0] };
/// assert_eq!(drift_report_fc3(&fc3, 2)?, worst);
/// # Ok::<(), gullyfork::Refusal>(())
/// ```
pub fn drift_report_fc3(fc: &[f64], num_atom: usize) -> Result<LegReport, Refusal> {
    let (mut value, mut place) = ([0.0], [0; 6]);
    let drift = drift_of(call!(gf_drift_report_fc3(&fc, &mut value, &mut place, num_atom)), value)?;
    let [leg, a, b, k, l, m] = place;
    Ok(LegReport { drift, leg, atoms: [a, b], directions: [k, l, m] })
}
