//! Fourth order.
use crate::ffi::call;
use crate::{answer, room, rows, Refusal};

/// Atoms, and the counts beside them.
const LIMIT: usize = 64;

/// num_disp and num_site_sym.
const LIMIT_LIST: usize = 1024;

/// Symmetrizes a full set of num_atom⁴ × 81 numbers: the 24 orders of any four (atom, direction) pairs get their mean. num_atom up to 64.
///
/// ```
/// use gullyfork::{fc4, Refusal};
///
/// let mut set = [0.0; 81];
/// set[1] = 12.0; // directions 0, 0, 0, 1; there are three other places for the 1
/// fc4::set_permutation_symmetry_fc4(&mut set, 1)?;
/// assert_eq!([set[1], set[3], set[9], set[27]], [3.0; 4]);
/// # Ok::<(), Refusal>(())
/// ```
pub fn set_permutation_symmetry_fc4(fc4: &mut [f64], num_atom: usize) -> Result<(), Refusal> {
    let mut done = vec![0; room(&[(num_atom, LIMIT); 4])];
    set_permutation_symmetry_fc4_with(fc4, &mut done, num_atom)
}

/// [`set_permutation_symmetry_fc4`] with num_atom⁴ bytes of work memory.
pub fn set_permutation_symmetry_fc4_with(fc4: &mut [f64], done: &mut [u8], num_atom: usize) -> Result<(), Refusal> {
    answer(call!(gf_set_permutation_symmetry_fc4(&mut fc4, &mut done, num_atom)))
}

/// Symmetrizes a compact set of n_patom × n_satom³ × 81 numbers: read out to all atoms, the 24 orders of any four (atom, direction) pairs
/// then hold the same bits.
///
/// ```
/// use gullyfork::{fc4, Refusal};
///
/// let mut set = [0.0; 81];
/// set[1] = 12.0;
/// fc4::set_permutation_symmetry_compact_fc4(&mut set, &[0], &[0], &[0], &[0], 1, 1)?;
/// assert_eq!([set[1], set[3], set[9], set[27]], [3.0; 4]);
/// # Ok::<(), Refusal>(())
/// ```
#[allow(clippy::too_many_arguments)]
pub fn set_permutation_symmetry_compact_fc4(
    fc4: &mut [f64],
    p2s: &[i64],
    s2pp: &[i64],
    nsym_list: &[i64],
    perms: &[i64],
    n_satom: usize,
    n_patom: usize,
) -> Result<(), Refusal> {
    let mut done = vec![0; room(&[(n_patom, LIMIT), (n_satom, LIMIT), (n_satom, LIMIT), (n_satom, LIMIT)])];
    let num_trans = rows(perms.len(), n_satom);
    set_permutation_symmetry_compact_fc4_with(fc4, p2s, s2pp, nsym_list, perms, &mut done, n_satom, n_patom, num_trans)
}

/// [`set_permutation_symmetry_compact_fc4`] with n_patom × n_satom³ bytes of work memory.
#[allow(clippy::too_many_arguments)]
pub fn set_permutation_symmetry_compact_fc4_with(
    fc4: &mut [f64],
    p2s: &[i64],
    s2pp: &[i64],
    nsym_list: &[i64],
    perms: &[i64],
    done: &mut [u8],
    n_satom: usize,
    n_patom: usize,
    num_trans: usize,
) -> Result<(), Refusal> {
    answer(call!(gf_set_permutation_symmetry_compact_fc4(
        &mut fc4, &p2s, &s2pp, &nsym_list, &perms, &mut done, n_satom, n_patom, num_trans
    )))
}

/// Symmetrizes a full set of num_atom⁴ × 81 numbers and takes its drift off. Per level: of leg 0, then 1, then 2, then 3 the mean over that
/// leg's atom is taken off every number; then the 24 orders of any four (atom, direction) pairs get their mean. Level 0 is
/// [`set_permutation_symmetry_fc4`]. num_atom up to 64, level up to 1,000. Not in phonors.
///
/// ```
/// use gullyfork::{fc4, Refusal};
///
/// let mut set = [0.0; 1296]; // two atoms
/// set[1215] = 16.0; // block (1, 1, 1, 1), x x x x
/// fc4::perm_trans_symmetrize_fc4(&mut set, 2, 1)?;
/// assert_eq!([set[0], set[81], set[1215]], [1.0, -1.0, 1.0]);
/// # Ok::<(), Refusal>(())
/// ```
pub fn perm_trans_symmetrize_fc4(fc4: &mut [f64], num_atom: usize, level: usize) -> Result<(), Refusal> {
    let blocks = room(&[(num_atom, LIMIT); 3]);
    let (mut done, mut drift) = (vec![0; blocks * num_atom.min(LIMIT)], vec![0.0; blocks * 81]);
    perm_trans_symmetrize_fc4_with(fc4, &mut done, &mut drift, num_atom, level)
}

/// [`perm_trans_symmetrize_fc4`] with num_atom⁴ bytes and num_atom³ × 81 numbers of work memory.
pub fn perm_trans_symmetrize_fc4_with(
    fc4: &mut [f64],
    done: &mut [u8],
    drift: &mut [f64],
    num_atom: usize,
    level: usize,
) -> Result<(), Refusal> {
    answer(call!(gf_perm_trans_symmetrize_fc4(&mut fc4, &mut done, &mut drift, num_atom, level)))
}

/// Symmetrizes a compact set of n_patom × n_satom³ × 81 numbers and takes its drift off: as [`perm_trans_symmetrize_fc4`], with the sums
/// over all atoms of the supercell of what the set reads out to, half shifts or not. Level 0 is
/// [`set_permutation_symmetry_compact_fc4`]. Not in phonors.
///
/// ```
/// use gullyfork::fc2::Drift;
/// use gullyfork::{fc4, report, Refusal};
///
/// let t = (&[0][..], &[0; 3][..], &[0, 2, 1][..], &[0, 1, 2, 1, 2, 0, 2, 0, 1][..]);
/// let mut set: Vec<f64> = (0..2187).map(|k| f64::from(k * k % 17)).collect();
/// fc4::perm_trans_symmetrize_compact_fc4(&mut set, t.0, t.1, t.2, t.3, 3, 1, 1)?;
/// let left = report::drift_report_compact_fc4(&set, t.0, t.1, t.2, t.3, 3, 1)?;
/// assert!(matches!(left.drift, Drift::Still) || matches!(left.drift, Drift::Worst(x) if x < 1e-13));
/// # Ok::<(), Refusal>(())
/// ```
#[allow(clippy::too_many_arguments)]
pub fn perm_trans_symmetrize_compact_fc4(
    fc4: &mut [f64],
    p2s: &[i64],
    s2pp: &[i64],
    nsym_list: &[i64],
    perms: &[i64],
    n_satom: usize,
    n_patom: usize,
    level: usize,
) -> Result<(), Refusal> {
    let blocks = room(&[(n_patom, LIMIT), (n_satom, LIMIT), (n_satom, LIMIT)]);
    let (mut done, mut drift) = (vec![0; blocks * n_satom.min(LIMIT)], vec![0.0; blocks * 81]);
    let num_trans = rows(perms.len(), n_satom);
    perm_trans_symmetrize_compact_fc4_with(fc4, p2s, s2pp, nsym_list, perms, &mut done, &mut drift, n_satom, n_patom, num_trans, level)
}

/// [`perm_trans_symmetrize_compact_fc4`] with n_patom × n_satom³ bytes and n_patom × n_satom² × 81 numbers of work memory.
#[allow(clippy::too_many_arguments)]
pub fn perm_trans_symmetrize_compact_fc4_with(
    fc4: &mut [f64],
    p2s: &[i64],
    s2pp: &[i64],
    nsym_list: &[i64],
    perms: &[i64],
    done: &mut [u8],
    drift: &mut [f64],
    n_satom: usize,
    n_patom: usize,
    num_trans: usize,
    level: usize,
) -> Result<(), Refusal> {
    answer(call!(gf_perm_trans_symmetrize_compact_fc4(
        &mut fc4, &p2s, &s2pp, &nsym_list, &perms, &mut done, &mut drift, n_satom, n_patom, num_trans, level
    )))
}

/// Exchanges the first two of the four (atom, direction) pairs of every number of a compact set of n_patom × n_satom³ × 81 numbers, with type
/// 0; any other type changes nothing. Blocks that a half shift exchanges stay, as in phonors.
///
/// ```
/// use gullyfork::{fc4, Refusal};
///
/// let mut set: Vec<f64> = (0..81).map(f64::from).collect();
/// fc4::transpose_compact_fc4(&mut set, &[0], &[0], &[0], &[0], 1, 1, 0)?;
/// assert_eq!([set[9], set[27]], [27.0, 9.0]);
/// # Ok::<(), Refusal>(())
/// ```
#[allow(clippy::too_many_arguments)]
pub fn transpose_compact_fc4(
    fc4: &mut [f64],
    p2s: &[i64],
    s2pp: &[i64],
    nsym_list: &[i64],
    perms: &[i64],
    n_satom: usize,
    n_patom: usize,
    t_type: i64,
) -> Result<(), Refusal> {
    let mut done = vec![0; room(&[(n_patom, LIMIT), (n_satom, LIMIT)])];
    let num_trans = rows(perms.len(), n_satom);
    transpose_compact_fc4_with(fc4, p2s, s2pp, nsym_list, perms, &mut done, n_satom, n_patom, num_trans, t_type)
}

/// [`transpose_compact_fc4`] with n_patom × n_satom bytes of work memory.
#[allow(clippy::too_many_arguments)]
pub fn transpose_compact_fc4_with(
    fc4: &mut [f64],
    p2s: &[i64],
    s2pp: &[i64],
    nsym_list: &[i64],
    perms: &[i64],
    done: &mut [u8],
    n_satom: usize,
    n_patom: usize,
    num_trans: usize,
    t_type: i64,
) -> Result<(), Refusal> {
    answer(call!(gf_transpose_compact_fc4(&mut fc4, &p2s, &s2pp, &nsym_list, &perms, &mut done, n_satom, n_patom, num_trans, t_type)))
}

/// Exchanges the first two of the four (atom, direction) pairs of every number of a compact set of n_patom × n_satom³ × 81 numbers, with type
/// 0; any other type changes nothing. Every block moves, also those that a half shift exchanges; phonors has no such call.
///
/// ```
/// use gullyfork::{fc4, Refusal};
///
/// let mut set: Vec<f64> = (0..81).map(f64::from).collect();
/// fc4::true_transpose_compact_fc4(&mut set, &[0], &[0], &[0], &[0], 1, 1, 0)?;
/// assert_eq!([set[9], set[27]], [27.0, 9.0]);
/// # Ok::<(), Refusal>(())
/// ```
#[allow(clippy::too_many_arguments)]
pub fn true_transpose_compact_fc4(
    fc4: &mut [f64],
    p2s: &[i64],
    s2pp: &[i64],
    nsym_list: &[i64],
    perms: &[i64],
    n_satom: usize,
    n_patom: usize,
    t_type: i64,
) -> Result<(), Refusal> {
    let mut done = vec![0; room(&[(n_patom, LIMIT), (n_satom, LIMIT)])];
    let num_trans = rows(perms.len(), n_satom);
    true_transpose_compact_fc4_with(fc4, p2s, s2pp, nsym_list, perms, &mut done, n_satom, n_patom, num_trans, t_type)
}

/// [`true_transpose_compact_fc4`] with n_patom × n_satom bytes of work memory.
#[allow(clippy::too_many_arguments)]
pub fn true_transpose_compact_fc4_with(
    fc4: &mut [f64],
    p2s: &[i64],
    s2pp: &[i64],
    nsym_list: &[i64],
    perms: &[i64],
    done: &mut [u8],
    n_satom: usize,
    n_patom: usize,
    num_trans: usize,
    t_type: i64,
) -> Result<(), Refusal> {
    answer(call!(gf_true_transpose_compact_fc4(&mut fc4, &p2s, &s2pp, &nsym_list, &perms, &mut done, n_satom, n_patom, num_trans, t_type)))
}

/// Exchanges two of the four (atom, direction) pairs of every number of a compact set of n_patom × n_satom³ × 81 numbers, named by their legs
/// 0 to 3 in either order; with equal legs nothing moves, a leg above 3 is refused as an index out of range. Every block moves, also those
/// that a half shift exchanges; phonors has no such call.
///
/// ```
/// use gullyfork::{fc4, Refusal};
///
/// let mut set: Vec<f64> = (0..81).map(f64::from).collect();
/// fc4::swap_pairs_compact_fc4(&mut set, &[0], &[0], &[0], &[0], 1, 1, 0, 3)?;
/// assert_eq!([set[1], set[27]], [27.0, 1.0]);
/// # Ok::<(), Refusal>(())
/// ```
#[allow(clippy::too_many_arguments)]
pub fn swap_pairs_compact_fc4(
    fc4: &mut [f64],
    p2s: &[i64],
    s2pp: &[i64],
    nsym_list: &[i64],
    perms: &[i64],
    n_satom: usize,
    n_patom: usize,
    leg_a: usize,
    leg_b: usize,
) -> Result<(), Refusal> {
    let mut done = vec![0; room(&[(n_patom, LIMIT), (n_satom, LIMIT)])];
    let num_trans = rows(perms.len(), n_satom);
    swap_pairs_compact_fc4_with(fc4, p2s, s2pp, nsym_list, perms, &mut done, n_satom, n_patom, num_trans, leg_a, leg_b)
}

/// [`swap_pairs_compact_fc4`] with n_patom × n_satom bytes of work memory.
#[allow(clippy::too_many_arguments)]
pub fn swap_pairs_compact_fc4_with(
    fc4: &mut [f64],
    p2s: &[i64],
    s2pp: &[i64],
    nsym_list: &[i64],
    perms: &[i64],
    done: &mut [u8],
    n_satom: usize,
    n_patom: usize,
    num_trans: usize,
    leg_a: usize,
    leg_b: usize,
) -> Result<(), Refusal> {
    answer(call!(gf_swap_pairs_compact_fc4(
        &mut fc4, &p2s, &s2pp, &nsym_list, &perms, &mut done, n_satom, n_patom, num_trans, leg_a, leg_b
    )))
}

/// Fills slab `target` from slab `source`, a slab being the num_atom³ × 81 numbers of one first atom, as
/// [`distribute_fc3`](crate::fc3::distribute_fc3) does one order below.
///
/// ```
/// use gullyfork::{fc4, Refusal};
///
/// let identity = [1.0, 0.0, 0.0, 0.0, 1.0, 0.0, 0.0, 0.0, 1.0];
/// let mut set: Vec<f64> = (0..162).map(f64::from).collect();
/// fc4::distribute_fc4(&mut set, 1, 0, &[0], 1, &identity)?;
/// assert_eq!(set[81..], (0..81).map(f64::from).collect::<Vec<_>>());
/// # Ok::<(), Refusal>(())
/// ```
pub fn distribute_fc4(
    fc4: &mut [f64],
    target: usize,
    source: usize,
    atom_mapping: &[i64],
    num_atom: usize,
    rot_cart: &[f64],
) -> Result<(), Refusal> {
    let slab = num_atom.saturating_pow(3).saturating_mul(81);
    let num_first = rows(fc4.len(), slab);
    distribute_fc4_with(fc4, target, source, atom_mapping, num_atom, rot_cart, num_first)
}

/// [`distribute_fc4`] with the number of slabs given.
pub fn distribute_fc4_with(
    fc4: &mut [f64],
    target: usize,
    source: usize,
    atom_mapping: &[i64],
    num_atom: usize,
    rot_cart: &[f64],
    num_first: usize,
) -> Result<(), Refusal> {
    answer(call!(gf_distribute_fc4(&mut fc4, target, source, &atom_mapping, num_atom, &rot_cart, num_first)))
}

/// The num_atom³ × 81 numbers of fourth order of one displaced atom, from the changes `delta_fc3s` (num_disp × num_atom³ × 27) that num_disp
/// displacements of that atom make to a set of third order, as [`rotate_delta_fc2s`](crate::fc3::rotate_delta_fc2s) does one order below.
///
/// ```
/// use gullyfork::{fc4, Refusal};
///
/// let identity = [1.0, 0.0, 0.0, 0.0, 1.0, 0.0, 0.0, 0.0, 1.0];
/// let change: Vec<f64> = (0..27).map(f64::from).collect();
/// let mut blocks = [0.0; 81];
/// fc4::rotate_delta_fc3s(&mut blocks, &change, &[1.0, 0.0, 2.0], &identity, &[0], 1, 1, 1)?;
/// assert_eq!([blocks[26], blocks[27 + 26], blocks[54 + 26]], [26.0, 0.0, 52.0]);
/// # Ok::<(), Refusal>(())
/// ```
#[allow(clippy::too_many_arguments)]
pub fn rotate_delta_fc3s(
    fc4: &mut [f64],
    delta_fc3s: &[f64],
    inv_u: &[f64],
    site_sym_cart: &[f64],
    rot_map_syms: &[i64],
    num_atom: usize,
    num_site_sym: usize,
    num_disp: usize,
) -> Result<(), Refusal> {
    let mut rot_delta = vec![0.0; room(&[(num_disp, LIMIT_LIST), (num_site_sym, LIMIT_LIST), (27, 27)])];
    rotate_delta_fc3s_with(fc4, delta_fc3s, inv_u, site_sym_cart, rot_map_syms, &mut rot_delta, num_atom, num_site_sym, num_disp)
}

/// [`rotate_delta_fc3s`] with num_disp × num_site_sym × 27 numbers of work memory.
#[allow(clippy::too_many_arguments)]
pub fn rotate_delta_fc3s_with(
    fc4: &mut [f64],
    delta_fc3s: &[f64],
    inv_u: &[f64],
    site_sym_cart: &[f64],
    rot_map_syms: &[i64],
    rot_delta: &mut [f64],
    num_atom: usize,
    num_site_sym: usize,
    num_disp: usize,
) -> Result<(), Refusal> {
    answer(call!(gf_rotate_delta_fc3s(
        &mut fc4,
        &delta_fc3s,
        &inv_u,
        &site_sym_cart,
        &rot_map_syms,
        &mut rot_delta,
        num_atom,
        num_site_sym,
        num_disp
    )))
}

/// Reads a compact set of n_patom × n_satom³ × 81 numbers out to the full one of n_satom⁴ × 81: for any atoms and directions of the supercell
/// the number that the compact set has for them. What was in `full` has no influence. Not in phonors.
///
/// If every number of the set is on the grid of [`replace_block_fc2`](crate::fc2::replace_block_fc2), reading out and then symmetrizing the
/// full set gives the same bits as symmetrizing the compact set and then reading out.
///
/// ```
/// use gullyfork::{fc4, Refusal};
///
/// let t = (&[0][..], &[0, 0][..], &[0, 1][..], &[0, 1, 1, 0][..]); // one atom and its image: a half shift
/// let mut set: Vec<f64> = (0..648).map(|k| f64::from(k % 7) - 0.25).collect();
/// let (mut one, mut other) = (vec![0.0; 1296], vec![0.0; 1296]);
/// fc4::compact_to_full_fc4(&mut one, &set, t.0, t.1, t.2, t.3, 2, 1)?;
/// fc4::set_permutation_symmetry_fc4(&mut one, 2)?;
/// fc4::set_permutation_symmetry_compact_fc4(&mut set, t.0, t.1, t.2, t.3, 2, 1)?;
/// fc4::compact_to_full_fc4(&mut other, &set, t.0, t.1, t.2, t.3, 2, 1)?;
/// assert_eq!(one, other);
/// # Ok::<(), Refusal>(())
/// ```
#[allow(clippy::too_many_arguments)]
pub fn compact_to_full_fc4(
    full: &mut [f64],
    fc4: &[f64],
    p2s: &[i64],
    s2pp: &[i64],
    nsym_list: &[i64],
    perms: &[i64],
    n_satom: usize,
    n_patom: usize,
) -> Result<(), Refusal> {
    let num_trans = rows(perms.len(), n_satom);
    answer(call!(gf_compact_to_full_fc4(&mut full, &fc4, &p2s, &s2pp, &nsym_list, &perms, n_satom, n_patom, num_trans)))
}
