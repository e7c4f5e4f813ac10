//! The functions of `gullyfork::tables` beside the plain ones: on good input and on refused input both return the same and leave the same
//! slices, and the error names the argument that is wrong. Each slice is tried one element short and one too long, each count above its
//! limit, each index table with an entry below and one above its range.
use gullyfork::tables::{self, Cell, Displaced, Listed, Match, Tables};
use gullyfork::{audit, cells, cells::MatchError, fc2, fc3, fc4, report, Argument, Refusal, Refused};
use std::fmt::Debug;

/// What a call may be given. Compact sets have two atoms in the primitive cell and four shifts in a circle, one of them a half shift.
#[derive(Clone, PartialEq, Debug)]
struct Input {
    set: Vec<f64>,
    full: Vec<f64>,
    other: Vec<f64>,
    sums: Vec<f64>,
    deltas: Vec<f64>,
    inv_u: Vec<f64>,
    site_sym_cart: Vec<f64>,
    rot_delta: Vec<f64>,
    drift: Vec<f64>,
    rot_cart: Vec<f64>,
    r_carts: Vec<f64>,
    pos: Vec<f64>,
    rot_pos: Vec<f64>,
    p2s: Vec<i64>,
    s2pp: Vec<i64>,
    nsym_list: Vec<i64>,
    perms: Vec<i64>,
    atom_list: Vec<i64>,
    fc_indices_of_atom_list: Vec<i64>,
    permutations: Vec<i64>,
    map_atoms: Vec<i64>,
    map_syms: Vec<i64>,
    atom_mapping: Vec<i64>,
    rot_map_syms: Vec<i64>,
    rot_atom: Vec<i64>,
    atom_list_reverse: Vec<i64>,
    done: Vec<u8>,
    marks: Vec<u8>,
    n_satom: usize,
    n_patom: usize,
    num_atom: usize,
    num_pos: usize,
    num_first: usize,
    num_rot: usize,
    num_site_sym: usize,
    num_disp: usize,
    level: usize,
    target: usize,
    source: usize,
    i: usize,
    j: usize,
    leg_a: usize,
    leg_b: usize,
}

const CELL: Cell = Cell { lattice: [1.0, 0.0, 0.0, 0.0, 1.0, 0.0, 0.0, 0.0, 1.0], symprec: 0.1, periodic: [true, true, false] };

/// Numbers on the grid.
fn numbers(n: usize) -> Vec<f64> {
    (0..n).map(|i| ((i * i % 101) as f64 - 50.0) * 0.125).collect()
}

fn input(set: usize, full: usize, done: usize) -> Input {
    let at = |xs: [f64; 5]| xs.map(|x| [x, 0.0, 0.0]).concat();
    Input {
        set: numbers(set),
        full: numbers(full),
        other: numbers(set),
        sums: numbers(72),
        deltas: vec![],
        inv_u: numbers(60),
        site_sym_cart: numbers(45),
        rot_delta: vec![],
        drift: vec![],
        rot_cart: numbers(9),
        r_carts: numbers(18),
        pos: at([0.0, 0.2, 0.4, 0.6, 0.8]),
        rot_pos: at([0.2, 0.4, 0.6, 0.8, 1.0]),
        p2s: vec![0, 4],
        s2pp: vec![0, 0, 0, 0, 1, 1, 1, 1],
        nsym_list: vec![0, 3, 2, 1, 0, 3, 2, 1],
        perms: (0..32).map(|e| e % 8 / 4 * 4 + (e % 4 + e / 8) % 4).collect(),
        atom_list: vec![0, 1, 2, 3, 4, 0, 1],
        fc_indices_of_atom_list: vec![0, 1, 2, 0, 1, 2, 0],
        permutations: vec![0, 1, 2, 3, 4, 4, 3, 2, 1, 0],
        map_atoms: vec![0; 5],
        map_syms: vec![0, 1, 0, 1, 0],
        atom_mapping: vec![0, 1, 3, 2],
        rot_map_syms: vec![1; 20],
        rot_atom: vec![7; 5],
        atom_list_reverse: vec![7; 5],
        done: vec![7; done],
        marks: vec![7; 5],
        n_satom: 8,
        n_patom: 2,
        num_atom: 4,
        num_pos: 5,
        num_first: 3,
        num_rot: 2,
        num_site_sym: 5,
        num_disp: 4,
        level: 2,
        target: 2,
        source: 1,
        i: 4,
        j: 5,
        leg_a: 3,
        leg_b: 1,
    }
}

impl Input {
    fn tables(&self) -> Result<Tables<'_>, Refused> {
        Tables::new(&self.p2s, &self.s2pp, &self.nsym_list, &self.perms)
    }

    fn listed(&self) -> Listed<'_> {
        Listed {
            atom_list: &self.atom_list,
            fc_indices_of_atom_list: &self.fc_indices_of_atom_list,
            r_carts: &self.r_carts,
            permutations: &self.permutations,
            map_atoms: &self.map_atoms,
            map_syms: &self.map_syms,
            num_pos: self.num_pos,
            num_first: self.num_first,
            num_rot: self.num_rot,
        }
    }

    fn displaced(&self) -> Displaced<'_> {
        Displaced {
            deltas: &self.deltas,
            inv_u: &self.inv_u,
            site_sym_cart: &self.site_sym_cart,
            rot_map_syms: &self.rot_map_syms,
            num_atom: self.num_atom,
            num_site_sym: self.num_site_sym,
            num_disp: self.num_disp,
        }
    }
}

/// A change of the input, the argument that it makes wrong, and the refusal that is due.
type Change = (&'static str, Refusal, fn(&mut Input));

macro_rules! lengths {
    ($($name:literal $field:ident),*) => { vec![$(
        ($name, Refusal::WrongLength, (|w: &mut Input| { w.$field.pop(); }) as fn(&mut Input)),
        ($name, Refusal::WrongLength, |w: &mut Input| w.$field.push(Default::default())),
    )*] };
}

macro_rules! counts {
    ($limit:literal: $($name:ident),*) => { vec![$(
        (stringify!($name), Refusal::CountAboveLimit, (|w: &mut Input| w.$name = $limit + 1) as fn(&mut Input)),
        (stringify!($name), Refusal::CountAboveLimit, |w: &mut Input| w.$name = usize::MAX),
    )*] };
}

macro_rules! entries {
    ($($name:ident $count:literal),*) => { vec![$(
        (stringify!($name), Refusal::IndexOutOfRange, (|w: &mut Input| w.$name[0] = -1) as fn(&mut Input)),
        (stringify!($name), Refusal::IndexOutOfRange, |w: &mut Input| *w.$name.last_mut().unwrap() = $count),
    )*] };
}

macro_rules! indices {
    ($refusal:ident: $($name:ident $count:literal),*) => { vec![$(
        (stringify!($name), Refusal::$refusal, (|w: &mut Input| w.$name = $count) as fn(&mut Input)),
    )*] };
}

/// The tables: their counts follow from their lengths, so that a count above its limit is a longer table.
macro_rules! of_tables {
    ($limit:literal) => {
        [
            lengths!("nsym_list" nsym_list),
            entries!(p2s 8, s2pp 2, nsym_list 4, perms 8),
            vec![
                ("perms", Refusal::WrongLength, (|w: &mut Input| { w.perms.pop(); }) as fn(&mut Input)),
                ("n_patom", Refusal::CountAboveLimit, |w: &mut Input| { w.p2s = vec![0; $limit + 1]; w.n_patom = $limit + 1 }),
                ("num_trans", Refusal::CountAboveLimit, |w: &mut Input| w.perms = vec![0; 8 * ($limit + 1)]),
                ("n_satom", Refusal::CountAboveLimit, |w: &mut Input| {
                    (w.s2pp, w.nsym_list, w.perms, w.n_satom) = (vec![0; $limit + 1], vec![0; $limit + 1], vec![0; $limit + 1], $limit + 1)
                }),
            ],
        ]
        .concat()
    };
}

fn said<T: Debug, E>(result: Result<T, E>) -> Result<String, E> {
    result.map(|x| format!("{x:?}"))
}

/// The call by both ways, on the input as it is and with each change.
fn beside(
    call: &str,
    good: Input,
    changes: Vec<Vec<Change>>,
    plain: impl Fn(&mut Input) -> Result<String, Refusal>,
    layer: impl Fn(&mut Input) -> Result<String, Refused>,
) {
    let (mut one, mut other) = (good.clone(), good.clone());
    assert_eq!(plain(&mut one), Ok(layer(&mut other).unwrap()), "{call}");
    assert_eq!(format!("{one:?}"), format!("{other:?}"), "{call}");
    for (name, refusal, change) in changes.concat() {
        let mut before = good.clone();
        change(&mut before);
        let (mut one, mut other) = (before.clone(), before.clone());
        let refused = layer(&mut other).unwrap_err();
        assert_eq!(plain(&mut one), Err(refusal), "{call}, {name}");
        assert_eq!((refused.refusal, one == before, other == before), (refusal, true, true), "{call}, {name}");
        assert!(refused.call == call || refused.call == "Tables::new", "{call}, {name}: {refused}");
        let named = match refused.argument {
            Some(Argument::Count { name, value, limit, .. }) if value > limit => name,
            Some(Argument::Length { name, length, stated, .. }) if length != stated => name,
            Some(Argument::Entry { name, value, count, .. }) if value < 0 || value as usize >= count => name,
            Some(Argument::Index { name, value, count, .. }) if value >= count => name,
            _ => panic!("{call}, {name}: {refused}"),
        };
        assert_eq!(named, name, "{call}: {refused}");
        assert!(
            refused.to_string().starts_with(&format!("{}: refusal {}, {refusal} ({name}: ", refused.call, refusal.number())),
            "{refused}"
        );
    }
}

/// A call of a compact set that is changed: plain(set, .. tables, done, counts ..), and by the tables.
macro_rules! compact {
    ($module:ident::$with:ident, $name:ident($($more:expr),*), $set:literal $set_len:expr, $done_len:expr, $limit:literal, $($changes:expr),*) => {
        beside(
            stringify!($name),
            input($set_len, 0, $done_len),
            vec![lengths!($set set, "done" done), of_tables!($limit), $($changes),*],
            |w| {
                let (v, num_trans) = (w.clone(), w.perms.len() / w.s2pp.len());
                said($module::$with(&mut w.set, &v.p2s, &v.s2pp, &v.nsym_list, &v.perms, &mut w.done, v.n_satom, v.n_patom, num_trans $(, take(&v, $more))*))
            },
            |w| {
                let v = w.clone();
                said(tables::$name(&mut w.set, &v.tables()?, &mut w.done $(, take(&v, $more))*))
            },
        )
    };
}

/// A call that only reads a compact set.
macro_rules! reading {
    ($module:ident::$name:ident, $set_len:expr, $limit:literal) => {
        beside(
            stringify!($name),
            input($set_len, 0, 0),
            vec![lengths!("fc" set), of_tables!($limit)],
            |w| said($module::$name(&w.set, &w.p2s, &w.s2pp, &w.nsym_list, &w.perms, w.n_satom, w.n_patom)),
            |w| said(tables::$name(&w.set, &w.tables()?)),
        )
    };
}

/// `compact_to_full`.
macro_rules! read_out {
    ($module:ident::$name:ident, $set:literal $set_len:expr, $full_len:expr, $limit:literal) => {
        beside(
            stringify!($name),
            input($set_len, $full_len, 0),
            vec![lengths!($set set, "full" full), of_tables!($limit)],
            |w| said($module::$name(&mut w.full, &w.set, &w.p2s, &w.s2pp, &w.nsym_list, &w.perms, w.n_satom, w.n_patom)),
            |w| {
                let v = w.clone();
                said(tables::$name(&mut w.full, &v.set, &v.tables()?))
            },
        )
    };
}

/// An argument by the input.
fn take<T>(w: &Input, of: impl Fn(&Input) -> T) -> T {
    of(w)
}

const C2: usize = 2 * 8 * 9;
const C3: usize = 2 * 8 * 8 * 27;
const C4: usize = 2 * 8 * 8 * 8 * 81;

#[test]
fn compact_sets() {
    compact!(fc2::perm_trans_symmetrize_compact_fc_with, perm_trans_symmetrize_compact_fc(|w| w.level), "fc" C2, 16, 1024, counts!(1000: level));
    compact!(fc2::set_index_permutation_symmetry_compact_fc_with, set_index_permutation_symmetry_compact_fc(|_| true), "fc" C2, 16, 1024,);
    compact!(fc2::true_transpose_compact_fc2_with, true_transpose_compact_fc2(), "fc" C2, 16, 1024,);
    compact!(fc3::set_permutation_symmetry_compact_fc3_with, set_permutation_symmetry_compact_fc3(), "fc3" C3, 128, 256,);
    compact!(fc3::transpose_compact_fc3_with, transpose_compact_fc3(|_| 1), "fc3" C3, 16, 256,);
    compact!(fc3::true_transpose_compact_fc3_with, true_transpose_compact_fc3(|_| 1), "fc3" C3, 16, 256,);
    compact!(fc4::set_permutation_symmetry_compact_fc4_with, set_permutation_symmetry_compact_fc4(), "fc4" C4, 1024, 64,);
    compact!(fc4::transpose_compact_fc4_with, transpose_compact_fc4(|_| 0), "fc4" C4, 16, 64,);
    compact!(fc4::true_transpose_compact_fc4_with, true_transpose_compact_fc4(|_| 0), "fc4" C4, 16, 64,);
    macro_rules! without_drift {
        ($module:ident::$name:ident, $layer:ident, $what:literal $len:expr, $done:expr, $drift:expr, $limit:literal) => {
            beside(
                stringify!($layer),
                Input { drift: vec![7.0; $drift], ..input($len, 0, $done) },
                vec![lengths!($what set, "done" done, "drift" drift), of_tables!($limit), counts!(1000: level)],
                |w| {
                    let (v, num_trans) = (w.clone(), w.perms.len() / w.s2pp.len());
                    let (set, done, drift) = (&mut w.set, &mut w.done, &mut w.drift);
                    said($module::$name(
                        set, &v.p2s, &v.s2pp, &v.nsym_list, &v.perms, done, drift, v.n_satom, v.n_patom, num_trans, v.level,
                    ))
                },
                |w| {
                    let v = w.clone();
                    said(tables::$layer(&mut w.set, &v.tables()?, &mut w.done, &mut w.drift, v.level))
                },
            )
        };
    }
    without_drift!(fc3::perm_trans_symmetrize_compact_fc3_with, perm_trans_symmetrize_compact_fc3, "fc3" C3, 128, 16 * 27, 256);
    without_drift!(fc4::perm_trans_symmetrize_compact_fc4_with, perm_trans_symmetrize_compact_fc4, "fc4" C4, 1024, 128 * 81, 64);
    compact!(fc4::swap_pairs_compact_fc4_with, swap_pairs_compact_fc4(|w| w.leg_a, |w| w.leg_b), "fc4" C4, 16, 64, indices!(IndexOutOfRange: leg_a 4, leg_b 4));
}

#[test]
fn compact_sets_that_are_read() {
    reading!(fc2::drift_report_compact_fc2, C2, 1024);
    reading!(audit::audit_compact_fc2, C2, 1024);
    reading!(audit::audit_compact_fc3, C3, 256);
    reading!(audit::audit_compact_fc4, C4, 64);
    reading!(report::difference_report_compact_fc2, C2, 1024);
    reading!(report::difference_report_compact_fc3, C3, 256);
    reading!(report::difference_report_compact_fc4, C4, 64);
    reading!(report::drift_report_compact_fc3, C3, 256);
    reading!(report::drift_report_compact_fc4, C4, 64);
    read_out!(fc2::compact_to_full_fc2, "fc2" C2, 8 * 8 * 9, 1024);
    read_out!(fc3::compact_to_full_fc3, "fc3" C3, 8 * 8 * 8 * 27, 256);
    read_out!(fc4::compact_to_full_fc4, "fc4" C4, 8 * 8 * 8 * 8 * 81, 64);
    beside(
        "check_shift_tables",
        input(0, 0, 0),
        vec![of_tables!(1024)],
        |w| said(tables::check_shift_tables(&w.p2s, &w.s2pp, &w.nsym_list, &w.perms, w.n_satom, w.n_patom, w.perms.len() / w.s2pp.len())),
        |w| said(w.tables()?.check()),
    );
}

#[test]
fn full_sets() {
    macro_rules! whole {
        ($module:ident::$name:ident(&mut $set:ident, $count:ident), $what:literal $len:expr, $limit:literal) => {
            beside(
                stringify!($name),
                input(0, $len, 0),
                vec![lengths!($what full), counts!($limit: $count)],
                |w| said($module::$name(&mut w.full, w.$count)),
                |w| said(tables::$name(&mut w.full, w.$count)),
            )
        };
        ($module:ident::$name:ident(&$set:ident, $count:ident), $what:literal $len:expr, $limit:literal) => {
            beside(
                stringify!($name),
                input(0, $len, 0),
                vec![lengths!($what full), counts!($limit: $count)],
                |w| said($module::$name(&w.full, w.$count)),
                |w| said(tables::$name(&w.full, w.$count)),
            )
        };
    }
    whole!(fc3::set_permutation_symmetry_fc3(&mut full, num_atom), "fc3" 64 * 27, 256);
    whole!(fc2::drift_report(&full, n_satom), "fc" 576, 1024);
    whole!(fc3::drift_report_fc3(&full, num_atom), "fc" 64 * 27, 256);
    whole!(audit::audit_fc2(&full, num_atom), "fc" 144, 1024);
    whole!(audit::audit_fc3(&full, num_atom), "fc" 64 * 27, 256);
    whole!(audit::audit_fc4(&full, num_atom), "fc" 256 * 81, 64);
    whole!(report::difference_report_fc2(&full, num_atom), "fc" 144, 1024);
    whole!(report::difference_report_fc3(&full, num_atom), "fc" 64 * 27, 256);
    whole!(report::difference_report_fc4(&full, num_atom), "fc" 256 * 81, 64);
    whole!(report::drift_report_fc4(&full, num_atom), "fc" 256 * 81, 64);
    beside(
        "perm_trans_symmetrize_fc",
        input(0, 576, 0),
        vec![lengths!("fc" full), counts!(1024: n_satom), counts!(1000: level)],
        |w| said(fc2::perm_trans_symmetrize_fc(&mut w.full, w.n_satom, w.level)),
        |w| said(tables::perm_trans_symmetrize_fc(&mut w.full, w.n_satom, w.level)),
    );
    beside(
        "perm_trans_symmetrize_fc3",
        Input { drift: vec![7.0; 16 * 27], ..input(0, 64 * 27, 0) },
        vec![lengths!("fc3" full, "drift" drift), counts!(256: num_atom), counts!(1000: level)],
        |w| said(fc3::perm_trans_symmetrize_fc3_with(&mut w.full, &mut w.drift, w.num_atom, w.level)),
        |w| said(tables::perm_trans_symmetrize_fc3(&mut w.full, &mut w.drift, w.num_atom, w.level)),
    );
    beside(
        "perm_trans_symmetrize_fc4",
        Input { drift: vec![7.0; 64 * 81], ..input(0, 256 * 81, 256) },
        vec![lengths!("fc4" full, "done" done, "drift" drift), counts!(64: num_atom), counts!(1000: level)],
        |w| said(fc4::perm_trans_symmetrize_fc4_with(&mut w.full, &mut w.done, &mut w.drift, w.num_atom, w.level)),
        |w| said(tables::perm_trans_symmetrize_fc4(&mut w.full, &mut w.done, &mut w.drift, w.num_atom, w.level)),
    );
    beside(
        "set_permutation_symmetry_fc4",
        input(0, 256 * 81, 256),
        vec![lengths!("fc4" full, "done" done), counts!(64: num_atom)],
        |w| said(fc4::set_permutation_symmetry_fc4_with(&mut w.full, &mut w.done, w.num_atom)),
        |w| said(tables::set_permutation_symmetry_fc4(&mut w.full, &mut w.done, w.num_atom)),
    );
    beside(
        "row_sums_fc2",
        input(0, 576, 0),
        vec![lengths!("sums" sums, "fc" full), counts!(1024: n_satom)],
        |w| said(fc2::row_sums_fc2(&mut w.sums, &w.full, w.n_satom)),
        |w| said(tables::row_sums_fc2(&mut w.sums, &w.full, w.n_satom)),
    );
    beside(
        "replace_block_fc2",
        input(0, 576, 0),
        vec![lengths!("fc" full, "sums" sums), counts!(1024: n_satom), indices!(IndexOutOfRange: i 8, j 8)],
        |w| said(fc2::replace_block_fc2(&mut w.full, &mut w.sums, [0.5; 9], w.i, w.j, w.n_satom)),
        |w| said(tables::replace_block_fc2(&mut w.full, &mut w.sums, [0.5; 9], w.i, w.j, w.n_satom)),
    );
    beside(
        "same_set",
        input(30, 0, 0),
        vec![lengths!("b" other)],
        |w| said(audit::same_set(&w.set, &w.other)),
        |w| said(tables::same_set(&w.set, &w.other)),
    );
    beside(
        "set_difference",
        input(30, 0, 0),
        vec![lengths!("b" other)],
        |w| said(report::set_difference(&w.set, &w.other)),
        |w| said(tables::set_difference(&w.set, &w.other)),
    );
}

/// The crystal's operations: their number follows from the length of the matrices.
#[test]
fn crystal_operations() {
    macro_rules! of_operations {
        ($atoms:literal) => {
            vec![
                ("num_rot", Refusal::CountAboveLimit, (|w: &mut Input| w.r_carts = vec![0.0; 9 * 1025]) as fn(&mut Input)),
                ("operations", Refusal::IndexOutOfRange, |w: &mut Input| w.permutations[0] = -1),
                ("operations", Refusal::IndexOutOfRange, |w: &mut Input| w.permutations[2 * $atoms - 1] = $atoms),
            ]
        };
    }
    macro_rules! compact_crystal {
        ($name:ident, $len:expr, $limit:literal) => {{
            let mut good = input($len, 0, 0);
            good.permutations = good.perms[..16].to_vec();
            beside(
                stringify!($name),
                good,
                vec![lengths!("fc" set, "r_carts" r_carts, "operations" permutations), of_tables!($limit), of_operations!(8)],
                |w| said(report::$name(&w.set, &w.p2s, &w.s2pp, &w.nsym_list, &w.perms, &w.r_carts, &w.permutations, w.n_satom, w.n_patom)),
                |w| said(tables::$name(&w.set, &w.tables()?, &w.r_carts, &w.permutations)),
            )
        }};
    }
    macro_rules! full_crystal {
        ($name:ident, $len:expr, $limit:literal) => {{
            let mut good = input(0, $len, 0);
            good.permutations = vec![0, 1, 2, 3, 1, 2, 3, 0];
            beside(
                stringify!($name),
                good,
                vec![lengths!("fc" full, "r_carts" r_carts, "operations" permutations), counts!($limit: num_atom), of_operations!(4)],
                |w| said(report::$name(&w.full, &w.r_carts, &w.permutations, w.num_atom)),
                |w| said(tables::$name(&w.full, &w.r_carts, &w.permutations, w.num_atom)),
            )
        }};
    }
    compact_crystal!(crystal_report_compact_fc2, C2, 1024);
    compact_crystal!(crystal_report_compact_fc3, C3, 256);
    compact_crystal!(crystal_report_compact_fc4, C4, 64);
    full_crystal!(crystal_report_fc2, 144, 1024);
    full_crystal!(crystal_report_fc3, 64 * 27, 256);
    full_crystal!(crystal_report_fc4, 256 * 81, 64);
}

#[test]
fn distributed_and_displaced() {
    beside(
        "distribute_fc2",
        input(3 * 5 * 9, 0, 0),
        vec![
            lengths!("fc2" set, "fc_indices_of_atom_list" fc_indices_of_atom_list, "r_carts" r_carts, "permutations" permutations,
                     "map_atoms" map_atoms, "map_syms" map_syms, "atom_list_reverse" atom_list_reverse),
            counts!(1024: num_pos, num_first, num_rot),
            entries!(atom_list 5, fc_indices_of_atom_list 3, permutations 5, map_atoms 5, map_syms 2),
            vec![("atom_list.len()", Refusal::CountAboveLimit, |w: &mut Input| w.atom_list = vec![0; 1025])],
        ],
        |w| {
            let v = w.clone();
            let Listed { atom_list, fc_indices_of_atom_list, r_carts, permutations, map_atoms, map_syms, num_pos, num_first, num_rot } =
                v.listed();
            let (set, work) = (&mut w.set, &mut w.atom_list_reverse);
            said(fc2::distribute_fc2_with(
                set,
                atom_list,
                fc_indices_of_atom_list,
                r_carts,
                permutations,
                map_atoms,
                map_syms,
                work,
                num_pos,
                num_first,
                num_rot,
            ))
        },
        |w| {
            let v = w.clone();
            said(tables::distribute_fc2(&mut w.set, &v.listed(), &mut w.atom_list_reverse))
        },
    );
    macro_rules! slabs {
        ($module:ident::$with:ident, $name:ident, $set:literal $len:expr, $limit:literal) => {
            beside(
                stringify!($name),
                input($len, 0, 0),
                vec![
                    lengths!($set set, "atom_mapping" atom_mapping, "rot_cart" rot_cart),
                    counts!($limit: num_atom, num_first),
                    entries!(atom_mapping 4),
                    indices!(BadSlab: target 3, source 3),
                ],
                |w| said($module::$with(&mut w.set, w.target, w.source, &w.atom_mapping, w.num_atom, &w.rot_cart, w.num_first)),
                |w| said(tables::$name(&mut w.set, w.target, w.source, &w.atom_mapping, w.num_atom, &w.rot_cart, w.num_first)),
            )
        };
    }
    slabs!(fc3::distribute_fc3_with, distribute_fc3, "fc3" 3 * 16 * 27, 256);
    slabs!(fc4::distribute_fc4_with, distribute_fc4, "fc4" 3 * 64 * 81, 64);
    macro_rules! deltas {
        ($module:ident::$with:ident, $name:ident, $set:literal $len:expr, $deltas:literal $deltas_len:expr, $width:literal, $limit:literal) => {{
            let mut good = input($len, 0, 0);
            (good.deltas, good.rot_delta) = (numbers($deltas_len), numbers(4 * 5 * $width));
            beside(
                stringify!($name),
                good,
                vec![
                    lengths!($set set, $deltas deltas, "inv_u" inv_u, "site_sym_cart" site_sym_cart, "rot_map_syms" rot_map_syms, "rot_delta" rot_delta),
                    counts!($limit: num_atom),
                    counts!(1024: num_site_sym, num_disp),
                    entries!(rot_map_syms 4),
                ],
                |w| {
                    let v = w.clone();
                    let Displaced { deltas, inv_u, site_sym_cart, rot_map_syms, num_atom, num_site_sym, num_disp } = v.displaced();
                    let (set, work) = (&mut w.set, &mut w.rot_delta);
                    said($module::$with(set, deltas, inv_u, site_sym_cart, rot_map_syms, work, num_atom, num_site_sym, num_disp))
                },
                |w| {
                    let v = w.clone();
                    said(tables::$name(&mut w.set, &v.displaced(), &mut w.rot_delta))
                },
            )
        }};
    }
    deltas!(fc3::rotate_delta_fc2s_with, rotate_delta_fc2s, "fc3" 16 * 27, "delta_fc2s" 4 * 16 * 9, 9, 256);
    deltas!(fc4::rotate_delta_fc3s_with, rotate_delta_fc3s, "fc4" 64 * 81, "delta_fc3s" 4 * 64 * 27, 27, 64);
}

#[test]
fn matching() {
    let positions = || vec![lengths!("rot_atom" rot_atom, "pos" pos, "rot_pos" rot_pos), counts!(1024: num_pos)];
    beside(
        "compute_permutation",
        input(0, 0, 0),
        positions(),
        |w| match cells::compute_permutation_in(&mut w.rot_atom, &CELL.lattice, CELL.periodic, &w.pos, &w.rot_pos, w.num_pos, CELL.symprec)
        {
            Err(MatchError::Refused(refusal)) => Err(refusal),
            other => said(Ok(other == Ok(true))),
        },
        |w| said(tables::compute_permutation(&mut w.rot_atom, &CELL, &w.pos, &w.rot_pos, w.num_pos).map(|m| m == Match::Found)),
    );
    beside(
        "find_permutation",
        input(0, 0, 0),
        [positions(), vec![lengths!("marks" marks)]].concat(),
        |w| {
            said(cells::find_permutation(
                &mut w.rot_atom,
                &mut w.marks,
                &CELL.lattice,
                CELL.periodic,
                &w.pos,
                &w.rot_pos,
                w.num_pos,
                CELL.symprec,
            ))
        },
        |w| said(tables::find_permutation(&mut w.rot_atom, &mut w.marks, &CELL, &w.pos, &w.rot_pos, w.num_pos)),
    );
    let mut w = input(0, 0, 0);
    (w.pos[3], w.rot_pos[2]) = (0.3, f64::NAN);
    let found = tables::compute_permutation(&mut w.rot_atom, &CELL, &w.pos, &w.rot_pos, 5);
    assert!(matches!(found, Ok(Match::NoNumber { position: 0, slot: 0, .. })));
    w.rot_pos[2] = 0.5;
    assert_eq!(tables::compute_permutation(&mut w.rot_atom, &CELL, &w.pos, &w.rot_pos, 5), Ok(Match::NotFound));
}

#[test]
fn other_refusals() {
    let mut w = input(C3, 576, 16);
    w.nsym_list[1] = 0;
    let tables = w.tables().unwrap();
    assert_eq!((tables.n_satom(), tables.n_patom(), tables.num_trans()), (8, 2, 4));
    let refused = tables.check().unwrap_err();
    assert_eq!(refused.refusal, Refusal::BadShiftTables);
    assert_eq!(
        refused.to_string(),
        "check_shift_tables: refusal 6, the shift tables break a rule (nsym_list: entry 1 is 0, which sends atom 1 to 1, not to 0)"
    );
    w.map_atoms[0] = 4;
    let refused = tables::distribute_fc2(&mut vec![0.0; 135], &w.listed(), &mut [0; 5]).unwrap_err();
    assert_eq!((refused.refusal, refused.argument), (Refusal::BadRepresentative, None));
    let refused = tables::replace_block_fc2(&mut w.full, &mut w.sums, [0.1; 9], 0, 0, 8).unwrap_err();
    assert_eq!((refused.refusal, refused.argument), (Refusal::OffGrid, None));
    let refused = tables::distribute_fc3(&mut vec![0.0; 54], 1, 1, &[0], 1, &w.rot_cart, 2).unwrap_err();
    assert_eq!((refused.refusal, refused.argument), (Refusal::BadSlab, None));
    assert!(Tables::new(&[], &[], &[], &[0]).is_err() && Tables::new(&[], &[], &[], &[]).is_ok());
}

/// Each rule by its number, its place and its words, which are those of the layer for C.
#[test]
fn rules_that_are_broken() {
    let circle = [0, 1, 2, 1, 2, 0, 2, 0, 1];
    let pairs = [0, 1, 2, 3, 1, 0, 3, 2];
    let broken: [(&[i64], &[i64], &[i64], &[i64], [usize; 3], &str); 8] = [
        (&[0], &[0; 3], &[0, 1, 1], &circle[..6], [0, 0, 0], "perms: 2 rows: n_satom 3 is not n_patom 1 x num_trans 2"),
        (&[0], &[0; 3], &[0, 2, 1], &[0, 1, 2, 1, 1, 0, 2, 0, 1], [1, 0, 1], "perms: row 1 sends atoms 0 and 1 to the same place"),
        (&[0], &[0; 3], &[0, 1, 2], &[1, 2, 0, 2, 0, 1, 1, 2, 0], [0, 0, 0], "perms: no row sends each atom to itself (the null shift)"),
        (&[0], &[0; 3], &[0, 1, 2], &[0, 1, 2, 1, 0, 2, 2, 1, 0], [1, 2, 0], "perms: row 1 and then row 2 is no row: a shift is missing"),
        (&[0], &[0; 2], &[0, 1], &[0, 1, 0, 1], [0, 1, 0], "perms: rows 0 and 1 both send atom 0 to atom 0"),
        (&[0, 2], &[1, 1, 0, 0], &[0, 1, 0, 1], &pairs, [0, 0, 0], "s2pp: entry 0 is 1, and p2s[0] is 0"),
        (&[0, 2], &[0, 1, 1, 1], &[0, 1, 0, 1], &pairs, [1, 0, 0], "s2pp: it is 0 for atom 0 and 1 for atom 1, where row 1 sends it"),
        (&[0], &[0; 3], &[0, 1, 2], &circle, [1, 0, 0], "nsym_list: entry 1 is 1, which sends atom 1 to 2, not to 0"),
    ];
    for (which, (p2s, s2pp, nsym_list, perms, place, text)) in broken.into_iter().enumerate() {
        let tables = Tables::new(p2s, s2pp, nsym_list, perms).unwrap();
        let e = tables.explain();
        assert_eq!((e.answer, e.which, e.place), (Err(Refusal::BadShiftTables), which, place));
        assert_eq!(tables.check().unwrap_err().argument.unwrap().to_string(), text);
    }
    let e = tables::explain_shift_tables(&[0], &[0; 3], &[0, 2, 1], &circle, 3, 1, 3);
    assert_eq!((e.answer, e.which, e.place), (Ok(()), 0, [0; 3]));
    let e = tables::explain_shift_tables(&[0], &[0; 3], &[0, -1, 1], &circle, 3, 1, 3);
    assert_eq!((e.answer, e.which, e.place), (Err(Refusal::IndexOutOfRange), 3, [1, 0, 0]));
    let e = tables::explain_shift_tables(&[0], &[0; 3], &[0, 2, 1], &circle, 3, 1, 4);
    assert_eq!((e.answer, e.which, e.place), (Err(Refusal::WrongLength), 0, [0; 3]));
    let e = tables::explain_shift_tables(&[0], &[0; 3], &[0, 2, 1], &circle, usize::MAX, usize::MAX, usize::MAX);
    assert_eq!((e.answer, e.which, e.place), (Err(Refusal::CountAboveLimit), 0, [0; 3]));
}

/// A C name that is added has to come here too, and to be tried.
#[test]
fn every_call_is_here() {
    let (names, functions, tried) = (include_str!("../src/ffi.rs"), include_str!("../src/tables.rs"), include_str!("tables.rs"));
    let mut seen = 0;
    for name in names.split("pub fn gf_").skip(1).map(|rest| &rest[..rest.find('(').unwrap()]) {
        if name.contains("roll") || ["version", "words", "nint", "round", "sqrt", "stands_now", "retire_all"].contains(&name) {
            continue; // no count and no length of theirs is refused
        }
        assert!(functions.contains(&format!("pub fn {name}(")), "src/tables.rs has no {name}");
        assert!(
            [format!("::{name}("), format!("::{name},"), format!(", {name}("), format!(", {name},"), format!("_crystal!({name},")]
                .iter()
                .any(|n| tried.contains(n)),
            "{name} is not tried"
        );
        seen += 1;
    }
    assert!(seen >= 36);
}
