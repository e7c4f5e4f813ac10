//! Recorded answers of the original's compute_permutation.
use crate::call::{refusal, Call as _};
use crate::call_matching::{Matching, EVERYWHERE, FALSE, NO_NUMBER as WITH_A_PAIR};
use crate::record::{byte_word, counted, float_word, report, Record, Replay};
use crate::rng::Rng;
use crate::values::integer_sum;

/// What the slots, and the two of the pair, hold before each call.
const BEFORE: i64 = 7;

#[derive(Clone)]
struct Call {
    num_pos: usize,
    lattice: [f64; 9],
    symprec: f64,
    periodic: [u8; 3],
    slots: usize,
    pos: Vec<f64>,
    rot_pos: Vec<f64>,
}

impl Call {
    fn new(lattice: [f64; 9], symprec: f64, pos: Vec<f64>, rot_pos: Vec<f64>) -> Call {
        Call { num_pos: pos.len() / 3, lattice, symprec, periodic: EVERYWHERE, slots: pos.len() / 3, pos, rot_pos }
    }

    /// The call with all that it is lent.
    fn lent(&self) -> Matching {
        Matching {
            slots: vec![BEFORE; self.slots],
            lattice: self.lattice.to_vec(),
            symprec: self.symprec,
            periodic: self.periodic.to_vec(),
            pos: self.pos.clone(),
            rot_pos: self.rot_pos.clone(),
            pair: vec![BEFORE; 2],
            num_pos: self.num_pos,
        }
    }
}

/// The answer, and what the call leaves.
fn answered(before: &Matching) -> (u8, Matching) {
    let mut after = before.clone();
    let refused = refusal(&mut after);
    (if refused == 0 { after.original() } else { refused }, after)
}

/// The words of a record: how many follow; the answer; the sums of the slots and of the pair after the call, all of which held 7 before it; num_pos;
/// lengths of slots, pos, rot_pos, lattice, flags and pair; the flags of the axes as bytes; symprec; lattice; pos; rot_pos.
fn record(before: &Matching) -> Record {
    let (answer, after) = answered(before);
    let mut words = vec![answer as u64, integer_sum(&after.slots), integer_sum(&after.pair), before.num_pos as u64];
    let floats = [&before.lattice, &before.pos, &before.rot_pos];
    let lengths = [before.slots.len(), before.pos.len(), before.rot_pos.len(), before.lattice.len(), before.periodic.len(), before.pair.len()];
    words.extend(lengths.map(|n| n as u64));
    words.extend([byte_word(&before.periodic), float_word(before.symprec)]);
    words.extend(floats.into_iter().flatten().map(|x| float_word(*x)));
    counted(words)
}

const UNIT: [f64; 9] = [1.0, 0.0, 0.0, 0.0, 1.0, 0.0, 0.0, 0.0, 1.0];
pub const SKEW: [f64; 9] = [5.1, -0.3, 0.2, 1.7, 4.4, 0.1, -0.9, 0.6, 7.3];
const FLAT: [f64; 9] = [1.0, 2.0, 0.0, 2.0, 4.0, 0.0, 0.0, 0.0, 0.0];
const NOTHING: [f64; 9] = [0.0; 9];
const INFINITE: [f64; 9] = [f64::INFINITY, 0.0, 0.0, 0.0, 1.0, 0.0, 0.0, 0.0, 1.0];
const HUGE: [f64; 9] = [1e300, 0.0, 0.0, 0.0, -1e300, 0.0, 0.0, 0.0, 1e-300];
const NO_NUMBER: [f64; 9] = [1.0, 0.0, 0.0, 0.0, f64::NAN, 0.0, 0.0, 0.0, 1.0];
pub const LATTICES: [[f64; 9]; 7] = [UNIT, SKEW, FLAT, NOTHING, INFINITE, HUGE, NO_NUMBER];

/// Tolerances of every kind; the last three are those that matchings use.
pub const TOLERANCES: [f64; 12] = [
    0.0,
    -0.0,
    -1.0,
    f64::NEG_INFINITY,
    f64::INFINITY,
    f64::NAN,
    5e-324,
    1e-200,
    f64::MAX,
    1e-12,
    1e-5,
    0.25,
];

fn positions(r: &mut Rng, n: usize) -> Vec<f64> {
    (0..3 * n).map(|_| r.unit()).collect()
}

/// The positions in another order, each moved by a whole number of cells.
fn permuted(r: &mut Rng, pos: &[f64], order: &[usize]) -> Vec<f64> {
    let mut moved = vec![];
    for a in order {
        for k in 0..3 {
            moved.push(pos[a * 3 + k] + (r.below(7) as f64 - 3.0));
        }
    }
    moved
}

/// What becomes of the positions that are matched against.
#[derive(Clone, Copy)]
pub enum Kind {
    Same,
    Near,
    Permuted,
    Distorted,
    Incomplete,
    Crowded,
    NoNumber,
    Infinite,
    Huge,
    Opposite,
}

pub const KINDS: [Kind; 10] = [
    Kind::Same,
    Kind::Near,
    Kind::Permuted,
    Kind::Distorted,
    Kind::Incomplete,
    Kind::Crowded,
    Kind::NoNumber,
    Kind::Infinite,
    Kind::Huge,
    Kind::Opposite,
];

/// Positions and what they are matched against.
pub fn pair(r: &mut Rng, kind: Kind, n: usize) -> (Vec<f64>, Vec<f64>) {
    let mut pos = positions(r, n);
    let mut order: Vec<usize> = (0..n).collect();
    match kind {
        Kind::Same | Kind::Huge => {}
        // a few neighbours exchanged
        Kind::Near => order.chunks_mut(5).for_each(|c| c.reverse()),
        _ => order = r.order(n),
    }
    let mut rot = match kind {
        Kind::Same => pos.clone(),
        _ => permuted(r, &pos, &order),
    };
    let last = 3 * n;
    match kind {
        Kind::Distorted => rot.iter_mut().for_each(|x| *x += (r.unit() - 0.5) * 3e-5),
        Kind::Incomplete if n > 0 => rot[r.below(last)] += 0.4,
        // several atoms in one place: the lowest free slot takes the first
        Kind::Crowded => {
            pos.iter_mut().for_each(|x| *x = (*x * 2.0).round() / 4.0);
            rot = permuted(r, &pos, &order);
        }
        // one to three, among the positions and the slots
        Kind::NoNumber if n > 0 => {
            for _ in 0..=r.below(3) {
                let of = if r.below(2) == 0 { &mut pos } else { &mut rot };
                of[r.below(last)] = f64::NAN;
            }
        }
        Kind::Infinite if n > 0 => pos[r.below(last)] = f64::INFINITY,
        Kind::Huge => {
            // whole numbers so large that nothing is left of a fraction
            for (k, x) in pos.iter_mut().enumerate() {
                *x = [1e15, -4.5e15, 2f64.powi(64), -1e300][k % 4] * (1.0 + *x);
            }
            rot = pos.clone();
            rot.iter_mut().step_by(3).for_each(|x| *x = -*x);
        }
        // the difference of two of opposite sign is infinite, and less its rounding NaN: a match may still be complete
        Kind::Opposite => {
            for a in 0..n {
                pos[a * 3] = f64::MAX * if r.below(2) == 0 { 1.0 } else { -1.0 };
            }
            rot = order.iter().flat_map(|a| pos[a * 3..a * 3 + 3].to_vec()).collect();
        }
        _ => {}
    }
    (pos, rot)
}

fn matched() -> Vec<Call> {
    let mut r = Rng::new(3);
    let mut calls = vec![];
    for n in [0, 1, 2, 17] {
        for (k, kind) in KINDS.into_iter().enumerate() {
            for (t, symprec) in TOLERANCES.into_iter().enumerate() {
                // no atom: one kind is enough; 17 atoms: every ninth pairing, and the usual tolerances
                let usual = t + 3 >= TOLERANCES.len();
                if n == 0 && k > 0 || n == 17 && !(usual && t + 1 < TOLERANCES.len()) && (k + t) % 9 != 0 {
                    continue;
                }
                let (pos, rot) = pair(&mut r, kind, n);
                let lattice = if usual { [UNIT, SKEW][k % 2] } else { LATTICES[(k + t) % 7] };
                calls.push(Call::new(lattice, symprec, pos, rot));
            }
        }
        for lattice in LATTICES {
            let (pos, rot) = pair(&mut r, Kind::Permuted, n);
            calls.push(Call::new(lattice, 1e-5, pos, rot));
        }
    }
    for kind in [Kind::Same, Kind::Near, Kind::Permuted, Kind::Distorted, Kind::Incomplete, Kind::Crowded] {
        let (pos, rot) = pair(&mut r, kind, 64);
        calls.push(Call::new(SKEW, 1e-4, pos, rot));
    }
    calls
}

/// Sheets 8, 9 and 10 of document 01.
fn sheets() -> Vec<Call> {
    let origin = || vec![0.0; 3];
    vec![
        Call::new(UNIT, 1e-5, vec![], vec![]),
        Call::new(UNIT, 2f64.powi(-600), origin(), origin()),
        Call::new(UNIT, 0.0, origin(), origin()),
        Call::new(UNIT, 0.1875, vec![0.25, 0.0, 0.0, 0.0, 0.0, 0.0], vec![0.125, 0.0, 0.0, 0.375, 0.0, 0.0]),
        Call::new(UNIT, 0.125, vec![0.125, 0.0, 0.0], origin()),
        Call::new(UNIT, 0.125, vec![0.25, 0.0, 0.0], vec![0.375, 0.0, 0.0]),
    ]
}

/// Document 02, A.3, each with the pair that it is to name.
fn named() -> Vec<(Call, Option<[usize; 2]>)> {
    let at = |xs: &[f64]| xs.iter().flat_map(|x| [*x, 0.0, 0.0]).collect::<Vec<f64>>();
    let unit = |symprec, pos: &[f64], rot: &[f64]| Call::new(UNIT, symprec, at(pos), at(rot));
    let (nan, huge) = (f64::NAN, 2f64.powi(1023));
    vec![
        // the first tried, not the lowest slot, and not the last
        (unit(0.125, &[0.0, nan], &[nan, 0.0]), Some([0, 0])),
        (unit(0.125, &[0.0, nan, nan], &[0.0, 0.25, 0.375]), Some([1, 1])),
        (unit(0.125, &[0.25, nan, 0.0], &[nan, 0.25, 0.0]), Some([0, 0])),
        (unit(0.125, &[0.0, 0.25, nan], &[0.0, 0.375, nan]), Some([1, 2])),
        // slot 1 comes after the one that takes position 0: not tried with it
        (unit(0.125, &[0.0, 0.0], &[0.0, nan]), Some([1, 1])),
        (unit(0.125, &[0.0, 0.25, 0.5], &[0.0, 0.5, nan]), Some([1, 2])),
        // tolerances: NaN makes every number far, and no tolerance makes NaN one
        (unit(nan, &[0.0], &[0.0]), None),
        (unit(nan, &[0.0, 0.25], &[0.5, nan]), Some([0, 1])),
        (unit(f64::INFINITY, &[nan], &[0.0]), Some([0, 0])),
        (unit(-1.0, &[nan], &[0.0]), Some([0, 0])),
        // infinite coordinates, and an infinite distance
        (unit(0.125, &[f64::INFINITY], &[0.0]), Some([0, 0])),
        (Call::new(INFINITE, 0.1, at(&[0.5]), at(&[0.0])), None),
        (Call::new(HUGE, 0.1, at(&[0.5]), at(&[0.0])), None),
        // the first component is too long, and the root is NaN
        (Call::new(NO_NUMBER, 0.1, at(&[0.5]), at(&[0.0])), Some([0, 0])),
        // a complete match names nothing
        (unit(0.125, &[huge, -huge], &[-huge, huge]), None),
        (unit(0.125, &[huge, -huge, 0.0], &[-huge, huge, 0.25]), Some([0, 0])),
    ]
}

/// Document 02, A.9: every choice of axes, at the edge of each; and a whole cell apart, which is far without a flag.
fn slabs() -> Vec<Call> {
    let mut r = Rng::new(8);
    let mut calls = vec![];
    for flags in 0..8u8 {
        let periodic = [flags & 1, flags & 2, if flags < 4 { 0 } else { 255 }];
        for axis in 0..3 {
            let place = |x: f64| (0..3).map(|k| if k == axis { x } else { 0.0 }).collect::<Vec<f64>>();
            for (x, y) in [(0.9375, 0.0625), (0.0625, 0.9375), (0.25, 3.25), (0.25, 0.25), (0.75, 0.25), (1e300, -1e300), (f64::INFINITY, 0.0)] {
                let (pos, rot) = (place(x), place(y));
                calls.push(Call { periodic, ..Call::new(UNIT, 0.25, pos, rot) });
            }
        }
        // in an oblique cell, the slots within it along the axes without a flag
        let (pos, mut rot) = pair(&mut r, Kind::Distorted, 17);
        rot.iter_mut().enumerate().filter(|(k, _)| periodic[k % 3] == 0).for_each(|(_, x)| *x -= x.floor());
        calls.push(Call { periodic, ..Call::new(SKEW, 1e-4, pos, rot) });
        let (pos, rot) = pair(&mut r, Kind::Huge, 5);
        calls.push(Call { periodic, ..Call::new(HUGE, 1e-4, pos, rot) });
    }
    calls
}

/// Near by document 01's sentence, and by eight others that are nearly it: what is recorded has to tell them apart.
type Near = fn(&[f64; 9], [f64; 3], f64) -> bool;

fn rows(l: &[f64; 9], d: [f64; 3]) -> [f64; 3] {
    [0, 3, 6].map(|k| l[k] * d[0] + l[k + 1] * d[1] + l[k + 2] * d[2])
}

fn rounded(d: [f64; 3]) -> [f64; 3] {
    d.map(|x| x - x.round())
}

fn distance(c: [f64; 3]) -> f64 {
    (c[0] * c[0] + c[1] * c[1] + c[2] * c[2]).sqrt()
}

const RIGHT: Near = |l, d, s| distance(rows(l, rounded(d))) < s;

const WRONG: [Near; 9] = [
    // squares, and products, summed in another order
    |l, d, s| {
        let c = rows(l, rounded(d));
        distance([c[1], c[2], c[0]]) < s
    },
    |l, d, s| {
        let c = rows(l, rounded(d));
        distance([c[2], c[0], c[1]]) < s
    },
    |l, d, s| {
        let d = rounded(d);
        distance(rows(&[l[1], l[2], l[0], l[4], l[5], l[3], l[7], l[8], l[6]], [d[1], d[2], d[0]])) < s
    },
    |l, d, s| {
        let d = rounded(d);
        distance(rows(&[l[2], l[0], l[1], l[5], l[3], l[4], l[8], l[6], l[7]], [d[2], d[0], d[1]])) < s
    },
    // halves to even, and up
    |l, d, s| distance(rows(l, d.map(|x| x - x.round_ties_even()))) < s,
    |l, d, s| distance(rows(l, d.map(|x| x - (x + 0.5).floor()))) < s,
    // columns for rows
    |l, d, s| distance(rows(&[l[0], l[3], l[6], l[1], l[4], l[7], l[2], l[5], l[8]], rounded(d))) < s,
    // no root, and the limit itself
    |l, d, s| {
        let c = rows(l, rounded(d));
        c[0] * c[0] + c[1] * c[1] + c[2] * c[2] < s * s
    },
    |l, d, s| distance(rows(l, rounded(d))) <= s,
];

/// So many calls tell each of those apart from document 01's.
const TOLD: usize = 4;

/// One atom in an oblique lattice, at a distance that is next to the tolerance; differences are halves of whole numbers for the most part.
fn next_to_it(r: &mut Rng) -> Call {
    let lattice = std::array::from_fn(|k| if k % 4 == 0 { 3.0 + 4.0 * r.unit() } else { 4.0 * r.unit() - 2.0 });
    let rot: Vec<f64> = (0..3).map(|_| r.below(64) as f64 / 64.0).collect();
    let difference = |r: &mut Rng| if r.below(3) > 0 { r.below(7) as f64 - 3.5 } else { r.unit() };
    let pos: Vec<f64> = rot.iter().map(|x| x + difference(r)).collect();
    let d = std::array::from_fn(|k| pos[k] - rot[k]);
    let exact = distance(rows(&lattice, rounded(d)));
    let symprec = [exact, exact.next_up(), exact.next_down()][r.below(3)];
    Call::new(lattice, symprec, pos, rot)
}

fn tells(call: &Call, wrong: Near) -> bool {
    let d = std::array::from_fn(|k| call.pos[k] - call.rot_pos[k]);
    wrong(&call.lattice, d, call.symprec) != RIGHT(&call.lattice, d, call.symprec)
}

fn told_apart() -> Vec<Call> {
    let mut r = Rng::new(5);
    let mut calls: Vec<Call> = vec![];
    while WRONG.iter().any(|wrong| calls.iter().filter(|call| tells(call, *wrong)).count() < TOLD) {
        let call = next_to_it(&mut r);
        let new = |wrong: &&Near| tells(&call, **wrong) && calls.iter().filter(|call| tells(call, **wrong)).count() < TOLD;
        if WRONG.iter().any(|wrong| new(&wrong)) {
            calls.push(call);
        }
    }
    calls
}

fn refused() -> Vec<Matching> {
    let mut r = Rng::new(4);
    let (pos, rot) = pair(&mut r, Kind::Permuted, 2);
    let base = Call::new(SKEW, 1e-5, pos, rot).lent();
    let mut calls: Vec<Matching> = [0, 1, 3, 1024, 1025, usize::MAX / 2, usize::MAX].map(|num_pos| Matching { num_pos, ..base.clone() }).to_vec();
    for length in [0, 1, 3] {
        calls.push(Matching { slots: vec![BEFORE; length], ..base.clone() });
    }
    for length in [0, 5, 7] {
        calls.push(Matching { pos: vec![0.5; length], ..base.clone() });
        calls.push(Matching { rot_pos: vec![0.5; length], ..base.clone() });
    }
    // with as many positions as there are, with as many as there may be, and with one more
    for num_pos in [2, 1024, 1025] {
        for length in [0, 8, 10] {
            calls.push(Matching { lattice: vec![1.0; length], num_pos, ..base.clone() });
        }
        for length in [0, 2, 4] {
            calls.push(Matching { periodic: vec![1; length], num_pos, ..base.clone() });
        }
        for length in [0, 1, 3] {
            calls.push(Matching { pair: vec![BEFORE; length], num_pos, ..base.clone() });
        }
    }
    calls
}

pub fn replay() -> Replay {
    let mut calls = sheets();
    calls.extend(matched());
    calls.extend(named().into_iter().map(|(call, _)| call));
    calls.extend(told_apart());
    calls.extend(slabs());
    let calls = calls.iter().map(Call::lent).chain(refused());
    let records: Vec<Record> = calls.map(|call| record(&call)).collect();
    let so_many = |answer: u8| records.iter().filter(|r| r[1] == answer as u64).count();
    let stdout = report("matching", &records, 1) + &format!("false: {}\nfalse, with a pair: {}\n", so_many(FALSE), so_many(WITH_A_PAIR));
    Replay::new(records, stdout, 4)
}

#[cfg(test)]
mod tests {
    use super::*;

    // refusal, answer, slots
    fn answer(call: &Call) -> (u8, bool, Vec<i64>) {
        let (number, after) = answered(&call.lent());
        (if number < FALSE { number } else { 0 }, number == 0, after.slots)
    }

    #[test]
    fn sheets_of_document_01() {
        let answers: Vec<_> = sheets().iter().map(answer).collect();
        assert_eq!(answers[0], (0, true, vec![]));
        assert_eq!(answers[1], (0, true, vec![0]));
        assert_eq!(answers[2], (0, false, vec![-1]));
        assert_eq!(answers[3], (0, false, vec![0, -1]));
        assert_eq!(answers[4], (0, false, vec![-1]));
        assert_eq!(answers[5], (0, false, vec![-1]));
    }

    #[test]
    fn the_first_tried_pair_is_named() {
        for (call, pair) in named() {
            let (number, after) = answered(&call.lent());
            let held = pair.map_or([BEFORE; 2], |p| p.map(|k| k as i64));
            assert_eq!((number == WITH_A_PAIR, after.pair), (pair.is_some(), held.to_vec()), "{:?} {:?}", call.pos, call.rot_pos);
        }
    }

    // what is recorded is the original's answer: its sentence is RIGHT
    #[test]
    fn wrong_distances_are_told_apart() {
        let calls = told_apart();
        assert!(calls.len() <= TOLD * WRONG.len());
        for call in calls {
            let d = std::array::from_fn(|k| call.pos[k] - call.rot_pos[k]);
            assert_eq!(answer(&call).1, RIGHT(&call.lattice, d, call.symprec));
        }
    }

    #[test]
    fn refused_calls_leave_the_slots() {
        for call in refused() {
            let (number, after) = answered(&call);
            assert!((1..FALSE).contains(&number) && after.slots.iter().chain(&after.pair).all(|s| *s == BEFORE));
        }
    }
}
