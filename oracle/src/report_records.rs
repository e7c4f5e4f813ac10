//! Records of the audits, the comparison of two sets and the reports: small sets that are alike or still, nearly so, or not, and refused calls.
use crate::call::{refusal, Call, Numbers};
use crate::call_audit::{images, legs_at, whole, Audit, Name, ALIKE, UNLIKE};
use crate::call_drift::{Drift, NO_NUMBER, STILL, WORST};
use crate::call_report::{Family, Report};
use crate::groups::random_tables;
use crate::record::{counted, float_word, report, Record, Replay};
use crate::rng::Rng;
use crate::shifts::{cyclic, product, tables, Tables};
use crate::spoil::{at_limits, spoil};
use crate::values;

/// The most numbers of a set and of the second one, entries of all tables, numbers of the matrices, slots of a place and of numbers, single numbers.
const MOST: [usize; 7] = [10_400, 800, 160, 48, 7, 3, 200];

/// What the slots hold before each call.
const BEFORE: i64 = 7;

/// A call as its record has it.
struct View<'a> {
    /// n_satom or the atoms, n_patom, num_trans, num_rot.
    counts: [usize; 4],
    set: &'a mut Vec<f64>,
    other: Option<&'a mut Vec<f64>>,
    /// perms, p2s, s2pp, nsym_list, operations
    lists: [Vec<i64>; 5],
    r_carts: Vec<f64>,
    place: &'a mut Vec<i64>,
    numbers: &'a mut Vec<f64>,
}

trait Reported: Call {
    /// The number of the call in a record.
    fn number(&self) -> u64;

    fn view(&mut self) -> View<'_>;
}

impl Reported for Audit {
    /// 0 two sets; the order of a compact set, and 10 more of a full one; 5 the drift of a compact set, 15 that of a full one of third order.
    fn number(&self) -> u64 {
        match self.name {
            Name::SameSet => 0,
            Name::Compact(order) => order as u64,
            Name::Full(order) => 10 + order as u64,
            Name::DriftCompact => 5,
            Name::DriftLegs => 15,
        }
    }

    fn view(&mut self) -> View<'_> {
        let t = &self.tables;
        let first = if matches!(self.name, Name::Compact(_) | Name::DriftCompact) { t.n_satom } else { self.atoms };
        View {
            counts: [first, t.n_patom, t.num_trans, 0],
            lists: [t.perms.clone(), t.p2s.clone(), t.s2pp.clone(), t.nsym_list.clone(), vec![]],
            r_carts: vec![],
            set: &mut self.set,
            other: (self.name == Name::SameSet).then_some(&mut self.other),
            place: &mut self.place,
            numbers: &mut self.numbers,
        }
    }
}

impl Reported for Drift {
    fn number(&self) -> u64 {
        16
    }

    fn view(&mut self) -> View<'_> {
        View {
            counts: [self.n_satom, 0, 0, 0],
            lists: Default::default(),
            r_carts: vec![],
            set: &mut self.set,
            other: None,
            place: &mut self.place,
            numbers: &mut self.value,
        }
    }
}

impl Reported for Report {
    /// 20 two sets; 20, 40 and 60 more than the order for permutations of legs, operations and sums over legs, and 10 more of a full set.
    fn number(&self) -> u64 {
        let family = match self.family {
            Family::Sets => return 20,
            Family::Orders => 20,
            Family::Crystal => 40,
            Family::Legs => 60,
        };
        family + self.order as u64 + if self.compact { 0 } else { 10 }
    }

    fn view(&mut self) -> View<'_> {
        let t = &self.tables;
        View {
            counts: [if self.compact { t.n_satom } else { self.atoms }, t.n_patom, t.num_trans, self.num_rot],
            lists: [t.perms.clone(), t.p2s.clone(), t.s2pp.clone(), t.nsym_list.clone(), self.operations.clone()],
            r_carts: self.r_carts.clone(),
            set: &mut self.set,
            other: (self.family == Family::Sets).then_some(&mut self.other),
            place: &mut self.place,
            numbers: &mut self.value,
        }
    }
}

/// A call with the way its set is made: a seed and a kind, and then single numbers.
#[derive(Clone)]
struct Made<C> {
    call: C,
    seed: u64,
    kind: u64,
    single: Vec<(usize, f64)>,
}

impl<C: Reported> Made<C> {
    /// The call with its sets as the program makes them, at the lengths that they have, and with the slots as they are before it.
    fn filled(mut self) -> Self {
        let view = self.call.view();
        *view.set = values::floats(view.set.len(), self.seed, self.kind);
        let changed = match view.other {
            Some(other) => {
                *other = values::floats(other.len(), self.seed, self.kind);
                other
            }
            None => view.set,
        };
        for (k, x) in &self.single {
            changed[*k] = *x;
        }
        view.place.fill(BEFORE);
        view.numbers.fill(BEFORE as f64);
        self
    }

    fn fits(&mut self) -> bool {
        let singles = self.single.len();
        let view = self.call.view();
        let entries = view.lists.iter().map(Vec::len).sum();
        let lengths = [view.set.len(), view.other.map_or(0, |o| o.len()), entries, view.r_carts.len(), view.place.len(), view.numbers.len(), singles];
        lengths.iter().zip(MOST).all(|(n, most)| *n <= most)
    }

    /// The words of a record: README.md, part "audits".
    fn record(mut self) -> Record {
        assert!(self.fits(), "no room for {:?}", self.call);
        let mut after = self.call.clone();
        let refused = refusal(&mut after);
        let answer = if refused == 0 { after.original() } else { refused };
        let left = after.view();
        let place = left.place.iter().fold(0, |h, x| values::mix(h, *x as u64));
        let mut words = vec![answer as u64, place, values::sum(left.numbers), self.call.number()];
        let view = self.call.view();
        words.extend(view.counts[..3].iter().map(|n| *n as u64));
        words.extend([self.seed, self.kind, self.single.len() as u64]);
        words.extend([view.set.len(), view.other.map_or(0, |o| o.len()), view.place.len()].map(|n| n as u64));
        words.extend(view.lists.iter().map(|l| l.len() as u64));
        words.extend([view.numbers.len(), view.r_carts.len(), view.counts[3]].map(|n| n as u64));
        words.extend(view.lists.iter().flatten().map(|x| *x as u64));
        words.extend(view.r_carts.iter().map(|x| float_word(*x)));
        words.extend(self.single.iter().flat_map(|(k, x)| [*k as u64, float_word(*x)]));
        counted(words)
    }
}

// ---- calls that are not refused

/// What a call is of: its order, and the tables that its set is read out by, of a full set those with one shift.
#[derive(Clone)]
struct Of {
    order: usize,
    compact: bool,
    tables: Tables,
}

impl Of {
    /// The tables that the call is lent.
    fn lent(&self) -> Tables {
        if self.compact {
            self.tables.clone()
        } else {
            whole(0)
        }
    }

    fn atoms(&self) -> usize {
        if self.compact {
            0
        } else {
            self.tables.n_satom
        }
    }

    fn blocks(&self) -> usize {
        self.tables.n_patom * self.tables.n_satom.pow(self.order as u32 - 1)
    }

    fn width(&self) -> usize {
        3usize.pow(self.order as u32)
    }

    fn set(&self) -> Vec<f64> {
        vec![0.0; self.blocks() * self.width()]
    }
}

/// Tables with one and two primitive atoms, half shifts and others, no atom; full sets.
fn of(r: &mut Rng, order: usize, compact: bool) -> Of {
    let tables = match (compact, r.below(4)) {
        (false, _) => whole(r.below([6, 5, 4][order - 2])),
        (true, 0) => random_tables(r, order, MOST[0]),
        (true, k) => {
            let z2 = cyclic(2);
            let g = &[cyclic(2), cyclic(2), cyclic(3), product(&z2, &z2)][r.below(4)];
            // with more than two shifts and two primitive atoms a set of fourth order is too long
            let n_patom = if k > 1 && (order < 4 || g.n == 2) { 2 } else { 1 };
            tables(g, n_patom, Some(r))
        }
    };
    Of { order, compact, tables }
}

fn audit(of: &Of, name: Name) -> Audit {
    let [place, numbers] = name.slots();
    let other = if name == Name::SameSet { of.set() } else { vec![] };
    Audit { name, set: of.set(), other, tables: of.lent(), atoms: of.atoms(), place: vec![0; place], numbers: vec![0.0; numbers] }
}

fn drift(of: &Of) -> Drift {
    Drift { set: of.set(), value: vec![0.0], place: vec![0; 4], n_satom: of.atoms() }
}

fn deviation(of: &Of, family: Family) -> Report {
    let other = if family == Family::Sets { of.set() } else { vec![] };
    let none = (vec![], vec![], 0);
    let (r_carts, operations, num_rot) = none;
    Report {
        family, order: of.order, compact: of.compact, set: of.set(), other, tables: of.lent(), atoms: of.atoms(), r_carts, operations, num_rot,
        value: vec![0.0], place: vec![0; 2],
    }
}

/// A matrix that exchanges axes and turns some round.
fn signed(r: &mut Rng) -> Vec<f64> {
    let mut m = vec![0.0; 9];
    for (row, column) in r.order(3).into_iter().enumerate() {
        m[row * 3 + column] = [1.0, -1.0][r.below(2)];
    }
    m
}

const IDENTITY: [f64; 9] = [1.0, 0.0, 0.0, 0.0, 1.0, 0.0, 0.0, 0.0, 1.0];

/// Up to three operations: shifts and the identity, exchanges of axes, any matrices, now and then NaN.
fn operated(r: &mut Rng, of: &Of, mut call: Report) -> Report {
    let t = &of.tables;
    let plain = r.below(2) == 0;
    call.num_rot = [1, 2, 3, r.below(4)][r.below(4)];
    for _ in 0..call.num_rot {
        let kind = if plain { r.below(2) } else { r.below(5) };
        let map = match kind {
            0 => (0..t.n_satom).collect(),
            1 if t.num_trans > 0 => {
                let row = r.below(t.num_trans);
                (0..t.n_satom).map(|a| t.row(row, a)).collect()
            }
            _ => r.order(t.n_satom),
        };
        call.operations.extend(map.into_iter().map(|a| a as i64));
        call.r_carts.extend(match kind {
            0 | 1 => IDENTITY.to_vec(),
            2 | 3 => signed(r),
            _ if r.below(4) == 0 => values::floats(9, r.bits() % 1000, 4),
            _ => (0..9).map(|_| 2.0 * r.unit() - 1.0).collect(),
        });
    }
    call
}

/// Every block the same multiple of what no turn of the axes changes: the unit, the alternating tensor, the product of two units.
fn isotropic(of: &Of, x: f64) -> Vec<(usize, f64)> {
    let at = |digits: &[usize]| digits.iter().fold(0, |p, d| 3 * p + d);
    let block: Vec<(usize, f64)> = match of.order {
        2 => (0..3).map(|k| (at(&[k, k]), x)).collect(),
        3 => (0..3).flat_map(|k| [(at(&[k, (k + 1) % 3, (k + 2) % 3]), x), (at(&[k, (k + 2) % 3, (k + 1) % 3]), -x)]).collect(),
        _ => (0..9).map(|k| (at(&[k / 3, k / 3, k % 3, k % 3]), x)).collect(),
    };
    (0..of.blocks()).flat_map(|b| block.iter().map(move |(p, x)| (b * of.width() + p, *x)).collect::<Vec<_>>()).collect()
}

/// One direction position of every block: a number whose sign is the product of signs of the primitive atoms, so that with two of them sums are zero.
fn balanced(r: &mut Rng, of: &Of, x: f64) -> Vec<(usize, f64)> {
    let p = r.below(of.width());
    let sign = |place: usize| legs_at(&of.tables, of.order, place).iter().map(|leg| of.tables.s2pp[leg.0]).sum::<i64>() % 2;
    (0..of.blocks()).map(|b| b * of.width() + p).map(|k| (k, if sign(k) == 0 { x } else { -x })).collect()
}

/// Groups of numbers that are alike, and perhaps one number of a group another one.
fn grouped(r: &mut Rng, of: &Of) -> Vec<(usize, f64)> {
    let stated = of.set().len();
    let mut single = vec![];
    for _ in 0..r.below(3) {
        let (q, x) = (r.below(stated), [f64::from_bits(r.bits()), 1.0 + r.unit()][r.below(2)]);
        single.extend(images(&of.tables, of.order, q).into_iter().map(|k| (k, x)));
    }
    if r.below(2) == 0 {
        let q = single.last().map_or(r.below(stated), |(k, _)| *k);
        single.push((q, [0.0, f64::NAN, 1.0, f64::INFINITY, f64::from_bits(r.bits())][r.below(5)]));
    }
    single
}

/// A set of -0.0 with some single numbers, or of any kind.
fn make<C: Reported>(r: &mut Rng, of: &Of, call: C) -> Made<C> {
    let (seed, mut kind) = (r.bits() % 1000, values::MINUS_ZEROS);
    let mut single = vec![];
    let x = 1.0 + r.below(3) as f64;
    match r.below(8) {
        _ if of.set().is_empty() => {}
        0 | 1 => kind = r.bits() % values::KINDS,
        2 => kind = [0, values::TINY, values::POSITIVE, values::LARGEST][r.below(4)],
        3 => single = balanced(r, of, x),
        4 => single = isotropic(of, x),
        _ => single = grouped(r, of),
    }
    if single.len() > MOST[6] {
        single.clear();
    }
    Made { call, seed, kind, single }.filled()
}

// ---- refused calls

/// A call changed so that it is refused for the most part.
fn spoilt<C: Reported>(r: &mut Rng, mut made: Made<C>) -> Made<C> {
    made.single.clear();
    spoil(r, &mut made.call);
    made.filled()
}

/// The call with slots of other lengths: alone, and where there are none also with each count at its limit and above, and with a bad entry.
fn slots<C: Reported>(made: &Made<C>) -> Vec<Made<C>> {
    let mut calls = vec![];
    let lengths = |made: &Made<C>| [made.clone().call.view().place.len(), made.clone().call.view().numbers.len()];
    for slice in 0..2 {
        let n = lengths(made)[slice];
        for length in [n + 1, n - 1, 0] {
            let mut other = made.clone();
            let view = other.call.view();
            match slice {
                0 => view.place.resize(length, 0),
                _ => view.numbers.resize(length, 0.0),
            }
            calls.push(other);
        }
        let none = calls.last().expect("a call").clone();
        calls.extend(at_limits(&none.call).into_iter().map(|call| Made { call, ..none.clone() }));
        let mut bad = none.clone();
        for lent in bad.call.parts().slices {
            if let (Some(_), Numbers::Integers(v)) = (lent.below, lent.numbers) {
                v.fill(-1);
            }
        }
        calls.push(bad);
    }
    calls.into_iter().map(Made::filled).collect()
}

/// The call with the first entry of each of its index tables below 0, and with the last one too large.
fn entries<C: Reported>(made: &Made<C>) -> Vec<Made<C>> {
    let mut calls = vec![];
    for k in 0..made.clone().call.parts().slices.len() {
        for last in [false, true] {
            let mut bad = made.clone();
            let lent = bad.call.parts().slices.swap_remove(k);
            if let (Some(count), Numbers::Integers(v)) = (lent.below, lent.numbers) {
                if let Some(entry) = if last { v.last_mut() } else { v.first_mut() } {
                    *entry = if last { count as i64 } else { -1 };
                    calls.push(bad);
                }
            }
        }
    }
    calls
}

/// Every count at its limit and one above, with the lengths of a small call and with slots of other lengths; entries that point outside.
fn edges<C: Reported>(made: &Made<C>) -> Vec<Made<C>> {
    let limited = at_limits(&made.call).into_iter().map(|call| Made { call, ..made.clone() });
    limited.chain(slots(made)).chain(entries(made)).collect()
}

/// So many of each call: right, and changed so that most are refused.
const OF_EACH: [usize; 2] = [40, 15];

/// The records of a call: random ones, and a small one with its edges.
fn records<C: Reported>(r: &mut Rng, order: usize, compact: bool, new: impl Fn(&mut Rng, &Of) -> C) -> Vec<Record> {
    let mut all = vec![];
    for (k, count) in OF_EACH.into_iter().enumerate() {
        let end = all.len() + count;
        while all.len() < end {
            let of = of(r, order, compact);
            let call = new(r, &of);
            let mut made = make(r, &of, call);
            if k == 1 {
                made = spoilt(r, made);
            }
            if made.fits() {
                all.push(made.record());
            }
        }
    }
    let small = Of { order, compact, tables: if compact { tables(&cyclic(2), 1, Some(r)) } else { whole(1) } };
    let call = new(r, &small);
    let base = Made { call, seed: r.bits() % 1000, kind: 0, single: vec![] }.filled();
    all.extend(edges(&base).into_iter().map(Made::record));
    all
}

/// Full sets of second order of every kind.
fn drifts() -> Vec<Record> {
    let mut calls = vec![];
    for n_satom in [0, 1, 2, 3, 5, 8, 9, 17] {
        for kind in (0..values::KINDS).chain([values::TINY, values::MINUS_ZEROS, values::LARGEST]) {
            let of = Of { order: 2, compact: false, tables: whole(n_satom) };
            calls.push(Made { call: drift(&of), seed: 100 * n_satom as u64 + kind, kind, single: vec![] }.filled());
        }
    }
    calls.into_iter().map(Made::record).collect()
}

fn of_each(records: &[Record], answers: &[(&str, u8)]) -> String {
    let so_many = |k: u8| records.iter().filter(|r| r[1] == k as u64).count();
    answers.iter().map(|(name, k)| format!("{name}: {}\n", so_many(*k))).collect()
}

/// The audits and the comparison of two sets.
pub fn audits() -> Replay {
    let mut r = Rng::new(80);
    let mut all = records(&mut r, 2, false, |_, of| audit(of, Name::SameSet));
    for order in 2..5 {
        all.extend(records(&mut r, order, true, |_, of| audit(of, Name::Compact(order))));
        all.extend(records(&mut r, order, false, |_, of| audit(of, Name::Full(order))));
    }
    let stdout = report("audits", &all, 1) + &of_each(&all, &[("alike", ALIKE), ("unlike", UNLIKE)]);
    Replay::new(all, stdout, 3)
}

/// The reports: sums of rows and columns, sums over legs, two sets, permutations of legs, the crystal's operations.
pub fn reports() -> Replay {
    let mut r = Rng::new(81);
    let mut all = drifts();
    all.extend(records(&mut r, 2, false, |_, of| drift(of)));
    all.extend(records(&mut r, 2, true, |_, of| audit(of, Name::DriftCompact)));
    all.extend(records(&mut r, 3, false, |_, of| audit(of, Name::DriftLegs)));
    all.extend(records(&mut r, 2, false, |_, of| deviation(of, Family::Sets)));
    for order in 2..5 {
        for compact in [true, false] {
            all.extend(records(&mut r, order, compact, |_, of| deviation(of, Family::Orders)));
            all.extend(records(&mut r, order, compact, |r, of| operated(r, of, deviation(of, Family::Crystal))));
        }
    }
    for (order, compact) in [(3, true), (4, true), (4, false)] {
        all.extend(records(&mut r, order, compact, |_, of| deviation(of, Family::Legs)));
    }
    let stdout = report("reports", &all, 1) + &of_each(&all, &[("still", STILL), ("worst", WORST), ("no number", NO_NUMBER)]);
    Replay::new(all, stdout, 10)
}

#[cfg(test)]
mod tests {
    use super::*;

    /// Every call has every answer that it can give; those on compact sets have each of their own with two primitive atoms and two shifts or more.
    #[test]
    fn every_answer_is_recorded() {
        let all = [audits().records, reports().records].concat();
        let numbers = [0, 2, 3, 4, 5, 12, 13, 14, 15, 16, 20, 22, 23, 24, 32, 33, 34, 42, 43, 44, 52, 53, 54, 63, 64, 74];
        for number in numbers {
            let compact = number % 20 < 10 && number % 20 > 0;
            let own = if number < 15 && number != 5 { vec![ALIKE, UNLIKE] } else { vec![STILL, WORST, NO_NUMBER] };
            let refusals: &[u8] = match number {
                0 | 20 => &[2],
                _ if compact => &[1, 2, 3, 6],
                52..=54 => &[1, 2, 3],
                _ => &[1, 2],
            };
            for answer in own.iter().chain(refusals) {
                assert!(all.iter().any(|r| r[4] == number && r[1] == *answer as u64), "call {number}, answer {answer}");
            }
            for answer in own.iter().filter(|_| compact) {
                let two = |r: &&Record| r[4] == number && r[1] == *answer as u64 && r[6] == 2 && r[7] > 1;
                assert!(all.iter().any(|r| two(&r)), "call {number}, answer {answer}, two primitive atoms");
            }
        }
    }
}
