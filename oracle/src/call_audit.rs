//! The audits, the comparison of two sets and the drift of compact and of third-order sets, which the Rust does not have, as
//! plain Rust.
use crate::call::{floats, index, integers, Call, Parts, ATOMS};
use crate::call_drift::report;
use crate::makers;
use crate::record::float_word;
use crate::rng::Rng;
use crate::shift_records::damage;
use crate::shifts::Tables;
use crate::c_names;

pub const ALIKE: u8 = 73;
pub const UNLIKE: u8 = 74;

#[derive(Clone, Copy, Debug, PartialEq)]
pub enum Name {
    /// The audit of a compact set of this order.
    Compact(usize),
    /// Of a full one.
    Full(usize),
    SameSet,
    /// The drift of a compact set of second order, read out, and of a full one of third order, over each leg.
    DriftCompact,
    DriftLegs,
}

impl Name {
    fn is_compact(self) -> bool {
        matches!(self, Name::Compact(_) | Name::DriftCompact)
    }

    /// How many slots a place has, and how many numbers.
    pub fn slots(self) -> [usize; 2] {
        match self {
            Name::DriftCompact => [4, 1],
            Name::DriftLegs => [6, 1],
            _ => [2, 2],
        }
    }
}

#[derive(Clone, Debug)]
pub struct Audit {
    pub name: Name,
    pub set: Vec<f64>,
    /// The second set, where two are compared.
    pub other: Vec<f64>,
    pub tables: Tables,
    pub atoms: usize,
    /// The place and the permutation, and both numbers; of a drift its place and its value.
    pub place: Vec<i64>,
    pub numbers: Vec<f64>,
}

/// All orders of 0, 1, .., n - 1, as the Rust lists them: by the first, then by the second, and so on.
pub fn orders(n: usize) -> Vec<Vec<usize>> {
    let mut all = vec![vec![]];
    for _ in 0..n {
        all = all.into_iter().flat_map(|o: Vec<usize>| (0..n).filter(|k| !o.contains(k)).map(|k| [&o[..], &[k]].concat()).collect::<Vec<_>>()).collect();
    }
    all
}

/// The place of the number that is read out for the legs, each an atom and a direction.
fn stored(t: &Tables, legs: &[(usize, usize)]) -> usize {
    let row = t.nsym_list[legs[0].0] as usize;
    let block = legs[1..].iter().fold(t.s2pp[legs[0].0] as usize, |b, leg| b * t.n_satom + t.row(row, leg.0));
    legs.iter().fold(block, |place, leg| place * 3 + leg.1)
}

pub fn read_out(t: &Tables, set: &[f64], legs: &[(usize, usize)]) -> f64 {
    set[stored(t, legs)]
}

/// The legs whose number stands at a place: the first atom is the one that stands for the primitive cell's.
pub fn legs_at(t: &Tables, order: usize, place: usize) -> Vec<(usize, usize)> {
    let mut rest = place;
    let mut legs = vec![(0, 0); order];
    for leg in legs.iter_mut().rev() {
        leg.1 = rest % 3;
        rest /= 3;
    }
    for leg in legs[1..].iter_mut().rev() {
        leg.0 = rest % t.n_satom;
        rest /= t.n_satom;
    }
    legs[0].0 = t.p2s[rest] as usize;
    legs
}

/// The tables of a full set: one shift, which sends each atom to itself.
pub fn whole(n: usize) -> Tables {
    let count: Vec<i64> = (0..n as i64).collect();
    Tables { n_satom: n, n_patom: n, num_trans: 1, perms: count.clone(), p2s: count.clone(), s2pp: count, nsym_list: vec![0; n] }
}

/// The places of the numbers that are to be the same as that at a place.
pub fn images(t: &Tables, order: usize, place: usize) -> Vec<usize> {
    let legs = legs_at(t, order, place);
    let mut places: Vec<usize> = orders(order).iter().map(|o| stored(t, &o.iter().map(|l| legs[*l]).collect::<Vec<_>>())).collect();
    places.sort();
    places.dedup();
    places
}

/// The lowest address at which an order reads another number; which order, and the two numbers.
fn first_unlike(t: &Tables, order: usize, set: &[f64]) -> Option<(usize, usize, f64, f64)> {
    let orders = orders(order);
    for place in 0..set.len() {
        let legs = legs_at(t, order, place);
        for (k, o) in orders.iter().enumerate() {
            let there = read_out(t, set, &o.iter().map(|l| legs[*l]).collect::<Vec<_>>());
            if float_word(set[place]) != float_word(there) {
                return Some((place, k, set[place], there));
            }
        }
    }
    None
}

impl Audit {
    fn found(&self) -> Option<(usize, usize, f64, f64)> {
        match self.name {
            Name::Compact(order) => first_unlike(&self.tables, order, &self.set),
            Name::Full(order) => first_unlike(&whole(self.atoms), order, &self.set),
            Name::SameSet => (0..self.set.len())
                .find(|k| float_word(self.set[*k]) != float_word(self.other[*k]))
                .map(|k| (k, 0, self.set[k], self.other[k])),
            Name::DriftCompact | Name::DriftLegs => None,
        }
    }

    /// The first place of the group of blocks that begins last. A group begins no later than at any of its blocks, so what is before `last` needs no look.
    pub fn last_group(&self) -> usize {
        let (t, order) = match self.name {
            Name::Full(order) => (whole(self.atoms), order),
            Name::Compact(order) => (self.tables.clone(), order),
            _ => unreachable!("an audit"),
        };
        let width = 3usize.pow(order as u32);
        let (mut last, mut next) = (0, self.set.len());
        while next > last {
            next -= width;
            last = last.max(images(&t, order, next)[0]);
        }
        last
    }

    /// The rows of the set read out, over the second atom, then its columns, over the first; by atom and directions.
    fn lines(&self) -> Vec<(f64, [i64; 6])> {
        let (t, n) = (&self.tables, self.tables.n_satom);
        let mut sums = vec![];
        for (along, atom, k, l) in (0..2 * n * 9).map(|r| (r / 9 / n.max(1), r / 9 % n.max(1), r % 9 / 3, r % 3)) {
            let legs = |other| if along == 0 { [(atom, k), (other, l)] } else { [(other, k), (atom, l)] };
            let sum = (0..n).fold(0.0, |sum, other| sum + read_out(t, &self.set, &legs(other)));
            sums.push((sum, [along, atom, k, l, 0, 0].map(|x| x as i64)));
        }
        sums
    }

    /// The sums over the last leg, the middle one and the first, each by the atoms of the two others and by directions.
    fn legs(&self) -> Vec<(f64, [i64; 6])> {
        let n = self.atoms;
        let mut sums = vec![];
        for leg in [2, 1, 0] {
            for (a, b, p) in (0..n * n * 27).map(|r| (r / 27 / n, r / 27 % n, r % 27)) {
                let sum = (0..n).fold(0.0, |sum, x| {
                    let mut atoms = vec![a, b];
                    atoms.insert(leg, x);
                    sum + self.set[((atoms[0] * n + atoms[1]) * n + atoms[2]) * 27 + p]
                });
                sums.push((sum, [leg, a, b, p / 9, p % 9 / 3, p % 3].map(|x| x as i64)));
            }
        }
        sums
    }
}

macro_rules! compact_audit {
    ($name:ident, $c:ident) => {{
        let t = &$c.tables;
        // SAFETY: slices by their pointers and lengths, no precondition; usize has the size of i64.
        unsafe {
            c_names::$name(
                $c.set.as_ptr(), $c.set.len(), t.p2s.as_ptr(), t.p2s.len(), t.s2pp.as_ptr(), t.s2pp.len(), t.nsym_list.as_ptr(),
                t.nsym_list.len(), t.perms.as_ptr(), t.perms.len(), $c.place.as_mut_ptr() as *mut usize, $c.place.len(),
                $c.numbers.as_mut_ptr(), $c.numbers.len(), t.n_satom, t.n_patom, t.num_trans,
            )
        }
    }};
}

macro_rules! full_audit {
    ($name:ident, $c:ident) => {
        // SAFETY: as above.
        unsafe {
            c_names::$name(
                $c.set.as_ptr(), $c.set.len(), $c.place.as_mut_ptr() as *mut usize, $c.place.len(), $c.numbers.as_mut_ptr(),
                $c.numbers.len(), $c.atoms,
            )
        }
    };
}

fn drift_compact(c: &mut Audit) -> u8 {
    let t = &c.tables;
    // SAFETY: as above.
    unsafe {
        c_names::gf_drift_report_compact_fc2(
            c.set.as_ptr(), c.set.len(), t.p2s.as_ptr(), t.p2s.len(), t.s2pp.as_ptr(), t.s2pp.len(), t.nsym_list.as_ptr(),
            t.nsym_list.len(), t.perms.as_ptr(), t.perms.len(), c.numbers.as_mut_ptr(), c.numbers.len(),
            c.place.as_mut_ptr() as *mut usize, c.place.len(), t.n_satom, t.n_patom, t.num_trans,
        )
    }
}

impl Call for Audit {
    fn parts(&mut self) -> Parts<'_> {
        let Audit { name, set, other, tables: t, atoms, place, numbers } = self;
        let mut counts = vec![];
        let mut slices = vec![];
        match name {
            Name::Compact(_) | Name::DriftCompact => {
                let order = if let Name::Compact(order) = *name { order } else { 2 };
                let (s, p, n, limit) = (t.n_satom, t.n_patom, t.num_trans, ATOMS[order]);
                let mut length = vec![p, 3usize.pow(order as u32)];
                length.extend(vec![s; order - 1]);
                counts = vec![(&mut t.n_satom, limit), (&mut t.n_patom, limit), (&mut t.num_trans, limit)];
                slices = vec![
                    floats(set, &length),
                    index(&mut t.p2s, &[p], s),
                    index(&mut t.s2pp, &[s], p),
                    index(&mut t.nsym_list, &[s], n),
                    index(&mut t.perms, &[n, s], s),
                ];
            }
            Name::Full(_) | Name::DriftLegs => {
                let order = if let Name::Full(order) = *name { order } else { 3 };
                let n = *atoms;
                slices.push(floats(set, &vec![3 * n.min(1 << 60); order]));
                counts.push((atoms, ATOMS[order]));
            }
            Name::SameSet => {
                let length = [set.len()];
                slices = vec![floats(set, &length), floats(other, &length)];
            }
        }
        let slots = name.slots();
        slices.extend([integers(place, &[slots[0]]), floats(numbers, &[slots[1]])]);
        Parts::new(counts, slices)
    }

    fn rest(&self) -> u8 {
        if self.name.is_compact() && !self.tables.obey() {
            6
        } else {
            0
        }
    }

    fn original(&mut self) -> u8 {
        if matches!(self.name, Name::DriftCompact | Name::DriftLegs) {
            let (sums, still) = if self.name == Name::DriftLegs { (self.legs(), [2, 0, 0, 0, 0, 0]) } else { (self.lines(), [0; 6]) };
            let (answer, value, place) = report(&sums, still);
            (self.place, self.numbers) = (place[..self.name.slots()[0]].to_vec(), vec![value]);
            return answer;
        }
        let Some((place, order, here, there)) = self.found() else {
            return ALIKE;
        };
        (self.place, self.numbers) = (vec![place as i64, order as i64], vec![here, there]);
        UNLIKE
    }

    fn port(&mut self) -> u8 {
        match self.name {
            Name::Compact(2) => compact_audit!(gf_audit_compact_fc2, self),
            Name::Compact(3) => compact_audit!(gf_audit_compact_fc3, self),
            Name::Compact(_) => compact_audit!(gf_audit_compact_fc4, self),
            Name::Full(2) => full_audit!(gf_audit_fc2, self),
            Name::Full(3) => full_audit!(gf_audit_fc3, self),
            Name::Full(_) => full_audit!(gf_audit_fc4, self),
            Name::DriftCompact => drift_compact(self),
            // SAFETY: as above.
            Name::DriftLegs => unsafe {
                c_names::gf_drift_report_fc3(
                    self.set.as_ptr(), self.set.len(), self.numbers.as_mut_ptr(), self.numbers.len(), self.place.as_mut_ptr() as *mut usize,
                    self.place.len(), self.atoms,
                )
            },
            // SAFETY: as above.
            Name::SameSet => unsafe {
                c_names::gf_same_set(
                    self.set.as_ptr(), self.set.len(), self.other.as_ptr(), self.other.len(), self.place.as_mut_ptr() as *mut usize,
                    self.place.len(), self.numbers.as_mut_ptr(), self.numbers.len(),
                )
            },
        }
    }

    /// An audit makes no number; a drift makes its value.
    fn made(&self, slice: usize, _: usize) -> bool {
        match self.name {
            Name::DriftCompact => slice == 6,
            Name::DriftLegs => slice == 2,
            _ => false,
        }
    }

    fn spoil(&mut self, r: &mut Rng) {
        if self.name.is_compact() && self.tables.sized() {
            damage(r, &mut self.tables);
        }
    }
}

/// All permutations of any legs made to read out one number: at every place that of the least place among them.
fn alike(t: &Tables, order: usize, set: &mut [f64]) {
    let old = set.to_vec();
    let orders = orders(order);
    for place in 0..set.len() {
        let legs = legs_at(t, order, place);
        let least = orders.iter().map(|o| stored(t, &o.iter().map(|l| legs[*l]).collect::<Vec<_>>())).min();
        set[place] = old[least.unwrap_or(place)];
    }
}

/// One number made another, NaN another NaN, or a zero of the other sign.
fn damaged(r: &mut Rng, set: &mut [f64]) {
    if set.is_empty() {
        return;
    }
    let k = r.below(set.len());
    set[k] = match r.below(5) {
        0 => f64::from_bits(set[k].to_bits() ^ (1 << r.below(64))),
        1 => -set[k],
        2 => f64::from_bits(0x7ff8_0000_0000_0001 + r.bits() % 3),
        3 => [0.0, -0.0][r.below(2)],
        _ => f64::from_bits(r.bits()),
    };
}

/// Numbers of one size and of both signs, so that sums are zero, or shared by several places.
fn balanced(r: &mut Rng, call: &mut Audit) {
    let (n, by) = (call.atoms.max(call.tables.n_satom).max(1), [r.below(2), r.below(2), r.below(3)]);
    let width = if call.name == Name::DriftLegs { 27 } else { 9 };
    for (k, x) in call.set.iter_mut().enumerate() {
        let b = k / width;
        let sign = (by[0] * (b / n / n) + by[1] * (b / n % n) + by[2] * (b % n)) % 2;
        *x = [2.0, -2.0][sign] * (k % width % 2) as f64;
    }
}

/// The model reads every number in all permutations: of sets with more numbers than this it has one in twenty.
const LARGE: usize = 4000;

/// Sets that are alike, sets that are so but for one number or a few, and any sets.
pub fn make(r: &mut Rng, name: Name) -> Audit {
    let slots = name.slots();
    let (place, numbers) = ((0..slots[0]).map(|_| r.bits() as i64).collect(), (0..slots[1]).map(|_| f64::from_bits(r.bits())).collect());
    let mut call = match name {
        Name::Compact(_) | Name::DriftCompact => {
            let order = if let Name::Compact(order) = name { order } else { 2 };
            let kind = [crate::call_compact::Name::Exchange2, crate::call_compact::Name::Transpose3, crate::call_compact::Name::Transpose4][order - 2];
            let mut like = makers::compact(r, kind);
            while like.set.len() > LARGE && r.below(20) > 0 {
                like = makers::compact(r, kind);
            }
            Audit { name, set: like.set, other: vec![], tables: like.tables, atoms: 0, place, numbers }
        }
        Name::Full(_) | Name::DriftLegs => {
            let order = if let Name::Full(order) = name { order } else { 3 };
            let mut like = makers::full(r, order);
            while like.set.len() > LARGE && r.below(20) > 0 {
                like = makers::full(r, order);
            }
            Audit { name, set: like.set, other: vec![], tables: whole(0), atoms: like.atoms, place, numbers }
        }
        Name::SameSet => {
            let set = makers::full(r, 2).set;
            Audit { name, other: set.clone(), set, tables: whole(0), atoms: 0, place, numbers }
        }
    };
    let kind = r.below(8);
    if kind > 0 {
        match name {
            Name::Compact(order) => alike(&call.tables, order, &mut call.set),
            Name::Full(order) => alike(&whole(call.atoms), order, &mut call.set),
            Name::SameSet => {}
            Name::DriftCompact | Name::DriftLegs if kind > 4 => balanced(r, &mut call),
            Name::DriftCompact | Name::DriftLegs => {}
        }
    }
    for _ in 0..kind.saturating_sub(4).min(2) {
        damaged(r, if name == Name::SameSet { &mut call.other } else { &mut call.set });
    }
    call
}
