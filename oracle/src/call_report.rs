//! The reports, which the Rust does not have: how far a set is from another, from its own permutations of legs, from the crystal's operations, and how far
//! its sums over legs are from zero. Plain Rust, number by number.
use crate::c_names;
use crate::call::{floats, index, integers, Call, Lent, Parts, ATOMS, LIST};
use crate::call_audit::{legs_at, orders, read_out, whole};
use crate::call_drift::report;
use crate::makers;
use crate::rng::Rng;
use crate::shift_records::damage;
use crate::shifts::Tables;

#[derive(Clone, Copy, Debug, PartialEq)]
pub enum Family {
    /// Two sets.
    Sets,
    /// The permutations of the same legs.
    Orders,
    /// The crystal's operations.
    Crystal,
    /// Sums over each leg.
    Legs,
}

#[derive(Clone, Debug)]
pub struct Report {
    pub family: Family,
    pub order: usize,
    pub compact: bool,
    pub set: Vec<f64>,
    pub other: Vec<f64>,
    pub tables: Tables,
    pub atoms: usize,
    pub r_carts: Vec<f64>,
    pub operations: Vec<i64>,
    pub num_rot: usize,
    pub value: Vec<f64>,
    pub place: Vec<i64>,
}

type Numbers = Vec<(f64, [i64; 2])>;

impl Report {
    fn sets(&self) -> Numbers {
        self.set.iter().zip(&self.other).enumerate().map(|(k, (a, b))| (a - b, [k as i64, 0])).collect()
    }

    /// By address and then by permutation: the number that the permutation reads minus the one at the address.
    fn orders(&self, t: &Tables) -> Numbers {
        let orders = orders(self.order);
        let mut out = vec![];
        for place in 0..self.set.len() {
            let legs = legs_at(t, self.order, place);
            for (k, o) in orders.iter().enumerate() {
                let there = read_out(t, &self.set, &o.iter().map(|l| legs[*l]).collect::<Vec<_>>());
                out.push((there - self.set[place], [place as i64, k as i64]));
            }
        }
        out
    }

    /// The number at a position of the block, rotated by operation r on every leg: coefficients from the first leg to the last, terms rising.
    fn rotated(&self, r: usize, block: usize, to: usize) -> f64 {
        let width = 3usize.pow(self.order as u32);
        let digit = |p: usize, leg: usize| p / 3usize.pow((self.order - 1 - leg) as u32) % 3;
        (0..width).fold(0.0, |sum, from| {
            let entry = |leg| self.r_carts[r * 9 + digit(to, leg) * 3 + digit(from, leg)];
            let coefficient = (1..self.order).fold(entry(0), |c, leg| c * entry(leg));
            sum + coefficient * self.set[block * width + from]
        })
    }

    /// By operation, stored block and position in the block: the read-out at the images minus the rotated block.
    fn crystal(&self, t: &Tables) -> Numbers {
        let width = 3usize.pow(self.order as u32);
        let mut out = vec![];
        for r in 0..self.num_rot {
            for place in 0..self.set.len() {
                let images: Vec<_> =
                    legs_at(t, self.order, place).iter().map(|leg| (self.operations[r * t.n_satom + leg.0] as usize, leg.1)).collect();
                out.push((read_out(t, &self.set, &images) - self.rotated(r, place / width, place % width), [r as i64, place as i64]));
            }
        }
        out
    }

    /// The sums over the last leg first, then by the other atoms and by directions.
    fn legs(&self, t: &Tables) -> Numbers {
        let (n, width) = (t.n_satom, 3usize.pow(self.order as u32));
        let lines = n.pow(self.order as u32 - 1);
        let mut out = vec![];
        for e in 0..self.order {
            for line in 0..lines {
                for p in 0..width {
                    let sum = (0..n).fold(0.0, |sum, x| {
                        let mut atoms: Vec<usize> = (0..self.order - 1).rev().map(|k| line / n.pow(k as u32) % n).collect();
                        atoms.insert(self.order - 1 - e, x);
                        let legs: Vec<_> = atoms.iter().enumerate().map(|(l, a)| (*a, p / 3usize.pow((self.order - 1 - l) as u32) % 3)).collect();
                        sum + read_out(t, &self.set, &legs)
                    });
                    out.push((sum, [(e * lines + line) as i64, p as i64]));
                }
            }
        }
        out
    }
}

macro_rules! compact {
    ($name:ident, $c:ident) => {{
        let t = &$c.tables;
        // SAFETY: slices by their pointers and lengths, no precondition; usize has the size of i64.
        unsafe {
            c_names::$name(
                $c.set.as_ptr(), $c.set.len(), t.p2s.as_ptr(), t.p2s.len(), t.s2pp.as_ptr(), t.s2pp.len(), t.nsym_list.as_ptr(),
                t.nsym_list.len(), t.perms.as_ptr(), t.perms.len(), $c.value.as_mut_ptr(), $c.value.len(),
                $c.place.as_mut_ptr() as *mut usize, $c.place.len(), t.n_satom, t.n_patom, t.num_trans,
            )
        }
    }};
}

macro_rules! full {
    ($name:ident, $c:ident) => {
        // SAFETY: as above.
        unsafe {
            c_names::$name(
                $c.set.as_ptr(), $c.set.len(), $c.value.as_mut_ptr(), $c.value.len(), $c.place.as_mut_ptr() as *mut usize, $c.place.len(),
                $c.atoms,
            )
        }
    };
}

macro_rules! compact_crystal {
    ($name:ident, $c:ident) => {{
        let t = &$c.tables;
        // SAFETY: as above.
        unsafe {
            c_names::$name(
                $c.set.as_ptr(), $c.set.len(), t.p2s.as_ptr(), t.p2s.len(), t.s2pp.as_ptr(), t.s2pp.len(), t.nsym_list.as_ptr(),
                t.nsym_list.len(), t.perms.as_ptr(), t.perms.len(), $c.r_carts.as_ptr(), $c.r_carts.len(), $c.operations.as_ptr(),
                $c.operations.len(), $c.value.as_mut_ptr(), $c.value.len(), $c.place.as_mut_ptr() as *mut usize, $c.place.len(), t.n_satom,
                t.n_patom, t.num_trans, $c.num_rot,
            )
        }
    }};
}

macro_rules! full_crystal {
    ($name:ident, $c:ident) => {
        // SAFETY: as above.
        unsafe {
            c_names::$name(
                $c.set.as_ptr(), $c.set.len(), $c.r_carts.as_ptr(), $c.r_carts.len(), $c.operations.as_ptr(), $c.operations.len(),
                $c.value.as_mut_ptr(), $c.value.len(), $c.place.as_mut_ptr() as *mut usize, $c.place.len(), $c.atoms, $c.num_rot,
            )
        }
    };
}

impl Call for Report {
    fn parts(&mut self) -> Parts<'_> {
        let Report { family, order, compact, set, other, tables: t, atoms, r_carts, operations, num_rot, value, place } = self;
        let mut counts: Vec<(&mut usize, usize)> = vec![];
        let mut slices: Vec<Lent> = vec![];
        let (limit, rotations) = (ATOMS[*order], *num_rot);
        let images = if *compact { t.n_satom } else { *atoms };
        if *family == Family::Sets {
            let length = [set.len()];
            slices.extend([floats(set, &length), floats(other, &length)]);
        } else if *compact {
            let (s, p, n) = (t.n_satom, t.n_patom, t.num_trans);
            let mut length = vec![p, 3usize.pow(*order as u32)];
            length.extend(vec![s; *order - 1]);
            counts.extend([(&mut t.n_satom, limit), (&mut t.n_patom, limit), (&mut t.num_trans, limit)]);
            slices.push(floats(set, &length));
            slices.extend([index(&mut t.p2s, &[p], s), index(&mut t.s2pp, &[s], p), index(&mut t.nsym_list, &[s], n), index(&mut t.perms, &[n, s], s)]);
        } else {
            slices.push(floats(set, &vec![3 * (*atoms).min(1 << 60); *order]));
            counts.push((atoms, limit));
        }
        if *family == Family::Crystal {
            counts.push((num_rot, LIST));
            slices.extend([floats(r_carts, &[rotations, 9]), index(operations, &[rotations, images], images)]);
        }
        slices.extend([floats(value, &[1]), integers(place, &[2])]);
        Parts::new(counts, slices)
    }

    fn rest(&self) -> u8 {
        if self.compact && !self.tables.obey() {
            6
        } else {
            0
        }
    }

    fn original(&mut self) -> u8 {
        let t = if self.compact { self.tables.clone() } else { whole(self.atoms) };
        let numbers = match self.family {
            Family::Sets => self.sets(),
            Family::Orders => self.orders(&t),
            Family::Crystal => self.crystal(&t),
            Family::Legs => self.legs(&t),
        };
        let (answer, value, place) = report(&numbers, [0; 2]);
        (self.value, self.place) = (vec![value], place.to_vec());
        answer
    }

    fn port(&mut self) -> u8 {
        match (self.family, self.order, self.compact) {
            // SAFETY: as above.
            (Family::Sets, ..) => unsafe {
                c_names::gf_set_difference(
                    self.set.as_ptr(), self.set.len(), self.other.as_ptr(), self.other.len(), self.value.as_mut_ptr(), self.value.len(),
                    self.place.as_mut_ptr() as *mut usize, self.place.len(),
                )
            },
            (Family::Orders, 2, true) => compact!(gf_difference_report_compact_fc2, self),
            (Family::Orders, 3, true) => compact!(gf_difference_report_compact_fc3, self),
            (Family::Orders, _, true) => compact!(gf_difference_report_compact_fc4, self),
            (Family::Orders, 2, false) => full!(gf_difference_report_fc2, self),
            (Family::Orders, 3, false) => full!(gf_difference_report_fc3, self),
            (Family::Orders, _, false) => full!(gf_difference_report_fc4, self),
            (Family::Crystal, 2, true) => compact_crystal!(gf_crystal_report_compact_fc2, self),
            (Family::Crystal, 3, true) => compact_crystal!(gf_crystal_report_compact_fc3, self),
            (Family::Crystal, _, true) => compact_crystal!(gf_crystal_report_compact_fc4, self),
            (Family::Crystal, 2, false) => full_crystal!(gf_crystal_report_fc2, self),
            (Family::Crystal, 3, false) => full_crystal!(gf_crystal_report_fc3, self),
            (Family::Crystal, _, false) => full_crystal!(gf_crystal_report_fc4, self),
            (Family::Legs, 3, _) => compact!(gf_drift_report_compact_fc3, self),
            (Family::Legs, _, true) => compact!(gf_drift_report_compact_fc4, self),
            (Family::Legs, _, false) => full!(gf_drift_report_fc4, self),
        }
    }

    /// The value.
    fn made(&self, slice: usize, _: usize) -> bool {
        let operations = if self.family == Family::Crystal { 2 } else { 0 };
        slice == operations + if self.family == Family::Sets { 2 } else if self.compact { 5 } else { 1 }
    }

    fn spoil(&mut self, r: &mut Rng) {
        if self.compact && self.tables.sized() {
            damage(r, &mut self.tables);
        }
    }
}

/// The model reads every number in all permutations or under all operations: of sets with more numbers than this it has one in twenty.
const LARGE: usize = 2500;

/// Small whole numbers, so that differences and sums are zero or shared by several places.
fn rough(r: &mut Rng, set: &mut [f64]) {
    let size = 1 + r.below(3);
    set.iter_mut().for_each(|x| *x = r.below(size) as f64 - (size / 2) as f64);
}

pub fn make(r: &mut Rng, family: Family, order: usize, compact: bool) -> Report {
    let (value, place) = (vec![f64::from_bits(r.bits())], vec![r.bits() as i64, r.bits() as i64]);
    let mut call = if compact {
        let kind = [crate::call_compact::Name::Exchange2, crate::call_compact::Name::Transpose3, crate::call_compact::Name::Transpose4][order - 2];
        let mut like = makers::compact(r, kind);
        while like.set.len() > LARGE && r.below(20) > 0 {
            like = makers::compact(r, kind);
        }
        Report { family, order, compact, set: like.set, other: vec![], tables: like.tables, atoms: 0, r_carts: vec![], operations: vec![], num_rot: 0, value, place }
    } else {
        let mut like = makers::full(r, order);
        while like.set.len() > LARGE && r.below(20) > 0 {
            like = makers::full(r, order);
        }
        Report { family, order, compact, set: like.set, other: vec![], tables: whole(0), atoms: like.atoms, r_carts: vec![], operations: vec![], num_rot: 0, value, place }
    };
    if r.below(3) > 0 {
        rough(r, &mut call.set);
    }
    if family == Family::Sets {
        call.other = call.set.clone();
        for _ in 0..r.below(3) {
            if let Some(x) = (!call.other.is_empty()).then(|| r.below(call.other.len())) {
                call.other[x] = [f64::from_bits(r.bits()), 0.0, -call.other[x], call.other[x] + 1.0][r.below(4)];
            }
        }
    }
    if family == Family::Crystal {
        let n = if compact { call.tables.n_satom } else { call.atoms };
        call.num_rot = r.below(4);
        let exact = r.below(2) == 0;
        call.r_carts = (0..call.num_rot * 9).map(|_| if exact { r.below(3) as f64 - 1.0 } else { r.unit() * 2.0 - 1.0 }).collect();
        call.operations = (0..call.num_rot).flat_map(|_| r.order(n)).map(|a| a as i64).collect();
    }
    call
}
