//! Recorded answers of the originals' distribute and rotate_delta calls of third and fourth order.
use crate::call::LIST;
use crate::fc_records::{limit, shorten, width};
use crate::record::{counted, report, Record, Replay};
use crate::rng::Rng;
use crate::values::{floats, sum, KINDS, MINUS_ZEROS, POSITIVE, TINY};
use crate::{fc3, fc4};

/// A distribute call.
#[derive(Clone)]
struct Distribute {
    order: u32,
    seed: u64,
    kind: u64,
    rotation_kind: u64,
    target: usize,
    source: usize,
    num_atom: usize,
    num_first: usize,
    set: usize,
    rotation: usize,
    map: Vec<i64>,
}

impl Distribute {
    fn new(order: u32, num_atom: usize, num_first: usize, map: Vec<i64>) -> Distribute {
        let mut call = Distribute {
            order,
            seed: 0,
            kind: 0,
            rotation_kind: 0,
            target: 1,
            source: 0,
            num_atom,
            num_first,
            set: 0,
            rotation: 9,
            map,
        };
        call.set = call.stated();
        call
    }

    /// The length of the set.
    fn stated(&self) -> usize {
        self.num_first.saturating_mul(self.num_atom.saturating_pow(self.order - 1)).saturating_mul(width(self.order))
    }

    /// The refusal by document 01, or 0.
    fn refusal(&self) -> u64 {
        let most = limit(self.order);
        if self.num_atom > most || self.num_first > most {
            1
        } else if self.set != self.stated() || self.map.len() != self.num_atom || self.rotation != 9 {
            2
        } else if self.map.iter().any(|x| *x < 0 || *x >= self.num_atom as i64) {
            3
        } else if self.target >= self.num_first || self.source >= self.num_first || self.target == self.source {
            4
        } else {
            0
        }
    }

    /// The set after the call.
    fn left(&self) -> Vec<f64> {
        let mut set = floats(self.set, self.seed, self.kind);
        let rotation = floats(self.rotation, self.seed + 1, self.rotation_kind);
        match (self.refusal(), self.order) {
            (0, 3) => fc3::distribute_fc3(&mut set, self.target, self.source, &self.map, self.num_atom, &rotation),
            (0, _) => fc4::distribute_fc4(&mut set, self.target, self.source, &self.map, self.num_atom, &rotation),
            _ => {}
        }
        set
    }

    fn record(&self) -> Record {
        assert!(self.set <= 32768 && self.map.len() <= 16 && self.rotation <= 16, "no room");
        let mut words = vec![self.refusal(), sum(&self.left()), self.order as u64, self.seed, self.kind];
        words.extend([self.set, self.target, self.source, self.num_atom, self.num_first].map(|n| n as u64));
        words.extend([self.map.len() as u64, self.rotation as u64, self.rotation_kind]);
        words.extend(self.map.iter().map(|x| *x as u64));
        counted(words)
    }
}

/// A map of the atoms: any order of them, or any atom for each.
fn some_map(r: &mut Rng, n: usize) -> Vec<i64> {
    if n > 0 && r.below(3) == 0 {
        return (0..n).map(|_| r.below(n) as i64).collect();
    }
    r.order(n).into_iter().map(|a| a as i64).collect()
}

fn distributed(order: u32, r: &mut Rng) -> Vec<Distribute> {
    let mut calls = vec![];
    for num_atom in 0..=4 {
        for num_first in 2..=4 {
            for k in 0..4 {
                let mut call = Distribute::new(order, num_atom, num_first, some_map(r, num_atom));
                call.target = r.below(num_first);
                call.source = (call.target + 1 + r.below(num_first - 1)) % num_first;
                (call.kind, call.rotation_kind) = [(0, 0), (r.bits() % KINDS, 0), (0, r.bits() % KINDS), (7, 1)][k];
                calls.push(call);
            }
        }
    }
    // each slab from each other one; blocks of -0.0, which sums from 0.0 make +0.0; numbers that are rounded to subnormal ones
    for (target, source) in [(0, 1), (1, 0), (0, 2), (2, 0), (1, 2), (2, 1)] {
        for (kind, rotation_kind) in [(0, 0), (MINUS_ZEROS, POSITIVE), (TINY, 0)] {
            let map = some_map(r, 2);
            calls.push(Distribute { target, source, kind, rotation_kind, ..Distribute::new(order, 2, 3, map) });
        }
    }
    let most = limit(order);
    for (num_atom, num_first) in [(0, most), (0, most + 1), (most + 1, 2), (2, most + 1), (usize::MAX, 2), (2, usize::MAX), (0, 0), (0, 1), (1, 1), (2, 0)] {
        calls.push(Distribute::new(order, num_atom.min(most + 1), num_first, vec![0; num_atom.min(2)]));
        let call = calls.last_mut().unwrap();
        call.num_atom = num_atom;
        call.set = if num_atom <= most && num_first <= most { call.stated() } else { 7 };
    }
    // at the limits and one above, with the lengths of two atoms
    for (num_atom, num_first) in [(most, 3), (most + 1, 3), (2, most), (2, most + 1)] {
        calls.push(Distribute { num_atom, num_first, ..Distribute::new(order, 2, 3, vec![1, 0]) });
    }
    calls.extend(damaged(&Distribute::new(order, 2, 3, vec![1, 0])));
    calls
}

/// A call damaged in every way that document 01 names.
fn damaged(base: &Distribute) -> Vec<Distribute> {
    let mut calls = vec![];
    let mut with = |change: &dyn Fn(&mut Distribute)| {
        let mut call = base.clone();
        change(&mut call);
        calls.push(call);
    };
    // lengths one off, with a bad entry and a bad slab too
    let lengths: [fn(&mut Distribute); 6] = [
        |c| c.set -= 1,
        |c| c.set += 1,
        |c| c.rotation = 8,
        |c| c.rotation = 10,
        |c| c.map.push(0),
        |c| shorten(&mut c.map),
    ];
    for change in lengths {
        with(&change);
        with(&|c| {
            change(c);
            c.map[0] = -1;
        });
        with(&|c| {
            change(c);
            c.map[0] = -1;
            c.target = 9;
        });
    }
    for bad in [-1, 2, i64::MIN, i64::MAX] {
        for at in 0..2 {
            with(&|c| c.map[at] = bad);
            // a bad slab beside it does not matter
            with(&|c| {
                c.map[at] = bad;
                c.target = 0;
            });
        }
    }
    for (target, source) in [(3, 0), (0, 3), (usize::MAX, 0), (0, usize::MAX), (3, 3), (0, 0), (2, 2), (4, 5)] {
        with(&|c| (c.target, c.source) = (target, source));
    }
    calls
}

pub fn distribute() -> Replay {
    let mut r = Rng::new(40);
    let mut records = vec![];
    for order in [3, 4] {
        for (k, mut call) in distributed(order, &mut r).into_iter().enumerate() {
            call.seed = 10000 * order as u64 + 10 * k as u64;
            records.push(call.record());
        }
    }
    let stdout = report("distributed", &records, 1);
    Replay::new(records, stdout, 1)
}

/// A call of rotate_delta_fc2s (order 3) or rotate_delta_fc3s (order 4).
#[derive(Clone)]
struct Delta {
    order: u32,
    seed: u64,
    kind: u64,
    matrix_kind: u64,
    num_atom: usize,
    num_site_sym: usize,
    num_disp: usize,
    /// of the result, the deltas, inv_u, site_sym_cart and the work slice
    lengths: [usize; 5],
    map: Vec<i64>,
}

impl Delta {
    fn new(order: u32, num_atom: usize, num_site_sym: usize, num_disp: usize, map: Vec<i64>) -> Delta {
        let mut call = Delta { order, seed: 0, kind: 0, matrix_kind: 0, num_atom, num_site_sym, num_disp, lengths: [0; 5], map };
        call.lengths = call.stated();
        call
    }

    /// The lengths that document 01 states.
    fn stated(&self) -> [usize; 5] {
        let groups = self.num_atom.saturating_pow(self.order - 1);
        let total = self.num_disp.saturating_mul(self.num_site_sym);
        let block = width(self.order - 1);
        [
            groups.saturating_mul(width(self.order)),
            self.num_disp.saturating_mul(groups).saturating_mul(block),
            total.saturating_mul(3),
            self.num_site_sym.saturating_mul(9),
            total.saturating_mul(block),
        ]
    }

    /// The refusal by document 01, or 0.
    fn refusal(&self) -> u64 {
        if self.num_atom > limit(self.order) || self.num_site_sym > LIST || self.num_disp > LIST {
            1
        } else if self.lengths != self.stated() || self.map.len() != self.num_site_sym * self.num_atom {
            2
        } else if self.map.iter().any(|x| *x < 0 || *x >= self.num_atom as i64) {
            3
        } else {
            0
        }
    }

    /// The result and the work slice after the call.
    fn left(&self) -> (Vec<f64>, Vec<f64>) {
        let [result, deltas, inv_u, site_sym_cart, work] = self.lengths;
        let deltas = floats(deltas, self.seed, self.kind);
        let inv_u = floats(inv_u, self.seed + 1, self.matrix_kind);
        let site_sym_cart = floats(site_sym_cart, self.seed + 2, self.matrix_kind);
        let mut result = floats(result, self.seed + 3, self.kind);
        let mut work = floats(work, self.seed + 4, self.kind);
        if self.refusal() == 0 {
            let call = if self.order == 3 { fc3::rotate_delta_fc2s } else { fc4::rotate_delta_fc3s };
            call(&mut result, &deltas, &inv_u, &site_sym_cart, &self.map, self.num_atom, self.num_site_sym, self.num_disp);
            work.fill(0.0);
        }
        (result, work)
    }

    fn record(&self) -> Record {
        let room = [6144, 4096, 128, 128, 1024];
        assert!((0..5).all(|k| self.lengths[k] <= room[k]) && self.map.len() <= 128, "no room");
        let (result, work) = self.left();
        let mut words = vec![self.refusal(), sum(&result), sum(&work), self.order as u64 - 1, self.seed, self.kind, self.matrix_kind];
        let [result, deltas, inv_u, site_sym_cart, work] = self.lengths;
        words.extend([result, deltas, inv_u, site_sym_cart, self.map.len(), work].map(|n| n as u64));
        words.extend([self.num_atom, self.num_site_sym, self.num_disp].map(|n| n as u64));
        words.extend(self.map.iter().map(|x| *x as u64));
        counted(words)
    }
}

fn rotated(order: u32, r: &mut Rng) -> Vec<Delta> {
    let mut calls = vec![];
    for num_atom in 0..=3 {
        for num_site_sym in 0..=4 {
            for num_disp in 0..=3 {
                let map = |r: &mut Rng| (0..num_site_sym).flat_map(|_| some_map(r, num_atom)).collect();
                let mut call = Delta::new(order, num_atom, num_site_sym, num_disp, map(r));
                (call.kind, call.matrix_kind) = [(0, 0), (r.bits() % KINDS, 0), (0, r.bits() % KINDS), (7, 1)][r.below(4)];
                calls.push(call);
            }
        }
    }
    for kind in 0..KINDS {
        for matrix_kind in [0, kind] {
            let map = (0..4).flat_map(|_| some_map(r, 2)).collect();
            calls.push(Delta { kind, matrix_kind, ..Delta::new(order, 2, 4, 2, map) });
        }
    }
    // blocks of -0.0, which sums from 0.0 make +0.0
    for (num_site_sym, num_disp) in [(1, 1), (2, 1), (1, 2), (3, 2)] {
        for (kind, matrix_kind) in [(MINUS_ZEROS, POSITIVE), (POSITIVE, MINUS_ZEROS), (TINY, 0)] {
            let map = (0..num_site_sym).flat_map(|_| some_map(r, 2)).collect();
            calls.push(Delta { kind, matrix_kind, ..Delta::new(order, 2, num_site_sym, num_disp, map) });
        }
    }
    // counts at the limit: with no atoms there is nothing to add up, and with no site symmetry all is zero
    calls.push(Delta::new(order, 1, 0, 100, vec![]));
    calls.push(Delta::new(order, 0, 14, 0, vec![]));
    calls.push(Delta::new(order, 0, 0, 1024, vec![]));
    calls.extend(damaged_deltas(&Delta::new(order, 2, 2, 2, vec![1, 0, 0, 1])));
    calls
}

/// A call damaged in every way that document 01 names.
fn damaged_deltas(base: &Delta) -> Vec<Delta> {
    let mut calls = vec![];
    let mut with = |change: &dyn Fn(&mut Delta)| {
        let mut call = base.clone();
        change(&mut call);
        calls.push(call);
    };
    let most = limit(base.order);
    let mut changes: Vec<Box<dyn Fn(&mut Delta)>> = vec![
        Box::new(move |c| c.num_atom = most),
        Box::new(move |c| c.num_atom = most + 1),
        Box::new(|c| c.num_site_sym = LIST),
        Box::new(|c| c.num_disp = LIST),
        Box::new(|c| c.map.push(0)),
        Box::new(|c| shorten(&mut c.map)),
        Box::new(|c| c.num_atom = 3),
        Box::new(|c| c.num_disp = 0),
        Box::new(|c| c.num_site_sym = 0),
    ];
    for large in [LIST + 1, usize::MAX] {
        changes.push(Box::new(move |c| c.num_atom = large));
        changes.push(Box::new(move |c| c.num_site_sym = large));
        changes.push(Box::new(move |c| c.num_disp = large));
    }
    for k in 0..5 {
        changes.push(Box::new(move |c| c.lengths[k] -= 1));
        changes.push(Box::new(move |c| c.lengths[k] += 1));
    }
    // alone and with a bad entry
    for change in &changes {
        with(change);
        with(&|c| {
            change(c);
            c.map[0] = 2;
        });
    }
    for bad in [-1, 2, i64::MIN, i64::MAX] {
        for at in 0..4 {
            with(&|c| c.map[at] = bad);
        }
    }
    // an index table is judged where nothing reads it
    with(&|c| {
        *c = Delta::new(c.order, 2, 2, 0, vec![1, 0, 5, 1]);
    });
    calls
}

pub fn deltas() -> Replay {
    let mut r = Rng::new(50);
    let mut records = vec![];
    for order in [3, 4] {
        for (k, mut call) in rotated(order, &mut r).into_iter().enumerate() {
            call.seed = 10000 * order as u64 + 10 * k as u64;
            records.push(call.record());
        }
    }
    let stdout = report("rotated", &records, 1);
    Replay::new(records, stdout, 1)
}

#[cfg(test)]
mod tests {
    use super::*;

    fn calls(order: u32) -> Vec<Distribute> {
        distributed(order, &mut Rng::new(40)).into_iter().filter(|call| call.refusal() == 0 && call.num_atom > 0).collect()
    }

    // a distributor that takes target for source leaves another set
    #[test]
    fn exchanged_slabs_are_told_apart() {
        for call in [calls(3), calls(4)].concat().iter().filter(|call| (call.kind, call.rotation_kind) == (0, 0)) {
            let other = Distribute { target: call.source, source: call.target, ..call.clone() };
            assert_ne!(sum(&call.left()), sum(&other.left()));
        }
    }

    // every product is -0.0, so a sum that does not begin at 0.0 is -0.0
    #[test]
    fn sums_begin_at_zero() {
        let zeros = |numbers: &[f64]| numbers.iter().all(|x| x.to_bits() == 0);
        for order in [3, 4] {
            let of_kind: Vec<Distribute> = calls(order).into_iter().filter(|call| call.kind == MINUS_ZEROS && call.rotation_kind == POSITIVE).collect();
            assert!(of_kind.len() > 5);
            for call in of_kind {
                let slab = call.set / call.num_first;
                assert!(zeros(&call.left()[call.target * slab..][..slab]));
            }
            let deltas = rotated(order, &mut Rng::new(50)).into_iter();
            let of_kind: Vec<Delta> = deltas.filter(|call| call.kind == MINUS_ZEROS && call.matrix_kind == POSITIVE).collect();
            assert!(of_kind.len() > 3 && of_kind.iter().all(|call| zeros(&call.left().0)));
        }
    }
}
