//! The symmetrizers of third and fourth order that take the drift off too, which the Rust does not have: the mean over each leg's atom off every
//! number, leg by leg, and then the Rust's mean of six or 24.
use crate::call::{bytes, floats, index, Call, Lent, Parts, ATOMS, LEVEL};
use crate::call_audit::whole;
use crate::rng::Rng;
use crate::shift_records::damage;
use crate::shifts::Tables;
use crate::{c_names, fc3, fc4};

#[derive(Clone, Debug)]
pub struct Acoustic {
    /// 3 or 4.
    pub order: usize,
    pub compact: bool,
    pub set: Vec<f64>,
    /// The full call of third order has none.
    pub done: Vec<u8>,
    pub drift: Vec<f64>,
    /// Of a compact set.
    pub tables: Tables,
    /// Of a full set.
    pub atoms: usize,
    pub level: usize,
}

/// The atoms of a stored block; the first is the one that stands for the primitive cell's.
fn atoms(t: &Tables, legs: usize, block: usize) -> Vec<usize> {
    let digit = |leg: usize| block / t.n_satom.pow((legs - 1 - leg) as u32);
    (0..legs).map(|leg| if leg == 0 { t.p2s[digit(0)] as usize } else { digit(leg) % t.n_satom }).collect()
}

/// The stored block that is read out for the atoms.
fn block(t: &Tables, atoms: &[usize]) -> usize {
    let row = t.nsym_list[atoms[0]] as usize;
    atoms[1..].iter().fold(t.s2pp[atoms[0]] as usize, |b, a| b * t.n_satom + t.row(row, *a))
}

/// The numbers of a block.
fn width(order: usize) -> usize {
    3usize.pow(order as u32)
}

/// The sums over a leg's atom, from 0.0 and rising, of the read-out, where the first of the other atoms is one that stands for the primitive cell's.
fn sums(t: &Tables, order: usize, set: &[f64], leg: usize) -> Vec<f64> {
    let width = width(order);
    let mut sums = vec![0.0; t.n_patom * t.n_satom.pow(order as u32 - 2) * width];
    for (k, sum) in sums.chunks_exact_mut(width).enumerate() {
        for x in 0..t.n_satom {
            let mut legs = atoms(t, order - 1, k);
            legs.insert(leg, x);
            let from = block(t, &legs) * width;
            sum.iter_mut().zip(&set[from..from + width]).for_each(|(s, number)| *s += number);
        }
    }
    sums
}

/// Every number less the mean over a leg's atom.
pub fn drift_off(t: &Tables, order: usize, set: &mut [f64], leg: usize) {
    let (sums, part, width) = (sums(t, order, set, leg), 1.0 / t.n_satom as f64, width(order));
    for (k, numbers) in set.chunks_exact_mut(width).enumerate() {
        let mut others = atoms(t, order, k);
        others.remove(leg);
        let from = block(t, &others) * width;
        numbers.iter_mut().zip(&sums[from..from + width]).for_each(|(number, sum)| *number -= sum * part);
    }
}

impl Acoustic {
    /// The call with these tables; every slice is empty.
    pub fn compact(order: usize, tables: Tables, level: usize) -> Acoustic {
        Acoustic { order, compact: true, set: vec![], done: vec![], drift: vec![], tables, atoms: 0, level }
    }

    pub fn full(order: usize, atoms: usize, level: usize) -> Acoustic {
        Acoustic { order, compact: false, set: vec![], done: vec![], drift: vec![], tables: whole(0), atoms, level }
    }

    /// The C name without gf_.
    pub fn name(&self) -> String {
        format!("perm_trans_symmetrize{}_fc{}", if self.compact { "_compact" } else { "" }, self.order)
    }

    /// The length of the set by document 01.
    pub fn stated(&self) -> usize {
        let (first, others) = if self.compact { (self.tables.n_patom, self.tables.n_satom) } else { (self.atoms, self.atoms) };
        first * others.pow(self.order as u32 - 1) * width(self.order)
    }

    /// Of six, or of 24.
    fn mean(&mut self) {
        let (t, set) = (&self.tables, &mut self.set[..]);
        let (p2s, s2pp, nsym, perms, s, p) = (&t.p2s, &t.s2pp, &t.nsym_list, &t.perms, t.n_satom, t.n_patom);
        match (self.compact, self.order) {
            (true, 3) => fc3::set_permutation_symmetry_compact_fc3(set, p2s, s2pp, nsym, perms, s, p),
            (true, _) => fc4::set_permutation_symmetry_compact_fc4(set, p2s, s2pp, nsym, perms, s, p),
            (false, 3) => fc3::set_permutation_symmetry_fc3(set, self.atoms),
            (false, _) => fc4::set_permutation_symmetry_fc4(set, self.atoms),
        }
    }
}

impl Call for Acoustic {
    fn parts(&mut self) -> Parts<'_> {
        let Acoustic { order, compact, set, done, drift, tables: t, atoms, level } = self;
        let mut counts: Vec<(&mut usize, usize)> = vec![(level, LEVEL)];
        let mut slices: Vec<Lent> = vec![];
        let (limit, legs, width) = (ATOMS[*order], *order - 1, width(*order));
        // a block, or a byte, for each of the atoms `first` with so many of n
        let lengths = |first: usize, n: usize, others: usize, last: usize| [vec![first], vec![n; others], vec![last]].concat();
        if *compact {
            let (s, p, n) = (t.n_satom, t.n_patom, t.num_trans);
            counts.extend([(&mut t.n_satom, limit), (&mut t.n_patom, limit), (&mut t.num_trans, limit)]);
            slices.extend([floats(set, &lengths(p, s, legs, width)), index(&mut t.p2s, &[p], s), index(&mut t.s2pp, &[s], p)]);
            slices.extend([index(&mut t.nsym_list, &[s], n), index(&mut t.perms, &[n, s], s)]);
            slices.extend([bytes(done, &lengths(p, s, legs, 1)).as_work(), floats(drift, &lengths(p, s, legs - 1, width)).as_work()]);
        } else {
            let n = *atoms;
            counts.push((atoms, limit));
            slices.push(floats(set, &lengths(n, n, legs, width)));
            if *order == 4 {
                slices.push(bytes(done, &lengths(n, n, legs, 1)).as_work());
            }
            slices.push(floats(drift, &lengths(n, n, legs - 1, width)).as_work());
        }
        Parts::new(counts, slices)
    }

    fn rest(&self) -> u8 {
        if self.compact && !self.tables.obey() {
            6
        } else {
            0
        }
    }

    /// Level 0 is the mean alone.
    fn original(&mut self) -> u8 {
        let t = if self.compact { self.tables.clone() } else { whole(self.atoms) };
        if self.level == 0 {
            self.mean();
        }
        for _ in 0..self.level {
            (0..self.order).for_each(|leg| drift_off(&t, self.order, &mut self.set, leg));
            self.mean();
        }
        0
    }

    fn port(&mut self) -> u8 {
        let Acoustic { set, done, drift, tables: t, .. } = self;
        // SAFETY: slices by their pointers and lengths, no precondition.
        unsafe {
            if self.compact {
                let call = if self.order == 3 { c_names::gf_perm_trans_symmetrize_compact_fc3 } else { c_names::gf_perm_trans_symmetrize_compact_fc4 };
                call(
                    set.as_mut_ptr(), set.len(), t.p2s.as_ptr(), t.p2s.len(), t.s2pp.as_ptr(), t.s2pp.len(), t.nsym_list.as_ptr(),
                    t.nsym_list.len(), t.perms.as_ptr(), t.perms.len(), done.as_mut_ptr(), done.len(), drift.as_mut_ptr(), drift.len(),
                    t.n_satom, t.n_patom, t.num_trans, self.level,
                )
            } else if self.order == 3 {
                c_names::gf_perm_trans_symmetrize_fc3(set.as_mut_ptr(), set.len(), drift.as_mut_ptr(), drift.len(), self.atoms, self.level)
            } else {
                c_names::gf_perm_trans_symmetrize_fc4(
                    set.as_mut_ptr(), set.len(), done.as_mut_ptr(), done.len(), drift.as_mut_ptr(), drift.len(), self.atoms, self.level,
                )
            }
        }
    }

    fn spoil(&mut self, r: &mut Rng) {
        if self.compact && self.tables.sized() {
            damage(r, &mut self.tables);
        }
    }
}

#[cfg(test)]
mod tests {
    use super::*;
    use crate::call::fit;
    use crate::call_audit::read_out;
    use crate::call_drift::report;
    use crate::groups::random_tables;
    use crate::shifts::{cyclic, tables};
    use crate::wild::plain;

    /// The largest sum over a leg of the read-out, from the definition.
    fn drift(t: &Tables, order: usize, set: &[f64]) -> f64 {
        let (n, width, others) = (t.n_satom, width(order), order - 1);
        let lines = n.pow(others as u32);
        let sum = |k: usize| {
            let (leg, line, p) = (k / (lines * width), k / width % lines, k % width);
            (0..n).fold(0.0, |sum, x| {
                let mut atoms: Vec<usize> = (0..others).map(|l| line / n.pow((others - 1 - l) as u32) % n).collect();
                atoms.insert(leg, x);
                let legs: Vec<_> = atoms.iter().enumerate().map(|(l, a)| (*a, p / 3usize.pow((others - l) as u32) % 3)).collect();
                sum + read_out(t, set, &legs)
            })
        };
        report(&(0..order * lines * width).map(|k| (sum(k), [0; 2])).collect::<Vec<_>>(), [0; 2]).1
    }

    /// One level leaves rounding alone, with half shifts and without; without a turn over the first leg it does not. (Of fourth order and two atoms
    /// that a shift exchanges, the others' turns take the sums over the first leg off too.)
    #[test]
    fn no_drift_is_left() {
        let mut r = Rng::new(43);
        for order in [3; 100].into_iter().chain([4; 20]) {
            let mut call = Acoustic::compact(order, random_tables(&mut r, order, 11_000), 1);
            fit(&mut call, u128::MAX);
            call.set = plain(&mut r, call.stated());
            let mut other_legs = call.clone();
            call.original();
            assert!(drift(&call.tables, order, &call.set) < 1e-12);
            let t = other_legs.tables.clone();
            (1..order).for_each(|leg| drift_off(&t, order, &mut other_legs.set, leg));
            other_legs.mean();
            assert!(t.n_satom < order - 1 || drift(&t, order, &other_legs.set) > 1e-3);
        }
    }

    fn spread(numbers: &[f64], order: usize) -> Vec<f64> {
        numbers.iter().flat_map(|x| vec![*x; width(order)]).collect()
    }

    /// Two atoms that a half shift exchanges; all directions have the same numbers, so that every step is worked out by hand.
    #[test]
    fn by_hand() {
        let mut call = Acoustic::compact(3, tables(&cyclic(2), 1, None), 1);
        fit(&mut call, u128::MAX);
        call.set = spread(&[16.0, 8.0, 4.0, 0.0], 3);
        drift_off(&call.tables, 3, &mut call.set, 0);
        // over the first leg (0, 0) adds 16 and, of atom 1, what stands at (1, 1): 16; (0, 1) adds 8 and 4
        assert_eq!(call.set, spread(&[8.0, 2.0, -2.0, -8.0], 3));
        drift_off(&call.tables, 3, &mut call.set, 1);
        assert_eq!(call.set, spread(&[5.0, 5.0, -5.0, -5.0], 3));
        drift_off(&call.tables, 3, &mut call.set, 2);
        assert_eq!(call.set, spread(&[0.0, 0.0, 0.0, 0.0], 3));
        // a full set is its own read-out
        let mut full = Acoustic::full(3, 2, 1);
        fit(&mut full, u128::MAX);
        full.set = spread(&[0.0, 1.0, 4.0, 9.0, 16.0, 25.0, 36.0, 49.0], 3);
        drift_off(&whole(2), 3, &mut full.set, 0);
        assert_eq!(full.set, spread(&[-8.0, -12.0, -16.0, -20.0, 8.0, 12.0, 16.0, 20.0], 3));
        // of fourth order what has no drift turns its sign with each atom
        let mut fourth = Acoustic::compact(4, tables(&cyclic(2), 1, None), 1);
        fit(&mut fourth, u128::MAX);
        fourth.set[..81].fill(8.0);
        fourth.original();
        assert_eq!(fourth.set, spread(&[1.0, -1.0, -1.0, 1.0, -1.0, 1.0, 1.0, -1.0], 4));
    }
}
