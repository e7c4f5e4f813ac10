//! `compact_to_full_fc2` and its like (document 02, A.11), which the Rust does not have: beside the read-out of document 01,
//! number by number.
use crate::call::{floats, index, Call, Parts, ATOMS};
use crate::compare_true::{address, choice};
use crate::rng::Rng;
use crate::shift_records::damage;
use crate::shifts::Tables;
use crate::c_names;

#[derive(Clone, Debug)]
pub struct ReadOut {
    pub order: usize,
    pub full: Vec<f64>,
    pub set: Vec<f64>,
    pub tables: Tables,
}

impl ReadOut {
    /// The call with these tables and sets of the stated lengths, which hold zeros.
    pub fn new(order: usize, tables: Tables) -> ReadOut {
        let numbers = |first: usize| vec![0.0; first * tables.n_satom.pow(order as u32 - 1) * 3usize.pow(order as u32)];
        ReadOut { order, full: numbers(tables.n_satom), set: numbers(tables.n_patom), tables }
    }
}

impl Call for ReadOut {
    fn parts(&mut self) -> Parts<'_> {
        let (order, t) = (self.order, &mut self.tables);
        let (s, p, n) = (t.n_satom, t.n_patom, t.num_trans);
        let others = [vec![3usize.pow(order as u32)], vec![s; order - 1]].concat();
        let numbers = |first: usize| [vec![first], others.clone()].concat();
        let limit = ATOMS[order];
        let counts = vec![(&mut t.n_satom, limit), (&mut t.n_patom, limit), (&mut t.num_trans, limit)];
        let slices = vec![
            floats(&mut self.full, &numbers(s)),
            floats(&mut self.set, &numbers(p)),
            index(&mut t.p2s, &[p], s),
            index(&mut t.s2pp, &[s], p),
            index(&mut t.nsym_list, &[s], n),
            index(&mut t.perms, &[n, s], s),
        ];
        Parts::new(counts, slices)
    }

    fn rest(&self) -> u8 {
        if self.tables.obey() {
            0
        } else {
            6
        }
    }

    /// By document 01: at any atoms and directions stands what the compact set reads out for them.
    fn original(&mut self) -> u8 {
        let t = &self.tables;
        let number = |k: usize| self.set[address(t, &choice(k, self.order, t.n_satom, |a| a))];
        self.full = (0..self.full.len()).map(number).collect();
        0
    }

    fn port(&mut self) -> u8 {
        let (full, set, t) = (&mut self.full, &self.set, &self.tables);
        let call = [c_names::gf_compact_to_full_fc2, c_names::gf_compact_to_full_fc3, c_names::gf_compact_to_full_fc4][self.order - 2];
        // SAFETY: slices by their pointers and lengths, no precondition.
        unsafe {
            call(
                full.as_mut_ptr(), full.len(), set.as_ptr(), set.len(), t.p2s.as_ptr(), t.p2s.len(), t.s2pp.as_ptr(), t.s2pp.len(),
                t.nsym_list.as_ptr(), t.nsym_list.len(), t.perms.as_ptr(), t.perms.len(), t.n_satom, t.n_patom, t.num_trans,
            )
        }
    }

    /// Every number is moved.
    fn made(&self, _: usize, _: usize) -> bool {
        false
    }

    fn spoil(&mut self, r: &mut Rng) {
        if self.tables.sized() {
            damage(r, &mut self.tables);
        }
    }
}
