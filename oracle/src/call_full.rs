//! The symmetrizers of full sets, of every order.
use crate::call::{bytes, floats, Call, Parts, ATOMS, LEVEL};
use crate::{c_names, fc2, fc3, fc4};

#[derive(Clone, Debug)]
pub struct Full {
    pub order: usize,
    pub set: Vec<f64>,
    /// Only fourth order has a work slice.
    pub done: Vec<u8>,
    pub atoms: usize,
    /// Only second order has it.
    pub level: usize,
}

impl Full {
    pub fn new(order: usize, atoms: usize) -> Full {
        Full { order, set: vec![], done: vec![], atoms, level: 0 }
    }

    /// The length of the set by document 01.
    pub fn stated(&self) -> usize {
        (3 * self.atoms).pow(self.order as u32)
    }
}

impl Call for Full {
    fn parts(&mut self) -> Parts<'_> {
        let (order, n) = (self.order, self.atoms);
        let mut counts = vec![(&mut self.atoms, ATOMS[order])];
        if order == 2 {
            counts.push((&mut self.level, LEVEL));
        }
        let mut slices = vec![floats(&mut self.set, &vec![3 * n.min(1 << 60); order])];
        if order == 4 {
            slices.push(bytes(&mut self.done, &[n; 4]).as_work());
        }
        Parts::new(counts, slices)
    }

    fn original(&mut self) -> u8 {
        match self.order {
            2 => fc2::perm_trans_symmetrize_fc(&mut self.set, self.atoms, self.level),
            3 => fc3::set_permutation_symmetry_fc3(&mut self.set, self.atoms),
            _ => fc4::set_permutation_symmetry_fc4(&mut self.set, self.atoms),
        }
        0
    }

    fn port(&mut self) -> u8 {
        let (set, length) = (self.set.as_mut_ptr(), self.set.len());
        // SAFETY, for each: slices by their pointers and lengths, no precondition.
        match self.order {
            2 => unsafe { c_names::gf_perm_trans_symmetrize_fc(set, length, self.atoms, self.level) },
            3 => unsafe { c_names::gf_set_permutation_symmetry_fc3(set, length, self.atoms) },
            _ => unsafe {
                c_names::gf_set_permutation_symmetry_fc4(set, length, self.done.as_mut_ptr(), self.done.len(), self.atoms)
            },
        }
    }
}
