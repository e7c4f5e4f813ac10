//! The distributors of third and fourth order.
use crate::call::{floats, index, Call, Parts, ATOMS};
use crate::rng::Rng;
use crate::{c_names, fc3, fc4};

#[derive(Clone, Debug)]
pub struct Slabs {
    pub order: usize,
    pub set: Vec<f64>,
    pub target: usize,
    pub source: usize,
    pub map: Vec<i64>,
    pub rotation: Vec<f64>,
    pub num_atom: usize,
    pub num_first: usize,
}

impl Call for Slabs {
    fn parts(&mut self) -> Parts<'_> {
        let (n, limit) = (self.num_atom, ATOMS[self.order]);
        let mut set = vec![self.num_first, 3usize.pow(self.order as u32)];
        set.extend(vec![n; self.order - 1]);
        let counts = vec![(&mut self.num_atom, limit), (&mut self.num_first, limit)];
        Parts::new(counts, vec![floats(&mut self.set, &set), index(&mut self.map, &[n], n), floats(&mut self.rotation, &[9])])
    }

    /// Refusal 4: a slab that the set does not have, or one slab as source and target.
    fn rest(&self) -> u8 {
        if self.source >= self.num_first || self.target >= self.num_first || self.source == self.target {
            4
        } else {
            0
        }
    }

    fn original(&mut self) -> u8 {
        let distribute = if self.order == 3 { fc3::distribute_fc3 } else { fc4::distribute_fc4 };
        distribute(&mut self.set, self.target, self.source, &self.map, self.num_atom, &self.rotation);
        0
    }

    fn port(&mut self) -> u8 {
        let distribute = if self.order == 3 { c_names::gf_distribute_fc3 } else { c_names::gf_distribute_fc4 };
        // SAFETY: slices by their pointers and lengths, no precondition.
        unsafe {
            distribute(
                self.set.as_mut_ptr(), self.set.len(), self.target, self.source, self.map.as_ptr(), self.map.len(),
                self.num_atom, self.rotation.as_ptr(), self.rotation.len(), self.num_first,
            )
        }
    }

    /// The target slab.
    fn made(&self, slice: usize, k: usize) -> bool {
        let slab = self.num_atom.pow(self.order as u32 - 1) * 3usize.pow(self.order as u32);
        slice == 0 && k / slab == self.target
    }

    fn spoil(&mut self, r: &mut Rng) {
        let n = self.num_first;
        let slab = [n, n.wrapping_add(1), n.wrapping_sub(1), usize::MAX, self.source, self.target, 0][r.below(7)];
        *[&mut self.target, &mut self.source][r.below(2)] = slab;
    }
}
