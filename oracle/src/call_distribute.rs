//! The distributor of second order.
use crate::call::{floats, index, integers, Call, Parts, ATOMS, LIST};
use crate::rng::Rng;
use crate::{c_names, fc2};

#[derive(Clone, Debug)]
pub struct Distribute {
    pub set: Vec<f64>,
    pub atom_list: Vec<i64>,
    pub fc_indices: Vec<i64>,
    pub r_carts: Vec<f64>,
    pub permutations: Vec<i64>,
    pub map_atoms: Vec<i64>,
    pub map_syms: Vec<i64>,
    pub reverse: Vec<i64>,
    pub num_pos: usize,
    pub num_first: usize,
    pub num_rot: usize,
}

impl Call for Distribute {
    fn parts(&mut self) -> Parts<'_> {
        let (n, first, rot, list) = (self.num_pos, self.num_first, self.num_rot, self.atom_list.len());
        let counts = vec![(&mut self.num_pos, ATOMS[2]), (&mut self.num_first, ATOMS[2]), (&mut self.num_rot, LIST)];
        let slices = vec![
            floats(&mut self.set, &[first, n, 9]),
            index(&mut self.atom_list, &[list], n),
            index(&mut self.fc_indices, &[list], first),
            floats(&mut self.r_carts, &[rot, 9]),
            index(&mut self.permutations, &[rot, n], n),
            index(&mut self.map_atoms, &[n], n),
            index(&mut self.map_syms, &[n], rot),
            integers(&mut self.reverse, &[n]).as_work(),
        ];
        Parts { counts, list, slices }
    }

    /// Refusal 5: some listed atom has a representative that the list does not have, or that another atom represents.
    fn rest(&self) -> u8 {
        let represents = |a: &i64| self.map_atoms[*a as usize];
        let good = |a: &i64| self.atom_list.contains(&represents(a)) && represents(&represents(a)) == represents(a);
        if self.atom_list.iter().all(good) {
            0
        } else {
            5
        }
    }

    fn original(&mut self) -> u8 {
        fc2::distribute_fc2(
            &mut self.set, &self.atom_list, &self.fc_indices, &self.r_carts, &self.permutations, &self.map_atoms, &self.map_syms,
            self.num_pos,
        );
        0
    }

    fn port(&mut self) -> u8 {
        // SAFETY: slices by their pointers and lengths, no precondition.
        unsafe {
            c_names::gf_distribute_fc2(
                self.set.as_mut_ptr(), self.set.len(), self.atom_list.as_ptr(), self.atom_list.len(), self.fc_indices.as_ptr(),
                self.fc_indices.len(), self.r_carts.as_ptr(), self.r_carts.len(), self.permutations.as_ptr(),
                self.permutations.len(), self.map_atoms.as_ptr(), self.map_atoms.len(), self.map_syms.as_ptr(),
                self.map_syms.len(), self.reverse.as_mut_ptr(), self.reverse.len(), self.num_pos, self.num_first, self.num_rot,
            )
        }
    }

    /// The rows of listed atoms that do not represent themselves.
    fn made(&self, slice: usize, k: usize) -> bool {
        let filled = |(a, row): (&i64, &i64)| *row as usize == k / (9 * self.num_pos) && self.map_atoms[*a as usize] != *a;
        slice == 0 && self.atom_list.iter().zip(&self.fc_indices).any(filled)
    }

    fn spoil(&mut self, r: &mut Rng) {
        let n = self.num_pos.clamp(1, 1 << 20);
        match r.below(4) {
            // a representative is no longer listed, or one more atom is
            0 if !self.atom_list.is_empty() => drop(self.atom_list.remove(r.below(self.atom_list.len()))),
            1 => self.atom_list.push(r.below(n) as i64),
            // a list far too long
            2 if r.below(8) == 0 => self.atom_list.resize(LIST - 1 + r.below(3), 0),
            _ if !self.map_atoms.is_empty() => {
                let at = r.below(self.map_atoms.len());
                self.map_atoms[at] = r.below(n) as i64;
            }
            _ => {}
        }
        // the other list keeps to the first, most times
        if r.below(5) > 0 {
            self.fc_indices.resize(self.atom_list.len(), 0);
        }
    }
}
