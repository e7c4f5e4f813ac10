//! The matching of atoms.
use crate::call::{bytes, floats, integers, Call, Parts, ATOMS};
use crate::{c_names, cells};

#[derive(Clone, Debug)]
pub struct Matching {
    pub slots: Vec<i64>,
    pub lattice: Vec<f64>,
    pub symprec: f64,
    /// Whether the cell repeats along each axis: 0 if it does not.
    pub periodic: Vec<u8>,
    pub pos: Vec<f64>,
    pub rot_pos: Vec<f64>,
    /// The position and the slot that a failed match names.
    pub pair: Vec<i64>,
    pub num_pos: usize,
}

/// The numbers for "not matched" beside those of the refusals: a plain false, and one that names a pair, which the Rust
/// does not do.
pub const FALSE: u8 = 64;
pub const NO_NUMBER: u8 = 69;

/// A flag for each axis: the cells of the Rust.
pub const EVERYWHERE: [u8; 3] = [1; 3];

/// The distance of a position and a rotated position, as the Rust works it out; along an axis without a flag
/// (document 02, A.9) the whole difference counts.
pub fn distance(lattice: &[f64], periodic: &[u8], pos: &[f64], rot_pos: &[f64]) -> f64 {
    let mut diff = [0.0; 3];
    for (k, x) in diff.iter_mut().enumerate() {
        *x = pos[k] - rot_pos[k];
        if periodic[k] != 0 {
            *x -= x.round();
        }
    }
    let mut squares = 0.0;
    for row in lattice.chunks(3) {
        let mut component = 0.0;
        for (a, x) in row.iter().zip(diff) {
            component += a * x;
        }
        squares += component * component;
    }
    squares.sqrt()
}

/// Document 02, A.3: the first pair with a NaN distance, of those of a position and a free slot that the search comes to.
pub fn first_no_number(lattice: &[f64], periodic: &[u8], symprec: f64, pos: &[f64], rot_pos: &[f64]) -> Option<[usize; 2]> {
    let mut free = vec![true; rot_pos.len() / 3];
    for (i, atom) in pos.chunks(3).enumerate() {
        for (j, slot) in rot_pos.chunks(3).enumerate() {
            let d = if free[j] { distance(lattice, periodic, atom, slot) } else { continue };
            if d.is_nan() {
                return Some([i, j]);
            }
            if d < symprec {
                free[j] = false;
                break;
            }
        }
    }
    None
}

/// The greedy search of document 01: one position after another goes to the first free slot that is near. The slots, and whether all are filled.
fn greedy_by_text(lattice: &[f64], periodic: &[u8], symprec: f64, pos: &[f64], rot_pos: &[f64]) -> (bool, Vec<i64>) {
    let mut slots = vec![-1; rot_pos.len() / 3];
    for (i, atom) in pos.chunks(3).enumerate() {
        let near = |j: usize| distance(lattice, periodic, atom, &rot_pos[j * 3..j * 3 + 3]) < symprec;
        if let Some(j) = (0..slots.len()).find(|j| slots[*j] < 0 && near(*j)) {
            slots[j] = i as i64;
        }
    }
    (slots.iter().all(|s| *s >= 0), slots)
}

/// Greedy matching: the Rust's where the cell has three flags, and the search above for the others, which the Rust does not have.
pub fn greedy(lattice: &[f64], periodic: &[u8], symprec: f64, pos: &[f64], rot_pos: &[f64]) -> (bool, Vec<i64>) {
    if periodic.contains(&0) {
        return greedy_by_text(lattice, periodic, symprec, pos, rot_pos);
    }
    let nine: &[f64; 9] = lattice.try_into().expect("nine numbers");
    let mut slots = vec![0; pos.len() / 3];
    let all = cells::compute_permutation(&mut slots, nine, pos, rot_pos, pos.len() / 3, symprec);
    (all, slots)
}

impl Call for Matching {
    fn parts(&mut self) -> Parts<'_> {
        let n = self.num_pos;
        let counts = vec![(&mut self.num_pos, ATOMS[2])];
        let slices = vec![
            integers(&mut self.slots, &[n]),
            floats(&mut self.lattice, &[9]),
            bytes(&mut self.periodic, &[3]),
            floats(&mut self.pos, &[3, n]),
            floats(&mut self.rot_pos, &[3, n]),
            integers(&mut self.pair, &[2]),
        ];
        Parts::new(counts, slices)
    }

    fn original(&mut self) -> u8 {
        let all;
        (all, self.slots) = greedy(&self.lattice, &self.periodic, self.symprec, &self.pos, &self.rot_pos);
        if all {
            return 0;
        }
        match first_no_number(&self.lattice, &self.periodic, self.symprec, &self.pos, &self.rot_pos) {
            Some(pair) => {
                self.pair = pair.map(|k| k as i64).to_vec();
                NO_NUMBER
            }
            None => FALSE,
        }
    }

    fn port(&mut self) -> u8 {
        // SAFETY: slices by their pointers and lengths, no precondition; usize has the size of i64.
        unsafe {
            c_names::gf_compute_permutation(
                self.slots.as_mut_ptr(), self.slots.len(), self.lattice.as_ptr(), self.lattice.len(), self.symprec,
                self.periodic.as_ptr(), self.periodic.len(), self.pos.as_ptr(), self.pos.len(), self.rot_pos.as_ptr(), self.rot_pos.len(),
                self.pair.as_mut_ptr() as *mut usize, self.pair.len(), self.num_pos,
            )
        }
    }
}
