//! The drift report, which the Rust does not have: documents 01 and 02 (A.4) as plain Rust.
use crate::c_names;
use crate::call::{floats, integers, Call, Parts, ATOMS};

#[derive(Clone, Debug)]
pub struct Drift {
    pub set: Vec<f64>,
    pub value: Vec<f64>,
    /// 0 for rows or 1 for columns, the atom and two directions.
    pub place: Vec<i64>,
    pub n_satom: usize,
}

pub const STILL: u8 = 65;
pub const WORST: u8 = 66;
pub const NO_NUMBER: u8 = 67;

impl Drift {
    /// All sums with their places, in the order of the places: the rows (summed over the second atom), then the columns (over the first).
    fn sums(&self) -> Vec<(f64, [i64; 4])> {
        let n = self.n_satom;
        let mut sums = vec![];
        for along in 0..2 {
            for atom in 0..n {
                for kl in 0..9 {
                    let block = |other| if along == 0 { atom * n + other } else { other * n + atom };
                    let sum = (0..n).fold(0.0, |sum, other| sum + self.set[block(other) * 9 + kl]);
                    sums.push((sum, [along, atom as i64, kl as i64 / 3, kl as i64 % 3]));
                }
            }
        }
        sums
    }
}

/// The report of sums that come in the order of their places: the first NaN if there is one, else the first of the largest, else still, whose place is given.
pub fn report<P: Copy>(sums: &[(f64, P)], still: P) -> (u8, f64, P) {
    if let Some((_, first)) = sums.iter().find(|s| s.0.is_nan()) {
        return (NO_NUMBER, f64::NAN, *first);
    }
    let worst = sums.iter().fold(0.0, |worst: f64, s| worst.max(s.0.abs()));
    match sums.iter().find(|s| s.0.abs() == worst) {
        Some((_, first)) if worst > 0.0 => (WORST, worst, *first),
        _ => (STILL, 0.0, still),
    }
}

impl Call for Drift {
    fn parts(&mut self) -> Parts<'_> {
        let n = self.n_satom;
        let counts = vec![(&mut self.n_satom, ATOMS[2])];
        Parts::new(counts, vec![floats(&mut self.set, &[n, n, 9]), floats(&mut self.value, &[1]), integers(&mut self.place, &[4])])
    }

    fn original(&mut self) -> u8 {
        let (answer, value, place) = report(&self.sums(), [0; 4]);
        (self.value[0], self.place) = (value, place.to_vec());
        answer
    }

    fn port(&mut self) -> u8 {
        // SAFETY: slices by their pointers and lengths, no precondition; usize has the size of i64.
        unsafe {
            c_names::gf_drift_report(
                self.set.as_ptr(), self.set.len(), self.value.as_mut_ptr(), self.value.len(),
                self.place.as_mut_ptr() as *mut usize, self.place.len(), self.n_satom,
            )
        }
    }

    /// The value.
    fn made(&self, slice: usize, _: usize) -> bool {
        slice == 1
    }
}
