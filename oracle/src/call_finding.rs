//! `find_permutation` (document 02, A.6), which the Rust does not have, as plain Rust.
use crate::call::{bytes, floats, integers, Call, Parts, ATOMS};
use crate::call_matching::{distance, greedy, EVERYWHERE};
use crate::c_names;

#[derive(Clone, Debug)]
pub struct Finding {
    pub slots: Vec<i64>,
    pub marks: Vec<u8>,
    pub lattice: Vec<f64>,
    pub symprec: f64,
    pub periodic: Vec<u8>,
    pub pos: Vec<f64>,
    pub rot_pos: Vec<f64>,
    pub num_pos: usize,
}

/// The number for "no match exists" beside those of the refusals.
pub const NO_MATCH: u8 = 72;

impl Finding {
    /// Which slots are near each position, by the Rust's distance; NaN is never below a tolerance.
    pub fn near(&self) -> Vec<Vec<bool>> {
        let place = |x: &[f64], i: usize| [x[i * 3], x[i * 3 + 1], x[i * 3 + 2]];
        let is_near = |i: usize, j: usize| distance(&self.lattice, &self.periodic, &place(&self.pos, i), &place(&self.rot_pos, j)) < self.symprec;
        (0..self.num_pos).map(|i| (0..self.num_pos).map(|j| is_near(i, j)).collect()).collect()
    }

    /// Whether the Rust's own search fills all slots, and what it leaves.
    pub fn greedy(&self) -> (bool, Vec<i64>) {
        greedy(&self.lattice, &self.periodic, self.symprec, &self.pos, &self.rot_pos)
    }
}

/// A largest set of near pairs without a position or a slot twice, by breadth-first search for a way from a position without a
/// slot to a slot without a position: the position of each slot.
pub fn largest(near: &[Vec<bool>]) -> Vec<Option<usize>> {
    let n = near.len();
    let mut holder: Vec<Option<usize>> = vec![None; n];
    for root in 0..n {
        let mut from: Vec<Option<usize>> = vec![None; n];
        let mut queue = std::collections::VecDeque::from([root]);
        let mut end = None;
        'search: while let Some(i) = queue.pop_front() {
            for j in 0..n {
                if !near[i][j] || from[j].is_some() {
                    continue;
                }
                from[j] = Some(i);
                match holder[j] {
                    None => {
                        end = Some(j);
                        break 'search;
                    }
                    Some(k) => queue.push_back(k),
                }
            }
        }
        // back along the way: each slot goes to the position that reached it
        while let Some(j) = end {
            let i = from[j].expect("reached");
            end = if i == root { None } else { holder.iter().position(|h| *h == Some(i)) };
            holder[j] = Some(i);
        }
    }
    holder
}

/// The positions that one without a slot reaches, near slot by near slot and from each slot to its position: none of their slots is
/// free, for the set of pairs is a largest one.
pub fn reached(near: &[Vec<bool>], holder: &[Option<usize>]) -> Vec<u8> {
    let mut marks = vec![0; near.len()];
    let root = (0..near.len()).find(|i| !holder.contains(&Some(*i)));
    let mut queue = Vec::from_iter(root);
    while let Some(i) = queue.pop() {
        if marks[i] == 0 {
            marks[i] = 1;
            queue.extend((0..near.len()).filter(|j| near[i][*j]).filter_map(|j| holder[j]));
        }
    }
    marks
}

/// Whether the slots are a bijection and each pair is near.
pub fn is_bijection(near: &[Vec<bool>], slots: &[i64]) -> bool {
    let mut seen = vec![false; near.len()];
    slots.len() == near.len()
        && slots.iter().enumerate().all(|(j, i)| {
            let ok = *i >= 0 && (*i as usize) < near.len() && near[*i as usize][j] && !seen[*i as usize];
            if ok {
                seen[*i as usize] = true;
            }
            ok
        })
}

/// Whether the marks are zeros and ones, and the marked positions, taken together, have fewer near slots than they are.
pub fn is_group(near: &[Vec<bool>], marks: &[u8]) -> bool {
    let members: Vec<usize> = (0..marks.len()).filter(|i| marks[*i] == 1).collect();
    let slots = (0..near.len()).filter(|j| members.iter().any(|i| near[*i][*j])).count();
    marks.len() == near.len() && marks.iter().all(|m| *m <= 1) && slots < members.len()
}

impl Call for Finding {
    fn parts(&mut self) -> Parts<'_> {
        let n = self.num_pos;
        let counts = vec![(&mut self.num_pos, ATOMS[2])];
        let slices = vec![
            integers(&mut self.slots, &[n]),
            bytes(&mut self.marks, &[n]),
            floats(&mut self.lattice, &[9]),
            bytes(&mut self.periodic, &[3]),
            floats(&mut self.pos, &[3, n]),
            floats(&mut self.rot_pos, &[3, n]),
        ];
        Parts::new(counts, slices)
    }

    fn original(&mut self) -> u8 {
        let (all, slots) = self.greedy();
        if all {
            (self.slots, self.marks) = (slots, vec![0; self.num_pos]);
            return 0;
        }
        let near = self.near();
        let holder = largest(&near);
        if let Some(found) = holder.iter().map(|i| i.map(|i| i as i64)).collect() {
            (self.slots, self.marks) = (found, vec![0; self.num_pos]);
            return 0;
        }
        (self.slots, self.marks) = (vec![-1; self.num_pos], reached(&near, &holder));
        NO_MATCH
    }

    fn port(&mut self) -> u8 {
        // SAFETY: slices by their pointers and lengths, no precondition.
        unsafe {
            c_names::gf_find_permutation(
                self.slots.as_mut_ptr(), self.slots.len(), self.marks.as_mut_ptr(), self.marks.len(), self.lattice.as_ptr(),
                self.lattice.len(), self.symprec, self.periodic.as_ptr(), self.periodic.len(), self.pos.as_ptr(), self.pos.len(),
                self.rot_pos.as_ptr(), self.rot_pos.len(), self.num_pos,
            )
        }
    }

    fn made(&self, _: usize, _: usize) -> bool {
        false
    }

    /// Any bijection and any group is right, so that of the port is taken if it is one; but where the greedy search succeeds, its own is due.
    fn settle(&mut self, got: &Finding) {
        let near = self.near();
        if !is_bijection(&near, &self.slots) {
            if is_group(&near, &got.marks) {
                self.marks = got.marks.clone();
            }
        } else if !self.greedy().0 && is_bijection(&near, &got.slots) {
            self.slots = got.slots.clone();
        }
    }
}

/// Positions and slots by their first coordinates, the rest 0, in the unit lattice.
pub fn on_axis(pos: &[f64], rot_pos: &[f64], symprec: f64) -> Finding {
    let places = |xs: &[f64]| xs.iter().flat_map(|x| [*x, 0.0, 0.0]).collect::<Vec<f64>>();
    let lattice = vec![1.0, 0.0, 0.0, 0.0, 1.0, 0.0, 0.0, 0.0, 1.0];
    let (slots, marks) = (vec![7; pos.len()], vec![7; pos.len()]);
    Finding { slots, marks, lattice, symprec, periodic: EVERYWHERE.to_vec(), pos: places(pos), rot_pos: places(rot_pos), num_pos: pos.len() }
}

/// A staircase of n > 0 positions: position i is near slots i and i + 1, and the last one near slot 0 alone. Greedy leaves the last one
/// without a slot, and the only chain has every position. The top step may be missing: then there is no match.
pub fn staircase(n: usize, top: bool) -> Finding {
    let step = |k: usize| k as f64 / 4096.0;
    let mut pos: Vec<f64> = (0..n).map(|i| step(2 * i + 1)).collect();
    pos[n - 1] = -step(1);
    let mut rot_pos: Vec<f64> = (0..n).map(|j| step(2 * j)).collect();
    if !top {
        rot_pos[n - 1] = 0.75;
    }
    on_axis(&pos, &rot_pos, 1.5 / 4096.0)
}

/// Sheet 9 with each place h times, and `more` positions at 0 in the place of as many others: greedy fills the slots at 0.125 with the
/// positions at 0.25, and every position at 0 needs a chain.
pub fn crowd(h: usize, more: usize) -> Finding {
    let of = |a: f64, m: usize, b: f64| [vec![a; m], vec![b; 2 * h - m]].concat();
    on_axis(&of(0.25, h - more, 0.0), &of(0.125, h, 0.375), 0.1875)
}

#[cfg(test)]
mod tests {
    use super::*;

    fn tables(n: usize) -> impl Iterator<Item = Vec<Vec<bool>>> {
        (0u32..1 << (n * n)).map(move |bits| (0..n).map(|i| (0..n).map(|j| bits >> (i * n + j) & 1 == 1).collect()).collect())
    }

    fn orders(n: usize) -> Vec<Vec<i64>> {
        if n == 0 {
            return vec![vec![]];
        }
        let put = |rest: Vec<i64>| (0..n).map(move |at| [&rest[..at], &[n as i64 - 1], &rest[at..]].concat());
        orders(n - 1).into_iter().flat_map(put).collect()
    }

    // the model itself: every near table of up to three positions, against all orders and all groups
    #[test]
    fn largest_is_whole_exactly_if_an_order_is_near() {
        for n in 0..=3 {
            for near in tables(n) {
                let some = orders(n).iter().any(|o| is_bijection(&near, o));
                let whole: Option<Vec<i64>> = largest(&near).into_iter().map(|i| i.map(|i| i as i64)).collect();
                assert_eq!(whole.is_some(), some);
                assert!(whole.is_none_or(|slots| is_bijection(&near, &slots)));
                let group = (0u32..1 << n).any(|bits| is_group(&near, &(0..n).map(|i| (bits >> i & 1) as u8).collect::<Vec<u8>>()));
                assert_eq!(group, !some);
                assert_eq!(is_group(&near, &reached(&near, &largest(&near))), !some);
            }
        }
    }

    fn answer(mut call: Finding) -> (u8, Vec<i64>, Vec<u8>) {
        let number = call.original();
        (number, call.slots, call.marks)
    }

    #[test]
    fn sheet_9_staircases_and_crowds() {
        assert_eq!(answer(crowd(1, 0)), (0, vec![1, 0], vec![0, 0]));
        assert_eq!(answer(staircase(4, true)), (0, vec![3, 0, 1, 2], vec![0; 4]));
        assert_eq!(answer(staircase(4, false)), (NO_MATCH, vec![-1; 4], vec![1; 4]));
        assert_eq!(answer(crowd(3, 0)).0, 0);
        assert_eq!(answer(crowd(3, 1)).0, NO_MATCH);
        for n in 1..40 {
            let near = staircase(n, true).near();
            assert!((0..n - 1).all(|i| (0..n).all(|j| near[i][j] == (j == i || j == i + 1))) && (0..n).all(|j| near[n - 1][j] == (j == 0)));
        }
    }
}
