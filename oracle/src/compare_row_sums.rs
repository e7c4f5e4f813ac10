//! The calls on row sums, by their C names, beside the model in row_sums.rs.
use crate::c_names;
use crate::rng::Rng;
use crate::row_sums::{fresh, replace_block, row_sums};
use crate::tally::Tally;

#[derive(Clone, Copy, Debug, PartialEq)]
pub enum Name {
    RowSums,
    ReplaceBlock,
}

/// A call with all that it is lent. A fresh pass has no use for the block and its place.
#[derive(Clone, Debug)]
pub struct Asked {
    pub name: Name,
    pub set: Vec<f64>,
    pub sums: Vec<f64>,
    pub block: Vec<f64>,
    pub i: usize,
    pub j: usize,
    pub n: usize,
}

impl Asked {
    /// By document 02: the answer's number, the set and the sums as they are left.
    pub fn model(&mut self) -> u8 {
        let Asked { name, set, sums, block, i, j, n } = self;
        match name {
            Name::RowSums => row_sums(sums, set, *n),
            Name::ReplaceBlock => replace_block(set, sums, block, *i, *j, *n),
        }
    }

    pub fn port(&mut self) -> u8 {
        let Asked { name, set, sums, block, i, j, n } = self;
        // SAFETY: pointers and lengths of slices that do not overlap.
        unsafe {
            match name {
                Name::RowSums => c_names::gf_row_sums_fc2(sums.as_mut_ptr(), sums.len(), set.as_ptr(), set.len(), *n),
                Name::ReplaceBlock => c_names::gf_replace_block_fc2(
                    set.as_mut_ptr(), set.len(), sums.as_mut_ptr(), sums.len(), block.as_ptr(), block.len(), *i, *j, *n,
                ),
            }
        }
    }

    /// Whether the call makes sum k by arithmetic.
    fn makes(&self, number: u8, k: usize) -> bool {
        number == 0 && (self.name == Name::RowSums || k / 9 == self.i)
    }
}

/// One call on copies of one input, every number compared by its bits; a NaN that arithmetic made equals any NaN.
pub fn one(tally: &mut Tally, before: &Asked, side: &dyn Fn(&mut Asked) -> u8) {
    let (mut want, mut got) = (before.clone(), before.clone());
    let (number, answer) = (want.model(), side(&mut got));
    *tally.answers.entry(number).or_default() += 1;
    tally.numbers += (want.set.len() + want.sums.len() + want.block.len()) as u64;
    let bits = |v: &[f64]| v.iter().map(|x| x.to_bits()).collect::<Vec<u64>>();
    let nan = |v: &[f64]| v.iter().filter(|x| x.is_nan()).count() as u64;
    let made = (0..want.sums.len()).filter(|k| want.sums[*k].is_nan() && before.makes(number, *k)).count() as u64;
    let nans = nan(&want.set) + nan(&want.sums) + nan(&want.block);
    (tally.nans, tally.kept) = (tally.nans + nans, tally.kept + nans - made);
    let same = |k: usize| {
        let (a, b) = (got.sums[k], want.sums[k]);
        a.to_bits() == b.to_bits() || (a.is_nan() && b.is_nan() && before.makes(number, k))
    };
    let sums = got.sums.len() == want.sums.len() && (0..got.sums.len()).all(same);
    if answer != number || bits(&got.set) != bits(&want.set) || bits(&got.block) != bits(&want.block) || !sums {
        tally.differ(before.set.len(), || format!("answer {answer}, to be {number}\n  sums {:?}, to be {:?}\n  input: {before:?}", got.sums, want.sums));
    }
}

// ---- inputs

const STEP: f64 = 1.0 / 1_048_576.0;

/// A number on the grid: zeros of both signs, the ends and beside them, few steps, any.
pub fn on(r: &mut Rng) -> f64 {
    let sign = [1.0, -1.0][r.below(2)];
    let steps = match r.below(8) {
        0 | 1 => 0,
        2 => 1 << 40,
        3 => (1 << 40) - r.below(3) as u64,
        4 => r.below(4) as u64,
        5 => 1 << r.below(41),
        _ => r.bits() % ((1 << 40) + 1),
    };
    sign * (steps as f64 * STEP)
}

/// A number off the grid: half a step, a step or less past an end, tiny, huge, infinite, NaN; or any bits, which may be on it.
fn off(r: &mut Rng) -> f64 {
    let sign = [1.0, -1.0][r.below(2)];
    let steps = (r.bits() % (1 << 40)) as f64;
    sign * match r.below(9) {
        0 => STEP / 2.0,
        1 => (steps + 0.5) * STEP,
        2 => 1_048_576.0 + STEP,
        3 => f64::from_bits(1_048_576f64.to_bits() + 1 + r.bits() % 4),
        4 => f64::from_bits(1 + r.bits() % 3),
        5 => 2_097_152.0 * (1 << r.below(30)) as f64,
        6 => f64::INFINITY,
        7 => f64::NAN,
        _ => f64::from_bits(r.bits()),
    }
}

/// Any number: a sum that is not right.
fn any(r: &mut Rng) -> f64 {
    if r.below(3) == 0 { off(r) } else { on(r) }
}

fn many(r: &mut Rng, n: usize, f: fn(&mut Rng) -> f64) -> Vec<f64> {
    (0..n).map(|_| f(r)).collect()
}

/// A set on the grid with right sums, and a block on the grid.
fn right(r: &mut Rng, name: Name, most: usize) -> Asked {
    let n = [1, 2, 2, 3, r.below(most + 1)][r.below(5)].min(most);
    let set = many(r, n * n * 9, on);
    let sums = fresh(&set, n);
    let block = if r.below(6) == 0 { vec![[0.0, -0.0][r.below(2)]; 9] } else { many(r, 9, on) };
    Asked { name, set, sums, block, i: r.below(n.max(1)), j: r.below(n.max(1)), n }
}

/// One change: a number off the grid in the block, in the one it replaces or elsewhere; wrong sums; a place, a length or a count.
fn spoil(r: &mut Rng, a: &mut Asked) {
    let place = [a.n, a.n.wrapping_add(1), usize::MAX, a.n.wrapping_mul(a.n), r.below(9)][r.below(5)];
    let at = (a.i.wrapping_mul(a.n).wrapping_add(a.j)).wrapping_mul(9).wrapping_add(r.below(9));
    match r.below(10) {
        0 => a.i = place,
        1 => a.j = place,
        2 if !a.block.is_empty() => {
            let k = r.below(a.block.len());
            a.block[k] = off(r);
        }
        3 if at < a.set.len() => a.set[at] = off(r),
        4 if !a.set.is_empty() => {
            let k = r.below(a.set.len());
            a.set[k] = off(r);
        }
        5 => a.sums = many(r, a.sums.len(), any),
        6 => a.n = [a.n.wrapping_add(1), a.n.saturating_sub(1), 0, 1024, 1025, usize::MAX][r.below(6)],
        7 => {
            let n = [a.set.len() + 1, a.set.len().saturating_sub(1), 0, a.set.len() + 9][r.below(4)];
            a.set.resize(n, 0.5);
        }
        8 => {
            let n = [a.sums.len() + 1, a.sums.len().saturating_sub(1), 0, a.sums.len() + 9][r.below(4)];
            a.sums.resize(n, 0.5);
        }
        _ => a.block.resize([8, 10, 0, 9][r.below(4)], 0.5),
    }
}

/// Half of the calls as they should be, the others with up to three changes.
pub fn make(r: &mut Rng, name: Name, most: usize) -> Asked {
    let mut asked = right(r, name, most);
    (0..[0, 0, 0, 1, 1, 2, 3][r.below(7)]).for_each(|_| spoil(r, &mut asked));
    asked
}

pub fn run(tally: &mut Tally, r: &mut Rng, count: u64, name: Name) {
    for _ in 0..count {
        let asked = make(r, name, 7);
        one(tally, &asked, &Asked::port);
    }
}

/// The sums that the port kept, beside a fresh pass of the port and of the model over the set that it left.
fn hold(tally: &mut Tally, kept: &Asked) {
    let mut again = Asked { name: Name::RowSums, ..kept.clone() };
    again.sums.fill(f64::NAN);
    let number = again.port();
    let bits = |v: &[f64]| v.iter().map(|x| x.to_bits()).collect::<Vec<u64>>();
    tally.numbers += 2 * kept.sums.len() as u64;
    if number != 0 || bits(&kept.sums) != bits(&again.sums) || bits(&kept.sums) != bits(&fresh(&kept.set, kept.n)) {
        tally.differ(kept.set.len(), || format!("kept {:?}, fresh {:?}", kept.sums, again.sums));
    }
}

/// Series of edits from right sums, refused calls among them: the sums stay those of a fresh pass. One in a thousand has 1,024 atoms.
pub fn series(tally: &mut Tally, r: &mut Rng, count: u64) {
    for s in 0..count.div_ceil(20) {
        let most = if s % 1000 == 999 { 1024 } else { 9 };
        let mut asked = right(r, Name::ReplaceBlock, most);
        if most == 1024 {
            asked = Asked { n: most, set: many(r, most * most * 9, on), ..asked };
            asked.sums = fresh(&asked.set, most);
        }
        for _ in 0..20 {
            let (n, m) = (asked.n, asked.n.max(1));
            (asked.i, asked.j, asked.block) = (r.below(m), r.below(m), many(r, 9, on));
            let mut call = asked.clone();
            match r.below(8) {
                0 => call.i = n,
                1 => call.block[r.below(9)] = off(r),
                2 => call.n = n + 1,
                3 => call.block = vec![0.0; 9],
                _ => {}
            }
            one(tally, &call, &Asked::port);
            call.port();
            (asked.set, asked.sums) = (call.set, call.sums);
        }
        hold(tally, &asked);
    }
}
