//! The two ways to a symmetrized full set (document 02, A.11): read out and then symmetrized fully, or symmetrized compactly and then read out.
use crate::call::{fit, Call};
use crate::call_compact::{Compact, Name};
use crate::call_full::Full;
use crate::call_read_out::ReadOut;
use crate::compare_lists::same;
use crate::compare_row_sums::on;
use crate::groups::random_tables;
use crate::rng::Rng;
use crate::tally::Tally;

/// The most numbers of the full set.
const MOST: usize = 60_000;

/// Tables whose full set is not too large.
fn start(r: &mut Rng, order: usize) -> ReadOut {
    loop {
        let tables = random_tables(r, order, MOST / 4);
        if (3 * tables.n_satom).pow(order as u32) <= MOST {
            return ReadOut::new(order, tables);
        }
    }
}

/// What either way leaves, by the port; None if a call is refused.
fn both(start: &ReadOut) -> Option<[Vec<f64>; 2]> {
    let (mut read, order) = (start.clone(), start.order);
    let mut full = Full::new(order, start.tables.n_satom);
    let mut compact = Compact::new([Name::Symmetrize3, Name::Symmetrize4][order - 3], start.tables.clone());
    let mut answers = read.port();
    full.set = read.full;
    fit(&mut full, u128::MAX);
    answers |= full.port();
    compact.set = start.set.clone();
    fit(&mut compact, u128::MAX);
    answers |= compact.port();
    let mut last = ReadOut { set: compact.set, ..start.clone() };
    last.full.fill(f64::NAN);
    answers |= last.port();
    (answers == 0).then_some([full.set, last.full])
}

/// Sets on the grid, half shifts among their tables: the same bits.
pub fn on_grid(tally: &mut Tally, r: &mut Rng, count: u64) {
    for k in 0..count {
        let mut call = start(r, 3 + k as usize % 2);
        call.set.iter_mut().for_each(|x| *x = on(r));
        let ways = both(&call);
        *tally.answers.entry(0).or_default() += 1;
        tally.numbers += call.full.len() as u64;
        if !ways.is_some_and(|[a, b]| same(&a, &b)) {
            tally.differ(call.set.len(), || format!("{call:?}"));
        }
    }
}

/// How many numbers lie between the two, which have one sign; numbers on either side of zero are counted from zero.
fn apart(a: f64, b: f64) -> u64 {
    let place = |x: f64| if x.is_sign_negative() { -((x.to_bits() & !(1 << 63)) as i64) } else { x.to_bits() as i64 };
    place(a).abs_diff(place(b))
}

/// Sets off the grid, of numbers of like size: the ways differ, by roundings of the sums. Says how far; no answer is wrong.
pub fn off_grid(tally: &mut Tally, r: &mut Rng, count: u64) {
    let (mut sets, mut numbers, mut far, mut share) = (0u64, 0u64, 0u64, 0.0f64);
    for k in 0..count {
        let mut call = start(r, 3 + k as usize % 2);
        call.set.iter_mut().for_each(|x| *x = 1.0 + r.unit());
        *tally.answers.entry(0).or_default() += 1;
        tally.numbers += call.full.len() as u64;
        let Some([a, b]) = both(&call) else {
            tally.differ(call.set.len(), || format!("{call:?}"));
            continue;
        };
        let differ: Vec<usize> = (0..a.len()).filter(|k| a[*k].to_bits() != b[*k].to_bits()).collect();
        (sets, numbers) = (sets + (!differ.is_empty()) as u64, numbers + differ.len() as u64);
        for k in differ {
            (far, share) = (far.max(apart(a[k], b[k])), share.max(((a[k] - b[k]) / a[k]).abs()));
        }
    }
    println!("off the grid: of {count} sets {sets} differ, in {numbers} numbers, the farthest by {far} in the last place, {share:.1e} of the number");
}
