//! Inputs that are refused, or nearly: one change of any kind to a call.
use crate::call::{fit, Call, Numbers};
use crate::rng::Rng;

/// The longest slice that is made to fit a changed count.
const MOST: u128 = 1 << 16;

/// A count near n, near its limit, or far above.
fn misfit(r: &mut Rng, n: usize, limit: usize) -> usize {
    match r.below(9) {
        0 => n.saturating_add(1),
        1 => n.saturating_sub(1),
        2 => 0,
        3 => 1,
        4 | 5 => limit - 1 + r.below(3),
        6 => usize::MAX - r.below(3),
        7 => 1 << (32 + r.below(32)),
        _ => r.below(2 * n.min(1 << 20) + 2),
    }
}

fn count<C: Call>(r: &mut Rng, call: &mut C) {
    let mut parts = call.parts();
    if !parts.counts.is_empty() {
        let k = r.below(parts.counts.len());
        let (count, limit) = &mut parts.counts[k];
        **count = misfit(r, **count, *limit);
    }
}

/// The call with each of its counts at its limit and one above, and every length as it was: 2 and 1.
pub fn at_limits<C: Call>(call: &C) -> Vec<C> {
    let limits: Vec<usize> = call.clone().parts().counts.iter().map(|(_, limit)| *limit).collect();
    let changed = |k: usize, n: usize| {
        let mut call = call.clone();
        *call.parts().counts[k].0 = n;
        call
    };
    limits.iter().enumerate().flat_map(|(k, limit)| [changed(k, *limit), changed(k, limit + 1)]).collect()
}

/// All counts zero but one, which is at its limit or next to it; the lengths follow.
fn at_limit<C: Call>(r: &mut Rng, call: &mut C) {
    let mut parts = call.parts();
    if !parts.counts.is_empty() {
        let k = r.below(parts.counts.len());
        for (count, _) in &mut parts.counts {
            **count = r.below(2);
        }
        *parts.counts[k].0 = parts.counts[k].1 - 1 + r.below(3);
    }
    fit(call, MOST);
}

/// One length one off, or none left, or twice.
fn length<C: Call>(r: &mut Rng, call: &mut C) {
    let mut parts = call.parts();
    let k = r.below(parts.slices.len());
    let n = parts.slices[k].len();
    let new = match r.below(6) {
        0 | 1 => n + 1,
        2 | 3 => n.saturating_sub(1),
        4 => 0,
        _ => (2 * n).min(1 << 16),
    };
    parts.slices[k].resize(new);
}

/// One entry of an index table out of its range, or next to that.
fn entry<C: Call>(r: &mut Rng, call: &mut C) {
    let mut parts = call.parts();
    let tables: Vec<usize> = (0..parts.slices.len()).filter(|k| parts.slices[*k].below.is_some()).collect();
    if tables.is_empty() {
        return;
    }
    let lent = &mut parts.slices[tables[r.below(tables.len())]];
    let count = lent.below.unwrap() as i64;
    if let Numbers::Integers(v) = &mut lent.numbers {
        if !v.is_empty() {
            let at = [0, v.len() - 1, r.below(v.len())][r.below(3)];
            v[at] = [-1, i64::MIN, count, count.wrapping_sub(1), i64::MAX, count.wrapping_add(1)][r.below(6)];
        }
    }
}

pub fn spoil<C: Call>(r: &mut Rng, call: &mut C) {
    match r.below(12) {
        0 => count(r, call),
        1 => {
            count(r, call);
            fit(call, MOST);
        }
        2 => at_limit(r, call),
        3 | 4 => length(r, call),
        5 | 6 => entry(r, call),
        _ => call.spoil(r),
    }
}

/// The call, or two times in five the call with up to three changes.
pub fn perhaps_spoilt<C: Call>(r: &mut Rng, mut call: C) -> C {
    if r.below(5) < 2 {
        let changes = [1, 1, 2, 2, 3][r.below(5)];
        for _ in 0..changes {
            spoil(r, &mut call);
        }
    }
    call
}
