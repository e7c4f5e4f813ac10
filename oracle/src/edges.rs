//! The edges of every refusal, one after the other: lengths one off, counts around their limits, entries at the ends of
//! their range; alone and beside a change that comes later in document 01's order.
use crate::call::{fit, Call, Numbers};
use crate::tally::Tally;

/// The longest slice that is made to fit a count at its limit.
const MOST: u128 = 1 << 22;

/// Sets an end of an index table, if it is one with entries.
fn set_entry<C: Call>(call: &mut C, slice: usize, last: bool, value: impl Fn(usize) -> i64) -> bool {
    let mut parts = call.parts();
    let lent = &mut parts.slices[slice];
    if let (Some(count), Numbers::Integers(v)) = (lent.below, &mut lent.numbers) {
        if let Some(entry) = if last { v.last_mut() } else { v.first_mut() } {
            *entry = value(count);
            return true;
        }
    }
    false
}

/// The call, the call with a bad entry in each table, and with a length off beside.
fn with_later_ones<C: Call>(tally: &mut Tally, call: &C, side: &dyn Fn(&mut C) -> u8) {
    tally.call(&mut call.clone(), side);
    for k in 0..call.clone().parts().slices.len() {
        let mut bad = call.clone();
        if set_entry(&mut bad, k, false, |_| -1) {
            tally.call(&mut bad, side);
            let n = bad.parts().slices[k].len();
            bad.parts().slices[k].resize(n + 1);
            tally.call(&mut bad, side);
        }
    }
}

fn counts<C: Call>(tally: &mut Tally, base: &C, side: &dyn Fn(&mut C) -> u8) {
    for k in 0..base.clone().parts().counts.len() {
        let limit = base.clone().parts().counts[k].1;
        for n in [0, 1, limit - 1, limit, limit + 1, limit + 2, usize::MAX / 2, usize::MAX] {
            let mut call = base.clone();
            *call.parts().counts[k].0 = n;
            with_later_ones(tally, &call, side);
            fit(&mut call, MOST);
            with_later_ones(tally, &call, side);
        }
    }
}

fn lengths<C: Call>(tally: &mut Tally, base: &C, side: &dyn Fn(&mut C) -> u8) {
    for k in 0..base.clone().parts().slices.len() {
        let n = base.clone().parts().slices[k].len();
        for new in [n.saturating_sub(1), n + 1, 0, 2 * n] {
            let mut call = base.clone();
            call.parts().slices[k].resize(new);
            with_later_ones(tally, &call, side);
        }
    }
}

fn entries<C: Call>(tally: &mut Tally, base: &C, side: &dyn Fn(&mut C) -> u8) {
    let values: [fn(usize) -> i64; 6] =
        [|_| -1, |_| i64::MIN, |count| count as i64, |count| count as i64 + 1, |_| i64::MAX, |count| count as i64 - 1];
    for k in 0..base.clone().parts().slices.len() {
        for last in [false, true] {
            for value in values {
                let mut call = base.clone();
                if set_entry(&mut call, k, last, value) {
                    tally.call(&mut call, side);
                }
            }
        }
    }
}

/// Every edge of one call that is not refused.
pub fn edges<C: Call>(tally: &mut Tally, base: &C, side: &dyn Fn(&mut C) -> u8) {
    counts(tally, base, side);
    lengths(tally, base, side);
    entries(tally, base, side);
}
