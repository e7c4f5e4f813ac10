//! Records for the replay program of find_permutation: calls with at most sixteen positions, right and refused.
use crate::call::{refusal, Call};
use crate::call_finding::{crowd, on_axis, staircase, Finding, NO_MATCH};
use crate::makers;
use crate::record::{byte_word, counted, float_word, report, Record, Replay};
use crate::rng::Rng;
use crate::values::{byte_sum, integer_sum};

/// The most positions; the words of a record for each.
const MOST: usize = 16;

/// What the slots and the marks hold before each call.
const BEFORE: u8 = 7;

/// What is free of a call that is not refused: 0 nothing, 1 which bijection, 2 which group.
fn free(call: &Finding) -> u64 {
    match call.clone().original() {
        NO_MATCH => 2,
        _ => !call.greedy().0 as u64,
    }
}

/// The words of a record: how many follow; the answer; the sums of the slots and of the marks after the call; what is free (0: nothing,
/// 1: which bijection, and then the sum of the slots is 0, 2: which group, and then that of the marks is); num_pos; lengths of slots,
/// marks, lattice, flags, pos and rot_pos; the flags as bytes; symprec; the lattice; pos; rot_pos; and, where the call is not refused,
/// 16 words for each position: 1 for each slot that is near it.
fn record(before: &Finding) -> Record {
    let mut after = before.clone();
    let refused = refusal(&mut after);
    let answer = if refused == 0 { after.original() } else { refused };
    let free = if refused == 0 { free(before) } else { 0 };
    let sums = [integer_sum(&after.slots), byte_sum(&after.marks)];
    let mut words = vec![answer as u64, if free == 1 { 0 } else { sums[0] }, if free == 2 { 0 } else { sums[1] }, free];
    let lengths = [before.num_pos, before.slots.len(), before.marks.len(), before.lattice.len(), before.periodic.len(), before.pos.len(), before.rot_pos.len()];
    words.extend(lengths.map(|n| n as u64));
    words.push(byte_word(&before.periodic));
    words.extend([&[before.symprec][..], &before.lattice, &before.pos, &before.rot_pos].concat().iter().map(|x| float_word(*x)));
    if refused == 0 {
        words.extend(before.near().iter().flat_map(|row| (0..MOST).map(|j| (j < row.len() && row[j]) as u64)));
    }
    counted(words)
}

/// Sheet 9, NaN and NaN tolerances, none and one position, staircases and crowds.
fn chosen() -> Vec<Finding> {
    let nan = f64::NAN;
    let mut calls = vec![
        on_axis(&[], &[], 0.1),
        on_axis(&[0.25], &[0.25], 0.1),
        on_axis(&[0.25], &[0.5], 0.1),
        on_axis(&[nan], &[0.25], 0.1),
        on_axis(&[0.25, nan], &[0.25, 0.25], 0.1),
        on_axis(&[0.25, 0.0], &[nan, 0.25], 0.1),
        on_axis(&[0.25], &[0.25], nan),
        // NaN is far: a chain goes round it
        on_axis(&[0.25, 0.0, nan], &[0.125, 0.375, nan], 0.1875),
        // two groups, and the smaller one first or last
        on_axis(&[0.0, 0.25, 0.25], &[0.25, 0.5, 0.5], 0.1),
        on_axis(&[0.25, 0.25, 0.0], &[0.25, 0.5, 0.5], 0.1),
    ];
    for n in [1, 2, 3, 8, MOST] {
        calls.extend([staircase(n, true), staircase(n, false)]);
    }
    for h in [1, 2, MOST / 2] {
        calls.extend([crowd(h, 0), crowd(h, 1)]);
    }
    calls
}

fn fits(call: &Finding) -> bool {
    let lengths = [call.slots.len(), call.marks.len(), call.lattice.len(), call.pos.len().div_ceil(3), call.rot_pos.len().div_ceil(3)];
    lengths.iter().all(|n| *n <= MOST) && call.periodic.len() <= 8
}

/// Counts and lengths that are refused, and counts at the limit with the lengths of two positions.
fn refused() -> Vec<Finding> {
    let base = crowd(1, 0);
    let mut calls: Vec<Finding> = [0, 1, 3, 1024, 1025, 1026, 1 << 32, usize::MAX / 2, usize::MAX].map(|num_pos| Finding { num_pos, ..base.clone() }).to_vec();
    for length in [0, 1, 3] {
        calls.push(Finding { slots: vec![0; length], ..base.clone() });
        calls.push(Finding { marks: vec![0; length], ..base.clone() });
    }
    for length in [0, 3, 5, 7] {
        calls.push(Finding { pos: vec![0.5; length], ..base.clone() });
        calls.push(Finding { rot_pos: vec![0.5; length], ..base.clone() });
    }
    for (length, num_pos) in [(0, 2), (8, 2), (10, 2), (8, 1025)] {
        calls.push(Finding { lattice: vec![1.0; length], num_pos, ..base.clone() });
    }
    for (length, num_pos) in [(0, 2), (2, 2), (4, 2), (2, 1025)] {
        calls.push(Finding { periodic: vec![1; length], num_pos, ..base.clone() });
    }
    calls
}

/// So many random calls of each kind: nothing free, any bijection, any group.
const OF_EACH: [usize; 3] = [40, 60, 50];

pub fn replay() -> Replay {
    let mut r = Rng::new(79);
    let mut calls = [chosen(), refused()].concat();
    let mut made = [0; 3];
    while made != OF_EACH {
        let call = makers::finding(&mut r);
        if fits(&call) {
            let free = free(&call) as usize;
            if made[free] < OF_EACH[free] {
                made[free] += 1;
                calls.push(call);
            }
        }
    }
    for call in &mut calls {
        call.slots.fill(BEFORE as i64);
        call.marks.fill(BEFORE);
    }
    let records: Vec<Record> = calls.iter().map(record).collect();
    let so_many = |word: usize, k: u64| records.iter().filter(|r| r[word] == k).count();
    let stdout = report("finding", &records, 1) + &format!("by chains: {}\nno match: {}\n", so_many(4, 1), so_many(1, NO_MATCH as u64));
    Replay::new(records, stdout, 4)
}

#[cfg(test)]
mod tests {
    use super::*;

    #[test]
    fn each_answer_is_recorded() {
        let records = replay().records;
        for (answer, free) in [(0, 0), (0, 1), (NO_MATCH as u64, 2), (1, 0), (2, 0)] {
            assert!(records.iter().filter(|r| r[1] == answer && r[4] == free).count() >= 5, "{answer} {free}");
        }
    }
}
