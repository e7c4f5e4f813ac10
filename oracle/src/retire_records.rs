//! Records for the replay program of retire_all: calls on small rolls, good, damaged and refused, and at the limit of 1,000 records.
use crate::compare_roll::{make, Asked, Name};
use crate::record::{counted, report, Record, Replay};
use crate::rng::Rng;
use crate::roll::{self, roll_of};
use crate::values;

/// The words of a record: what the model answers and leaves, then the call.
fn record(before: &Asked) -> Record {
    let mut after = before.clone();
    let number = after.model();
    let slot = |k: usize| after.slots.get(k).map_or(9, |n| *n as u64);
    let sum = after.lent.iter().fold(0, |h, b| values::mix(h, *b as u64));
    let mut words = vec![number as u64, sum, slot(0), slot(1)];
    words.extend([before.count, before.record.set as usize, before.slots.len(), before.lent.len()].map(|n| n as u64));
    words.extend(before.lent.chunks(8).map(|chunk| chunk.iter().rev().fold(0, |w, b| w * 256 + *b as u64)));
    counted(words)
}

/// Deliveries of sets 1 to `many`, of which those up to `chain` replace one another, in a slice with room for as many retirements.
fn full(many: usize, chain: usize, set: u32) -> Asked {
    let one = |k: usize| {
        let earlier = if 1 < k && k <= chain { k as u32 - 1 } else { 0 };
        roll::Record { kind: 1 + (earlier > 0) as u8, set: k as u32, earlier, label: vec![] }
    };
    let records: Vec<roll::Record> = (1..=many).map(one).collect();
    let mut lent = roll_of(&records, &(0..many).collect::<Vec<_>>());
    let count = lent.len();
    lent.resize(count + 14 * chain.max(1), 7);
    Asked { name: Name::RetireAll, lent, count, at: 0, record: roll::Record { set, ..records[0].clone() }, slots: vec![9] }
}

pub fn replay() -> Replay {
    let mut r = Rng::new(79);
    let mut calls = vec![full(999, 0, 4), full(1000, 0, 4), full(500, 500, 250), full(500, 501, 1), full(501, 501, 501)];
    let small = |a: &Asked| a.lent.len() < 400 && a.slots.len() <= 2;
    calls.extend((0..4000).map(|_| make(&mut r, Name::RetireAll)).filter(small).take(400));
    let records: Vec<Record> = calls.iter().map(record).collect();
    let stdout = report("sets retired everywhere", &records, 1);
    Replay::new(records, stdout, 3)
}
