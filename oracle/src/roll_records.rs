//! Records for the replay program of a delivery roll: calls on small rolls, good, damaged and refused, and at the limits.
use crate::compare_roll::{make, Asked, Name, END, RETIRED, UNKNOWN};
use crate::record::{byte_word, checksum, counted, Record, Replay};
use crate::rng::Rng;
use crate::roll::{self, roll_of};
use crate::values;

/// A call on a roll that the program makes itself: `base` deliveries of sets 1 to `base` with labels of so many bytes, all drawn from seed 1.
struct Based {
    asked: Asked,
    base: usize,
    label: usize,
}

/// The slice that the program lends: the base's roll from byte 0, zeros after it.
fn based(name: Name, base: usize, label: usize, lent: usize, record: roll::Record) -> Based {
    let one = |set: usize| roll::Record { kind: 1, set: set as u32, earlier: 0, label: values::bytes(label, 1) };
    let records: Vec<roll::Record> = (1..=base).map(one).collect();
    let mut bytes = roll_of(&records, &(0..base).collect::<Vec<_>>());
    let count = bytes.len();
    bytes.resize(lent, 0);
    let slots = vec![9; if name == Name::AppendRoll || name == Name::StandsNow { 1 } else { 6 }];
    Based { asked: Asked { name, lent: bytes, count, at: 0, record, slots }, base, label }
}

fn sum(words: impl Iterator<Item = u64>) -> u64 {
    words.fold(0, values::mix)
}

/// The words of a record, and the number of its answer.
fn record(call: &Based) -> Record {
    let (before, mut after) = (&call.asked, call.asked.clone());
    let number = after.model();
    let r = &before.record;
    let place = if [Name::ReadRoll, Name::ReadRollFormer].contains(&before.name) { before.at } else { r.kind as usize };
    let name = before.name as usize;
    let mut words = vec![number as u64, sum(after.lent.iter().map(|b| *b as u64)), sum(after.slots.iter().map(|n| *n as u64))];
    let counts = [name, before.count, place, r.set as usize, r.earlier as usize, r.label.len(), before.slots.len(), call.base, call.label, before.lent.len()];
    words.extend(counts.iter().map(|n| *n as u64));
    if call.base == 0 {
        words.extend(before.lent.chunks(8).map(byte_word));
    }
    counted(words)
}

/// The labels of the records to add are drawn from the set number.
fn drawn(mut asked: Asked) -> Based {
    asked.record.label = values::bytes(asked.record.label.len().min(300), asked.record.set as u64);
    Based { asked, base: 0, label: 0 }
}

fn limits() -> Vec<Based> {
    let record = |label: usize| roll::Record { kind: 3, set: 4, earlier: 0, label: values::bytes(label, 4) };
    let mut calls = vec![];
    for (base, label, added) in [(999, 0, 0), (1000, 0, 0), (1000, 0, 256), (243, 255, 147), (243, 255, 148), (243, 255, 146)] {
        for name in [Name::IsRoll, Name::AppendRoll, Name::IsRollFormer] {
            calls.push(based(name, base, label, 65600, record(added)));
        }
    }
    calls.push(based(Name::AppendRoll, 243, 255, 65535, record(147)));
    for at in [13986, 13987, 14000] {
        let mut call = based(Name::ReadRoll, 1000, 4, 65600, record(0));
        call.asked.at = at;
        calls.push(call);
    }
    for set in [1, 1000, 1001] {
        calls.push(based(Name::StandsNow, 1000, 0, 65600, roll::Record { set, ..record(0) }));
    }
    calls
}

pub fn replay() -> Replay {
    let mut r = Rng::new(77);
    let mut calls = limits();
    for name in [Name::IsRoll, Name::ReadRoll, Name::AppendRoll, Name::StandsNow, Name::IsRollFormer, Name::ReadRollFormer] {
        let small: Vec<Based> = (0..400).map(|_| make(&mut r, name)).filter(|a| a.lent.len() < 400).take(240).map(drawn).collect();
        calls.extend(small);
    }
    let records: Vec<Record> = calls.iter().map(record).collect();
    let number = |k: u8| records.iter().filter(|r| r[1] == k as u64).count();
    let mut stdout = format!("delivery rolls: {} compared, 0 differ\nended well: {}\n", records.len(), number(0));
    for k in [2, 7, 8, 9] {
        stdout += &format!("refused, {k}: {}\n", number(k));
    }
    stdout += &format!("end: {}\nunknown: {}\nretired: {}\n", number(END), number(UNKNOWN), number(RETIRED));
    stdout += &format!("checksum {}\n", checksum(&records));
    Replay::new(records, stdout, 6)
}
