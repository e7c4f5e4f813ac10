//! The calls on a delivery roll, by their C names, beside the model in roll.rs. The slots and their order after 7 and before 8 are
//! include/gullyfork.h's.
use crate::rng::Rng;
use crate::roll::{appended, held, retired, roll_of, standing, Order, Record, Standing, NOT_A_ROLL};
use crate::tally::Tally;
use crate::{c_names, values};

pub const END: u8 = 68;
pub const UNKNOWN: u8 = 70;
pub const RETIRED: u8 = 71;
const WRONG_LENGTH: u8 = 2;

#[derive(Clone, Copy, Debug, PartialEq)]
pub enum Name {
    IsRoll,
    ReadRoll,
    AppendRoll,
    StandsNow,
    IsRollFormer,
    ReadRollFormer,
    RetireAll,
}

impl Name {
    /// The rule for the order of the starts that the call goes by.
    fn order(self) -> Order {
        match self {
            Name::IsRollFormer | Name::ReadRollFormer => Order::Any,
            _ => Order::Rising,
        }
    }
}

/// A call with all that it is lent. `at` is the position of a read, `record` the record to add, its set number the set asked for.
#[derive(Clone, Debug)]
pub struct Asked {
    pub name: Name,
    pub lent: Vec<u8>,
    pub count: usize,
    pub at: usize,
    pub record: Record,
    pub slots: Vec<usize>,
}

impl Asked {
    /// By document 02: the answer's number, lent slice and slots as they are left. A call that is_roll answers with false is a 7 here.
    pub fn model(&mut self) -> u8 {
        match self.name {
            Name::IsRoll | Name::IsRollFormer => held(&self.lent, self.count, self.name.order()).map_or(NOT_A_ROLL, |_| 0),
            Name::ReadRoll | Name::ReadRollFormer => self.model_read(),
            Name::AppendRoll => self.model_append(),
            Name::StandsNow => self.model_standing(),
            Name::RetireAll => self.model_retire(),
        }
    }

    fn model_retire(&mut self) -> u8 {
        let answer = retired(&self.lent, self.count, self.record.set);
        if self.slots.len() != 1 && answer != Err(NOT_A_ROLL) {
            return WRONG_LENGTH;
        }
        match answer {
            Err(number) => number,
            Ok(bytes) => {
                self.lent[..bytes.len()].copy_from_slice(&bytes);
                self.slots[0] = bytes.len();
                0
            }
        }
    }

    fn model_standing(&mut self) -> u8 {
        let answer = standing(&self.lent, self.count, self.record.set);
        if self.slots.len() != 1 && answer != Err(NOT_A_ROLL) {
            return WRONG_LENGTH;
        }
        match answer {
            Err(number) => number,
            Ok(Standing::Unknown) => UNKNOWN,
            Ok(Standing::Retired) => RETIRED,
            Ok(Standing::Current(set)) => {
                self.slots[0] = set as usize;
                0
            }
        }
    }

    fn model_read(&mut self) -> u8 {
        let Some(roll) = held(&self.lent, self.count, self.name.order()) else { return NOT_A_ROLL };
        let found = roll.records.into_iter().find(|(start, _)| *start == self.at);
        if found.is_none() && self.at != roll.trailer {
            return NOT_A_ROLL;
        }
        if self.slots.len() != 6 {
            return WRONG_LENGTH;
        }
        let Some((start, record)) = found else { return END };
        let (label, end) = (start + 10, start + record.bytes().len());
        self.slots = vec![record.kind as usize, record.set as usize, record.earlier as usize, label, record.label.len(), end];
        0
    }

    fn model_append(&mut self) -> u8 {
        let new = appended(&self.lent, self.count, self.record.clone());
        if self.slots.len() != 1 && new != Err(NOT_A_ROLL) {
            return WRONG_LENGTH;
        }
        match new {
            Err(number) => number,
            Ok(bytes) => {
                self.lent[..bytes.len()].copy_from_slice(&bytes);
                self.slots[0] = bytes.len();
                0
            }
        }
    }

    pub fn port(&mut self) -> u8 {
        let Asked { name, lent, count, at, record, slots } = self;
        let Record { kind, set, earlier, label } = record;
        // SAFETY: pointers and lengths of slices that do not overlap.
        unsafe {
            match name {
                Name::IsRoll if c_names::gf_is_roll(lent.as_ptr(), lent.len(), *count) => 0,
                Name::IsRollFormer if c_names::gf_is_roll_former(lent.as_ptr(), lent.len(), *count) => 0,
                Name::IsRoll | Name::IsRollFormer => NOT_A_ROLL,
                Name::ReadRoll => c_names::gf_read_roll(lent.as_ptr(), lent.len(), *count, *at, slots.as_mut_ptr(), slots.len()),
                Name::ReadRollFormer => c_names::gf_read_roll_former(lent.as_ptr(), lent.len(), *count, *at, slots.as_mut_ptr(), slots.len()),
                Name::AppendRoll => c_names::gf_append_roll(
                    lent.as_mut_ptr(), lent.len(), *count, *kind, *set, *earlier, label.as_ptr(), label.len(),
                    slots.as_mut_ptr(), slots.len(),
                ),
                Name::StandsNow => c_names::gf_stands_now(lent.as_ptr(), lent.len(), *count, *set, slots.as_mut_ptr(), slots.len()),
                Name::RetireAll => c_names::gf_retire_all(lent.as_mut_ptr(), lent.len(), *count, *set, slots.as_mut_ptr(), slots.len()),
            }
        }
    }
}

/// One call on copies of one input, every byte and slot compared.
pub fn one(tally: &mut Tally, before: &Asked, side: &dyn Fn(&mut Asked) -> u8) {
    let (mut want, mut got) = (before.clone(), before.clone());
    let (number, answer) = (want.model(), side(&mut got));
    *tally.answers.entry(number).or_default() += 1;
    tally.numbers += (want.lent.len() + want.slots.len()) as u64;
    if answer != number || got.lent != want.lent || got.slots != want.slots {
        let size = before.lent.len() + before.record.label.len();
        tally.differ(size, || format!("answer {answer}, to be {number}\n  slots {:?}, to be {:?}\n  input: {before:?}", got.slots, want.slots));
    }
}

// ---- inputs

fn small(r: &mut Rng) -> u32 {
    match r.below(4) {
        0 => r.bits() as u32,
        _ => r.below(5) as u32,
    }
}

/// A label; one in eight holds the bytes of a record, so that a position inside it could be taken for one.
fn label(r: &mut Rng) -> Vec<u8> {
    let n = match r.below(16) {
        0 => 255,
        1 => r.below(256),
        _ => r.below(6),
    };
    match r.below(8) {
        0 => Record { kind: 1, set: 1 + small(r) % 9, earlier: 0, label: vec![0; r.below(3)] }.bytes(),
        _ => (0..n).map(|_| r.bits() as u8).collect(),
    }
}

pub fn good(r: &mut Rng) -> Record {
    let kind = 1 + r.below(3) as u8;
    let earlier = if kind == 2 { small(r).max(1) } else { 0 };
    Record { kind, set: small(r).max(1), earlier, label: label(r) }
}

/// A record to add: one in four breaks a rule, or may.
fn any(r: &mut Rng) -> Record {
    let mut record = good(r);
    match r.below(24) {
        0 => record.kind = 0,
        1 => record.kind = 4 + r.below(252) as u8,
        2 => record.set = 0,
        3 => record.earlier = small(r),
        4 => record.label = vec![7; 255 + r.below(3)],
        5 => record.kind = 1 + r.below(3) as u8,
        _ => {}
    }
    record
}

/// The bytes of a roll: its starts in rising order, in any for one in eight of the rolls and for half of the older ones; in half of these
/// two starts are exchanged.
pub fn roll(r: &mut Rng, records: &[Record], order: Order) -> Vec<u8> {
    let mut listed: Vec<usize> = (0..records.len()).collect();
    if r.below(if order == Order::Any { 2 } else { 8 }) == 0 && listed.len() > 1 {
        match r.below(2) {
            0 => listed = r.order(records.len()),
            _ => listed.swap(r.below(records.len()), r.below(records.len())),
        }
    }
    roll_of(records, &listed)
}

/// A roll at a limit or one beyond: 999 to 1,001 records, or 65,535 to 65,537 bytes.
fn at_a_limit(r: &mut Rng, order: Order) -> Vec<u8> {
    let delivery = |label: usize| Record { kind: 1, set: 5, earlier: 0, label: vec![1; label] };
    let mut records;
    if r.below(2) == 0 {
        records = vec![delivery(0); 999 + r.below(3)];
    } else {
        records = vec![delivery(255); 243];
        let last = [133 - 14, 146, 147, 148][r.below(4)];
        records.push(delivery(last));
    }
    roll(r, &records, order)
}

/// Changes some bytes: a byte anywhere, a byte of the trailer, a start listed twice, a byte more or less.
fn damage(r: &mut Rng, bytes: &mut Vec<u8>) {
    let n = bytes.len();
    let low = r.below(30) as u8;
    match r.below(7) {
        0 => bytes[r.below(n)] ^= 1 << r.below(8),
        1 => bytes[r.below(n)] = low,
        2 => bytes[n - 1 - r.below(n.min(24))] = low,
        3 => bytes[n - 4 + r.below(4)] = low,
        4 if n >= 22 => bytes[r.below(n / 2)] = r.below(4) as u8,
        5 if n >= 30 => bytes.copy_within(n - 12..n - 8, n - 16),
        6 => bytes.truncate(n - 1 - r.below(n.min(4))),
        _ => bytes.push(low),
    }
}

/// Records that keep to 9 in three histories of four: each set is delivered once, and replaced once at most or retired after that. Some
/// have set numbers of four bytes or in no order, and one in 200 is as long as a roll may be, or one record longer.
fn history(r: &mut Rng) -> Vec<Record> {
    let mixed = [0, r.below(16) as u32, r.bits() as u32][r.below(3)];
    let number = |k: usize| (k as u32 ^ mixed).max(1);
    let many = if r.below(200) == 0 { 999 + r.below(3) } else { r.below(14) };
    let spoiled = if r.below(4) == 0 { 1 + r.below(many + 1) } else { 0 };
    let (mut records, mut known, mut heads) = (vec![], vec![], vec![]);
    for k in 1..=many {
        let kind = if known.is_empty() { 1 } else { [1, 2, 2, 3][r.below(4)] };
        let mut record = Record { kind, set: number(k), earlier: 0, label: vec![] };
        if kind == 3 {
            record.set = known[r.below(known.len())];
        }
        if kind == 2 {
            record.earlier = heads.swap_remove(r.below(heads.len()));
        }
        if k == spoiled && r.below(2) == 0 {
            record.set = number(r.below(many + 2));
        } else if k == spoiled && kind == 2 {
            record.earlier = number(r.below(many + 2));
        }
        if kind != 3 {
            known.push(record.set);
            heads.push(record.set);
        }
        records.push(record);
    }
    records
}

/// The set asked for: most often one of the history.
fn asked_for(r: &mut Rng, story: &[Record]) -> u32 {
    match story.len() {
        n if n > 0 && r.below(8) > 0 => story[r.below(n)].set,
        _ => r.below(11) as u32,
    }
}

pub fn make(r: &mut Rng, name: Name) -> Asked {
    let asks = name == Name::StandsNow || name == Name::RetireAll;
    let story = if asks { history(r) } else { vec![] };
    let mut bytes = if r.below(400) == 0 {
        at_a_limit(r, name.order())
    } else if !story.is_empty() {
        roll(r, &story, name.order())
    } else {
        let records: Vec<Record> = (0..r.below(6)).map(|_| good(r)).collect();
        roll(r, &records, name.order())
    };
    (0..[0, 0, 0, 1, 2][r.below(5)]).for_each(|_| if !bytes.is_empty() { damage(r, &mut bytes) });
    let mut record = any(r);
    if asks {
        record.set = asked_for(r, &story);
    }
    let (n, needs) = (bytes.len(), 14 + record.label.len());
    let spare = [needs, needs, needs + r.below(30), needs.saturating_sub(1), r.below(needs + 1), 0][r.below(6)];
    let spare = if name == Name::RetireAll { spare + 14 * r.below(6) } else { spare };
    bytes.extend((0..spare).map(|_| r.bits() as u8));
    let count = match r.below(12) {
        0 => r.below(bytes.len() + 3),
        1 => [n.saturating_sub(1), n + 1, usize::MAX, 0][r.below(4)],
        _ => n,
    };
    let fit = if name == Name::AppendRoll || asks { 1 } else { 6 };
    let slots = vec![9; if r.below(16) == 0 { r.below(8) } else { fit }];
    let at = position(r, &bytes, count, name.order());
    Asked { name, lent: bytes, count, at, record, slots }
}

/// A position: the start of a record or the trailer, by the model, or any.
fn position(r: &mut Rng, lent: &[u8], count: usize, order: Order) -> usize {
    let Some(roll) = held(lent, count, order) else { return r.below(lent.len() + 2) };
    let mut places: Vec<usize> = roll.records.iter().map(|(start, _)| *start).collect();
    places.push(roll.trailer);
    match r.below(4) {
        0 => r.below(lent.len() + 2),
        1 => places[r.below(places.len())] + r.below(12),
        _ => places[r.below(places.len())],
    }
}

pub fn run(tally: &mut Tally, r: &mut Rng, count: u64, name: Name) {
    for _ in 0..count {
        let asked = make(r, name);
        one(tally, &asked, &Asked::port);
    }
}

/// Whole rolls: appended one record after another from the empty one, then walked from byte 0 to the end.
pub fn walks(tally: &mut Tally, r: &mut Rng, count: u64) {
    let empty = Record { kind: 1, set: 1, earlier: 0, label: vec![] };
    for _ in 0..count.div_ceil(20) {
        let mut asked = Asked { name: Name::AppendRoll, lent: values::bytes(600, r.bits()), count: 8, at: 0, record: empty.clone(), slots: vec![9] };
        asked.lent[..8].fill(0);
        let mut added = vec![];
        for _ in 0..r.below(12) {
            asked.record = any(r);
            one(tally, &asked, &Asked::port);
            if asked.port() == 0 {
                asked.count = asked.slots[0];
                added.push(asked.record.clone());
            }
        }
        let read = walk(tally, &mut asked, Name::ReadRoll);
        if read != added {
            tally.differ(0, || format!("read {read:?}, added {added:?}"));
        }
    }
}

/// Walks the roll from byte 0 to where the call says something else than a record.
fn walk(tally: &mut Tally, asked: &mut Asked, name: Name) -> Vec<Record> {
    (asked.name, asked.at, asked.slots) = (name, 0, vec![9; 6]);
    let mut read = vec![];
    loop {
        one(tally, asked, &Asked::port);
        if asked.port() != 0 {
            return read;
        }
        let [kind, set, earlier, from, length, next] = asked.slots[..] else { unreachable!() };
        let label = asked.lent[from..from + length].to_vec();
        read.push(Record { kind: kind as u8, set: set as u32, earlier: earlier as u32, label });
        asked.at = next;
    }
}

/// Older rolls brought over: read by the former rule, appended anew to an empty roll. What comes of it is the roll with the starts in
/// rising order, at every desk.
pub fn older(tally: &mut Tally, r: &mut Rng, count: u64) {
    for _ in 0..count.div_ceil(20) {
        let records: Vec<Record> = (0..r.below(12)).map(|_| good(r)).collect();
        let (lent, record) = (roll(r, &records, Order::Any), Record { kind: 1, set: 1, earlier: 0, label: vec![] });
        let mut asked = Asked { name: Name::ReadRollFormer, count: lent.len(), lent, at: 0, record, slots: vec![] };
        let read = walk(tally, &mut asked, Name::ReadRollFormer);
        (asked.name, asked.slots) = (Name::AppendRoll, vec![9]);
        (asked.lent, asked.count) = (values::bytes(asked.lent.len() + r.below(9), r.bits()), 8);
        asked.lent[..8].fill(0);
        for record in read {
            asked.record = record;
            one(tally, &asked, &Asked::port);
            if asked.port() == 0 {
                asked.count = asked.slots[0];
            }
        }
        let want = roll_of(&records, &(0..records.len()).collect::<Vec<_>>());
        if asked.lent[..asked.count] != want {
            tally.differ(0, || format!("brought over {:?}, to be {want:?}", &asked.lent[..asked.count]));
        }
    }
}
