//! A delivery roll by document 02, A.7, A.8, A.12, A.13 and A.14, as plain Rust: nothing here is taken from the port.
use std::collections::{BTreeSet, HashMap};

/// A record: kind 1 delivery, 2 replacement, 3 retirement.
#[derive(Clone, Debug, PartialEq)]
pub struct Record {
    pub kind: u8,
    pub set: u32,
    pub earlier: u32,
    pub label: Vec<u8>,
}

/// A roll that was read: each record with where it starts, and where the trailer begins.
pub struct Roll {
    pub records: Vec<(usize, Record)>,
    pub trailer: usize,
}

/// In which order the trailer may list the starts: rising (A.13), or any, the former rule under which older rolls are read (A.7).
#[derive(Clone, Copy, Debug, PartialEq)]
pub enum Order {
    Rising,
    Any,
}

pub const MOST_RECORDS: usize = 1000;
pub const MOST_BYTES: usize = 65536;
pub const NOT_A_ROLL: u8 = 7;
pub const NO_ROOM: u8 = 8;
pub const NOT_LAWFUL: u8 = 9;
pub const UNKNOWN_SET: u8 = 11;

impl Record {
    /// No set has the number 0; just replacements have an earlier number; the length of the label fits a byte.
    pub fn keeps_rules(&self) -> bool {
        let kinds = (1..=3).contains(&self.kind);
        let earlier = if self.kind == 2 { self.earlier != 0 } else { self.earlier == 0 };
        kinds && self.set >= 1 && earlier && u8::try_from(self.label.len()).is_ok()
    }

    pub fn bytes(&self) -> Vec<u8> {
        let mut bytes = vec![self.kind];
        bytes.extend(self.set.to_le_bytes());
        bytes.extend(self.earlier.to_le_bytes());
        bytes.push(self.label.len() as u8);
        bytes.extend(&self.label);
        bytes
    }
}

/// The bytes of records one after another, and the trailer with the starts in the given order (places in the list of records).
pub fn roll_of(records: &[Record], order: &[usize]) -> Vec<u8> {
    let (mut bytes, mut starts) = (vec![], vec![]);
    for record in records {
        starts.push(bytes.len() as u32);
        bytes.extend(record.bytes());
    }
    let trailer = bytes.len() as u32;
    order.iter().for_each(|k| bytes.extend(starts[*k].to_le_bytes()));
    bytes.extend((records.len() as u32).to_le_bytes());
    bytes.extend(trailer.to_le_bytes());
    bytes
}

fn integer(bytes: &[u8], at: usize) -> Option<usize> {
    let four = bytes.get(at..at.checked_add(4)?)?;
    Some(u32::from_le_bytes(four.try_into().unwrap()) as usize)
}

/// The record at a position, and where it ends; it has to end at the trailer or before.
fn record_at(body: &[u8], at: usize) -> Option<(Record, usize)> {
    let kind = *body.get(at)?;
    let (set, earlier) = (integer(body, at + 1)? as u32, integer(body, at + 5)? as u32);
    let from = at + 10;
    let end = from + *body.get(at + 9)? as usize;
    let record = Record { kind, set, earlier, label: body.get(from..end)?.to_vec() };
    record.keeps_rules().then_some((record, end))
}

/// The roll that all the bytes are, if they are one.
pub fn read_roll(bytes: &[u8], order: Order) -> Option<Roll> {
    if bytes.len() < 8 || bytes.len() > MOST_BYTES {
        return None;
    }
    let (trailer, count) = (integer(bytes, bytes.len() - 4)?, integer(bytes, bytes.len() - 8)?);
    let body = bytes.get(..trailer)?;
    let mut records = vec![];
    let mut at = 0;
    while at < trailer {
        let (record, end) = record_at(body, at)?;
        records.push((at, record));
        at = end;
    }
    let mut listed: Vec<usize> = (0..records.len()).map(|k| integer(bytes, trailer + 4 * k)).collect::<Option<_>>()?;
    if order == Order::Any {
        listed.sort();
    }
    let starts: Vec<usize> = records.iter().map(|(start, _)| *start).collect();
    let whole = trailer + 4 * count + 8 == bytes.len();
    (records.len() == count && count <= MOST_RECORDS && whole && listed == starts).then_some(Roll { records, trailer })
}

/// The roll that stands in the first `count` bytes of a slice.
pub fn held(lent: &[u8], count: usize, order: Order) -> Option<Roll> {
    read_roll(lent.get(..count)?, order)
}

/// What the appender answers: the new roll's bytes, its starts in rising order, or the number of the refusal.
pub fn appended(lent: &[u8], count: usize, record: Record) -> Result<Vec<u8>, u8> {
    let roll = held(lent, count, Order::Rising).filter(|_| record.keeps_rules()).ok_or(NOT_A_ROLL)?;
    let mut records: Vec<Record> = roll.records.into_iter().map(|(_, record)| record).collect();
    records.push(record);
    let bytes = roll_of(&records, &(0..records.len()).collect::<Vec<_>>());
    if records.len() > MOST_RECORDS || bytes.len() > MOST_BYTES || bytes.len() > lent.len() {
        return Err(NO_ROOM);
    }
    Ok(bytes)
}

/// What a roll answers for a set.
#[derive(Debug, PartialEq)]
pub enum Standing {
    Unknown,
    Retired,
    Current(u32),
}

/// What the register notes of a set that was delivered.
#[derive(Default)]
struct Noted {
    retired: bool,
    replaced_by: Option<u32>,
}

/// The plain register of the records, by set; None where a record breaks a rule: it delivers a number a second time, names a set that no
/// record before it delivers, or replaces a set for the second time.
fn register(records: &[Record]) -> Option<HashMap<u32, Noted>> {
    let mut register: HashMap<u32, Noted> = HashMap::new();
    for record in records {
        if record.kind == 3 {
            register.get_mut(&record.set)?.retired = true;
            continue;
        }
        if record.kind == 2 && register.get_mut(&record.earlier)?.replaced_by.replace(record.set).is_some() {
            return None;
        }
        if register.insert(record.set, Noted::default()).is_some() {
            return None;
        }
    }
    Some(register)
}

/// Follows the replacements to their end, and looks there whether that set is retired.
fn ask(register: &HashMap<u32, Noted>, set: u32) -> Standing {
    match register.get(&set) {
        None => Standing::Unknown,
        Some(Noted { replaced_by: Some(next), .. }) => ask(register, *next),
        Some(Noted { retired: true, .. }) => Standing::Retired,
        Some(_) => Standing::Current(set),
    }
}

/// Which set stands now, or the number of the refusal: 7, then 9.
pub fn standing(lent: &[u8], count: usize, set: u32) -> Result<Standing, u8> {
    let roll = held(lent, count, Order::Rising).ok_or(NOT_A_ROLL)?;
    let records: Vec<Record> = roll.records.into_iter().map(|(_, record)| record).collect();
    register(&records).map(|register| ask(&register, set)).ok_or(NOT_LAWFUL)
}

/// The set and all that replacements link with it, lowest number first: whatever replaced one of them or was replaced by one of them joins,
/// until none is left to join.
fn line(register: &HashMap<u32, Noted>, set: u32) -> BTreeSet<u32> {
    let mut line = BTreeSet::from([set]);
    loop {
        let joins = |(from, noted): (&u32, &Noted)| noted.replaced_by.filter(|to| line.contains(from) != line.contains(to)).map(|to| [*from, to]);
        let more: Vec<u32> = register.iter().filter_map(joins).flatten().collect();
        if more.is_empty() {
            return line;
        }
        line.extend(more);
    }
}

/// The first bytes of the slice with the retirements added, or the number of the refusal: 7, 9, 11, 8.
pub fn retired(lent: &[u8], count: usize, set: u32) -> Result<Vec<u8>, u8> {
    let roll = held(lent, count, Order::Rising).ok_or(NOT_A_ROLL)?;
    let records: Vec<Record> = roll.records.into_iter().map(|(_, record)| record).collect();
    let register = register(&records).ok_or(NOT_LAWFUL)?;
    if !register.contains_key(&set) {
        return Err(UNKNOWN_SET);
    }
    let mut after = lent.to_vec();
    let mut count = count;
    for set in line(&register, set).into_iter().filter(|set| !register[set].retired) {
        let bytes = appended(&after, count, Record { kind: 3, set, earlier: 0, label: vec![] })?;
        count = bytes.len();
        after[..count].copy_from_slice(&bytes);
    }
    after.truncate(count);
    Ok(after)
}

#[cfg(test)]
mod tests {
    use super::*;

    fn delivery(label: usize) -> Record {
        Record { kind: 1, set: 1, earlier: 0, label: vec![65; label] }
    }

    #[test]
    fn the_text() {
        for order in [Order::Rising, Order::Any] {
            assert!(read_roll(&[0; 8], order).is_some_and(|roll| roll.records.is_empty()));
            assert!(read_roll(&[0; 7], order).is_none() && read_roll(&[0; 9], order).is_none());
            assert!(read_roll(&roll_of(&[delivery(2), delivery(0)], &[0, 0]), order).is_none());
        }
        let older = roll_of(&[delivery(2), delivery(0)], &[1, 0]);
        assert_eq!(read_roll(&older, Order::Any).unwrap().records, [(0, delivery(2)), (12, delivery(0))]);
        assert!(read_roll(&older, Order::Rising).is_none());
        let two = roll_of(&[delivery(2), delivery(0)], &[0, 1]);
        assert_eq!(read_roll(&two, Order::Rising).unwrap().records, [(0, delivery(2)), (12, delivery(0))]);
        assert_eq!(appended(&two, two.len(), delivery(0)), Err(NO_ROOM));
        assert_eq!(appended(&two, two.len(), delivery(256)), Err(NOT_A_ROLL));
    }

    #[test]
    fn standings() {
        let record = |kind, set, earlier| Record { kind, set, earlier, label: vec![] };
        let says = |records: &[Record], set| {
            let bytes = roll_of(records, &(0..records.len()).collect::<Vec<_>>());
            standing(&bytes, bytes.len(), set)
        };
        let chain = [record(1, 1, 0), record(2, 5, 1), record(2, 3, 5), record(1, 9, 0)];
        assert_eq!([1, 5, 3, 9].map(|set| says(&chain, set)), [3, 3, 3, 9].map(|set| Ok(Standing::Current(set))));
        assert_eq!([0, 2].map(|set| says(&chain, set)), [Ok(Standing::Unknown), Ok(Standing::Unknown)]);
        let retired = [&chain[..], &[record(3, 5, 0), record(3, 5, 0)]].concat();
        assert_eq!([1, 5, 3].map(|set| says(&retired, set)), [3, 3, 3].map(|set| Ok(Standing::Current(set))));
        let ended = [&retired[..], &[record(3, 3, 0)]].concat();
        assert_eq!([1, 5, 3].map(|set| says(&ended, set)), [Ok(Standing::Retired), Ok(Standing::Retired), Ok(Standing::Retired)]);
        for last in [record(1, 5, 0), record(2, 5, 3), record(2, 4, 4), record(2, 4, 7), record(2, 4, 1), record(3, 4, 0)] {
            assert_eq!(says(&[&chain[..], &[last]].concat(), 9), Err(NOT_LAWFUL));
        }
        assert_eq!(standing(&[0; 7], 7, 1), Err(NOT_A_ROLL));
    }

    #[test]
    fn retirements() {
        let record = |kind, set, earlier| Record { kind, set, earlier, label: vec![] };
        let made = |records: &[Record]| roll_of(records, &(0..records.len()).collect::<Vec<_>>());
        let history = [record(1, 7, 0), record(2, 9, 7), record(1, 3, 0), record(2, 5, 9), record(3, 9, 0)];
        let pressed = |records: &[Record], set, spare: usize| {
            let bytes = made(records);
            retired(&[bytes.clone(), vec![0; spare]].concat(), bytes.len(), set)
        };
        let all = [&history[..], &[record(3, 5, 0), record(3, 7, 0)]].concat();
        for set in [5, 7, 9] {
            assert_eq!(pressed(&history, set, 28), Ok(made(&all)));
            assert_eq!(pressed(&history, set, 27), Err(NO_ROOM));
            assert_eq!(pressed(&all, set, 0), Ok(made(&all)));
        }
        assert_eq!(pressed(&history, 3, 14), Ok(made(&[&history[..], &[record(3, 3, 0)]].concat())));
        assert_eq!(pressed(&history, 4, 0), Err(UNKNOWN_SET));
        assert_eq!(pressed(&[record(1, 1, 0), record(1, 1, 0)], 4, 0), Err(NOT_LAWFUL));
    }

    #[test]
    fn the_limits() {
        let rising = |n: usize| (0..n).collect::<Vec<_>>();
        assert!(read_roll(&roll_of(&vec![delivery(0); 1000], &rising(1000)), Order::Rising).is_some());
        assert!(read_roll(&roll_of(&vec![delivery(0); 1001], &rising(1001)), Order::Rising).is_none());
        let mut records = vec![delivery(255); 243];
        records.push(delivery(147));
        assert_eq!(roll_of(&records, &rising(244)).len(), MOST_BYTES);
        assert!(read_roll(&roll_of(&records, &rising(244)), Order::Rising).is_some());
        records[243].label.push(0);
        assert!(read_roll(&roll_of(&records, &rising(244)), Order::Rising).is_none());
    }
}
