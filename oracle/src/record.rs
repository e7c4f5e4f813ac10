//! The files of recorded answers: see README.md, "Records".

/// One record: its words, in order.
pub type Record = Vec<u64>;

/// The record with the number of its words before it, for records of different lengths.
pub fn counted(words: Vec<u64>) -> Record {
    let mut record = vec![words.len() as u64];
    record.extend(words);
    record
}

/// A part of what a replay program reads, and what it has to write of it.
pub struct Replay {
    pub records: Vec<Record>,
    pub stdout: String,
    pages: usize,
}

impl Replay {
    /// For a part of which the program reads so many pages.
    pub fn new(records: Vec<Record>, stdout: String, pages: usize) -> Replay {
        Replay { records, stdout, pages }
    }

    /// The pages of the part, all of them whole: the next part begins after them.
    pub fn file(&self) -> Vec<u8> {
        let mut file = pages(&self.records);
        assert!(file.len() <= self.pages * PAGE, "more than the program reads");
        file.resize(self.pages * PAGE, 0);
        file
    }
}

/// What the programs write in common, by the answers of their records, whose word number is `answer`.
pub fn report(title: &str, records: &[Record], answer: usize) -> String {
    let number = |k: u64| records.iter().filter(|r| r[answer] == k).count();
    let mut text = format!("{title}: {} compared, 0 differ\nended well: {}\n", records.len(), number(0));
    for k in 1..=6 {
        text += &format!("refused, {k}: {}\n", number(k));
    }
    text + &format!("checksum {}\n", checksum(records))
}

/// The checksum over all words of the records, in order. A replay program takes the answers that it
/// worked out for those that were recorded. The modulus is a prime: one wrong bit changes the sum.
pub fn checksum(records: &[Record]) -> u64 {
    const PRIME: u64 = 4_294_967_291;
    records.iter().flatten().fold(0, |sum, word| (sum * 1_000_003 + word % PRIME) % PRIME)
}

/// The bytes that a replay program reads at once: its buffer.
pub const PAGE: usize = 65536;

/// Up to eight bytes, the first one lowest.
pub fn byte_word(bytes: &[u8]) -> u64 {
    bytes.iter().rev().fold(0, |w, b| w * 256 + *b as u64)
}

/// The bits of f, those of one NaN for every NaN.
pub fn float_word(f: f64) -> u64 {
    if f.is_nan() {
        0x7FF8_0000_0000_0000
    } else {
        f.to_bits()
    }
}

/// The records as pages: a page's first word is how many records it has, and no record crosses pages.
/// All pages but the last are filled up with zeros; `Replay::file` fills that one.
pub fn pages(records: &[Record]) -> Vec<u8> {
    let mut file = vec![];
    let mut page: Vec<u64> = vec![0];
    for record in records {
        assert!((1 + record.len()) * 8 <= PAGE, "a record is longer than a page");
        if (page.len() + record.len()) * 8 > PAGE {
            page.resize(PAGE / 8, 0);
            file.append(&mut page);
            page = vec![0];
        }
        page[0] += 1;
        page.extend(record);
    }
    file.append(&mut page);
    file.iter().flat_map(|word| word.to_le_bytes()).collect()
}
