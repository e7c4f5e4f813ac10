//! A public call as the comparison and the benchmark see it: its counts with their limits, its lent slices with the
//! lengths that document 01 states, and both sides.
use crate::rng::Rng;
use std::fmt::Debug;

/// Document 01's limits of the atoms by the order, of the level, and of lists and the counts that stand for lists.
pub const ATOMS: [usize; 5] = [0, 0, 1024, 256, 64];
pub const LEVEL: usize = 1000;
pub const LIST: usize = 1024;

/// The numbers of a lent slice.
pub enum Numbers<'a> {
    Floats(&'a mut Vec<f64>),
    Integers(&'a mut Vec<i64>),
    Bytes(&'a mut Vec<u8>),
}

pub struct Lent<'a> {
    pub numbers: Numbers<'a>,
    /// Document 01's length.
    pub stated: u128,
    /// The count that the entries of an index table point into.
    pub below: Option<usize>,
    /// A work slice: its old content has no influence, and a call that ends well leaves zeros.
    pub work: bool,
}

fn lent<'a>(numbers: Numbers<'a>, factors: &[usize]) -> Lent<'a> {
    let stated = factors.iter().fold(1u128, |product, n| product.saturating_mul(*n as u128));
    Lent { numbers, stated, below: None, work: false }
}

/// A slice of floats; its length is the product of the factors.
pub fn floats<'a>(v: &'a mut Vec<f64>, factors: &[usize]) -> Lent<'a> {
    lent(Numbers::Floats(v), factors)
}

/// A slice of integers that nobody reads as indices.
pub fn integers<'a>(v: &'a mut Vec<i64>, factors: &[usize]) -> Lent<'a> {
    lent(Numbers::Integers(v), factors)
}

/// An index table whose entries point into a count.
pub fn index<'a>(v: &'a mut Vec<i64>, factors: &[usize], below: usize) -> Lent<'a> {
    Lent { below: Some(below), ..lent(Numbers::Integers(v), factors) }
}

pub fn bytes<'a>(v: &'a mut Vec<u8>, factors: &[usize]) -> Lent<'a> {
    lent(Numbers::Bytes(v), factors)
}

impl Lent<'_> {
    pub fn as_work(self) -> Self {
        Lent { work: true, ..self }
    }

    pub fn len(&self) -> usize {
        match &self.numbers {
            Numbers::Floats(v) => v.len(),
            Numbers::Integers(v) => v.len(),
            Numbers::Bytes(v) => v.len(),
        }
    }

    /// The bytes of a number.
    pub fn width(&self) -> usize {
        match &self.numbers {
            Numbers::Bytes(_) => 1,
            _ => 8,
        }
    }

    pub fn resize(&mut self, n: usize) {
        match &mut self.numbers {
            Numbers::Floats(v) => v.resize(n, 0.0),
            Numbers::Integers(v) => v.resize(n, 0),
            Numbers::Bytes(v) => v.resize(n, 0),
        }
    }

    pub fn clear(&mut self) {
        match &mut self.numbers {
            Numbers::Floats(v) => v.fill(0.0),
            Numbers::Integers(v) => v.fill(0),
            Numbers::Bytes(v) => v.fill(0),
        }
    }

    pub fn rubbish(&mut self, r: &mut Rng) {
        match &mut self.numbers {
            Numbers::Floats(v) => v.iter_mut().for_each(|x| *x = f64::from_bits(r.bits())),
            Numbers::Integers(v) => v.iter_mut().for_each(|x| *x = r.bits() as i64),
            Numbers::Bytes(v) => v.iter_mut().for_each(|x| *x = r.bits() as u8),
        }
    }

    /// The bits of number k.
    pub fn word(&self, k: usize) -> u64 {
        match &self.numbers {
            Numbers::Floats(v) => v[k].to_bits(),
            Numbers::Integers(v) => v[k] as u64,
            Numbers::Bytes(v) => v[k] as u64,
        }
    }

    /// Document 01's refusal 3: an entry is negative, or not below the count that it points into.
    pub fn points_outside(&self) -> bool {
        match (&self.numbers, self.below) {
            (Numbers::Integers(v), Some(count)) => v.iter().any(|x| *x < 0 || *x as u64 >= count as u64),
            _ => false,
        }
    }
}

pub struct Parts<'a> {
    /// Each count with its limit.
    pub counts: Vec<(&'a mut usize, usize)>,
    /// The length of the list, where a call has one.
    pub list: usize,
    /// Every lent slice.
    pub slices: Vec<Lent<'a>>,
}

impl<'a> Parts<'a> {
    pub fn new(counts: Vec<(&'a mut usize, usize)>, slices: Vec<Lent<'a>>) -> Parts<'a> {
        Parts { counts, list: 0, slices }
    }
}

pub trait Call: Clone + Debug {
    fn parts(&mut self) -> Parts<'_>;

    /// Refusal 3 for another reason than an entry of an index table.
    fn outside(&self) -> bool {
        false
    }

    /// Refusals 4, 5 and 6 of a call to which 1, 2 and 3 do not apply; 0 if none applies.
    fn rest(&self) -> u8 {
        0
    }

    /// The Rust on this call's slices, where no refusal applies; the answer's number.
    fn original(&mut self) -> u8;

    /// The library on this call's slices, by its C name; the answer's number.
    fn port(&mut self) -> u8;

    /// Whether a call that ends well makes number k of that slice by arithmetic, so that a NaN there may be any NaN.
    /// Every other number is moved or left as it was, and its bits stay.
    fn made(&self, slice: usize, _k: usize) -> bool {
        slice == 0
    }

    /// One change of what refusals 4, 5 and 6 look at.
    fn spoil(&mut self, _: &mut Rng) {}

    /// Takes over from the library's answer what the papers leave free, if it is as they demand; of calls that are not refused.
    fn settle(&mut self, _: &Self) {}
}

/// Document 01's refusal of the call, or 0.
pub fn refusal<C: Call>(call: &mut C) -> u8 {
    let parts = call.parts();
    if parts.counts.iter().any(|(count, limit)| **count > *limit) || parts.list > LIST {
        return 1;
    }
    if parts.slices.iter().any(|s| s.len() as u128 != s.stated) {
        return 2;
    }
    if parts.slices.iter().any(|s| s.points_outside()) || call.outside() {
        return 3;
    }
    call.rest()
}

/// Gives every slice the length that the counts state, if none is longer than `most`.
pub fn fit<C: Call>(call: &mut C, most: u128) {
    let mut parts = call.parts();
    if parts.slices.iter().all(|s| s.stated <= most) {
        for s in &mut parts.slices {
            s.resize(s.stated as usize);
        }
    }
}
