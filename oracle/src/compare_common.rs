//! nint, round and sqrt beside the originals.
use crate::floats::pattern;
use crate::record::float_word;
use crate::rng::Rng;
use crate::tally::Tally;
use crate::{common, port};

/// The answers of both sides as words, one NaN for every NaN.
type Sides = fn(f64) -> [u64; 2];

fn nint(x: f64) -> [u64; 2] {
    [port::nint(x) as u64, common::nint(x) as u64]
}

fn round(x: f64) -> [u64; 2] {
    [float_word(port::round(x)), float_word(x.round())]
}

fn sqrt(x: f64) -> [u64; 2] {
    [float_word(port::sqrt(x)), float_word(x.sqrt())]
}

/// `count` patterns for the function of that name.
pub fn patterns(tally: &mut Tally, r: &mut Rng, count: u64) {
    let sides: Sides = match tally.name.as_str() {
        "nint" => nint,
        "round" => round,
        _ => sqrt,
    };
    for _ in 0..count {
        let b = pattern(r);
        let [got, want] = sides(f64::from_bits(b));
        if got != want {
            tally.differ(1, || format!("of {b:016x}: {got:016x}, to be {want:016x}"));
        }
    }
    tally.numbers += count;
    *tally.answers.entry(0).or_default() += count;
}
