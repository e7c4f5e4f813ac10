//! The numbers of a set that the recorder and the replay programs both make from a seed (crate replays, src/values.rt),
//! and the checksum over a slice.
use crate::record::float_word;

const PRIME: u64 = 4_294_967_291;

/// The checksum h after one word more.
pub fn mix(h: u64, w: u64) -> u64 {
    (h % PRIME * 1_000_003 + w % PRIME) % PRIME
}

/// The number that is drawn after h.
fn stir(h: u64) -> u64 {
    mix(h * h % PRIME, h)
}

/// What is drawn first for place i of a slice with this seed.
fn draw(seed: u64, i: usize) -> u64 {
    stir(mix(seed, i as u64))
}

/// So many kinds of set are drawn from: ordinary numbers; zeros of both signs and subnormal ones; huge ones; a few
/// infinities; a few NaN; any pattern; zeros of both signs only; some of each.
pub const KINDS: u64 = 8;

/// And kinds that some calls are recorded with: -0.0 alone; ordinary numbers that are not negative; zeros of both signs
/// and subnormal numbers alone; the largest numbers, of which no two can be added.
pub const MINUS_ZEROS: u64 = 8;
pub const POSITIVE: u64 = 9;
pub const TINY: u64 = 10;
pub const LARGEST: u64 = 11;

/// For each kind the classes of sixteen numbers, one of which is drawn. 0: an ordinary number, 1: a zero of either
/// sign, 2: a subnormal number, 3: a huge one, 4: an infinity, 5: NaN, 6: any pattern, 7: -0.0, 8: an ordinary number
/// that is not negative, 9: one of the largest.
const CLASSES: [[usize; 16]; 12] = [
    [0; 16],
    [1, 1, 1, 1, 1, 1, 1, 1, 1, 1, 2, 2, 2, 2, 0, 0],
    [3, 3, 3, 3, 3, 3, 3, 3, 0, 0, 0, 0, 0, 0, 0, 1],
    [4, 0, 0, 0, 0, 0, 0, 0, 0, 0, 0, 0, 0, 0, 0, 0],
    [5, 0, 0, 0, 0, 0, 0, 0, 0, 0, 0, 0, 0, 0, 0, 0],
    [6; 16],
    [1; 16],
    [0, 0, 0, 0, 0, 0, 0, 0, 0, 1, 1, 2, 3, 4, 5, 6],
    [7; 16],
    [8; 16],
    [1, 1, 1, 1, 1, 1, 1, 1, 2, 2, 2, 2, 2, 2, 2, 2],
    [9; 16],
];

/// The bits of a pattern that a number of each class keeps, and those that are set in it.
const KEPT_AND_SET: [(u64, u64); 10] = [
    (0x807F_FFFF_FFFF_FFFF, 0x3F80_0000_0000_0000),
    (0x8000_0000_0000_0000, 0),
    (0x800F_FFFF_FFFF_FFFF, 0),
    (0x801F_FFFF_FFFF_FFFF, 0x7FC0_0000_0000_0000),
    (0x8000_0000_0000_0000, 0x7FF0_0000_0000_0000),
    (0, 0x7FF8_0000_0000_0000),
    (u64::MAX, 0),
    (0, 0x8000_0000_0000_0000),
    (0x007F_FFFF_FFFF_FFFF, 0x3F80_0000_0000_0000),
    (0x800F_FFFF_FFFF_FFFF, 0x7FE0_0000_0000_0000),
];

/// Number i of a set with this seed and of this kind.
fn value(seed: u64, kind: u64, i: usize) -> f64 {
    let a = draw(seed, i);
    let b = stir(a);
    let (kept, set) = KEPT_AND_SET[CLASSES[kind as usize][(a % 16) as usize]];
    f64::from_bits((b + (stir(b) << 32)) & kept | set)
}

/// Fills a set.
pub fn fill(out: &mut [f64], seed: u64, kind: u64) {
    for (i, x) in out.iter_mut().enumerate() {
        *x = value(seed, kind, i);
    }
}

/// A set of n numbers.
pub fn floats(n: usize, seed: u64, kind: u64) -> Vec<f64> {
    (0..n).map(|i| value(seed, kind, i)).collect()
}

/// A work slice of n bytes.
pub fn bytes(n: usize, seed: u64) -> Vec<u8> {
    (0..n).map(|i| (draw(seed, i) % 256) as u8).collect()
}

/// A work slice of n integers.
pub fn integers(n: usize, seed: u64) -> Vec<i64> {
    (0..n).map(|i| draw(seed, i) as i64).collect()
}

/// The checksum of the numbers of a slice, every NaN the same.
pub fn sum(s: &[f64]) -> u64 {
    s.iter().fold(0, |h, x| mix(h, float_word(*x)))
}

/// The checksum of the bytes of a slice.
pub fn byte_sum(s: &[u8]) -> u64 {
    s.iter().fold(0, |h, x| mix(h, *x as u64))
}

/// The checksum of the integers of a slice.
pub fn integer_sum(s: &[i64]) -> u64 {
    s.iter().fold(0, |h, x| mix(h, *x as u64))
}

#[cfg(test)]
mod tests {
    use super::*;
    use std::collections::HashSet;
    use std::num::FpCategory::{self, Infinite, Nan, Normal, Subnormal, Zero};

    /// What is met in a set of the kind: classes of floats, each with both signs but NaN.
    fn met(kind: u64) -> Vec<FpCategory> {
        let set = floats(20_000, 5, kind);
        let some = |c: FpCategory, negative: bool| set.iter().any(|x| x.classify() == c && x.is_sign_negative() == negative);
        [Zero, Subnormal, Normal, Infinite, Nan]
            .into_iter()
            .filter(|c| some(*c, false) && (*c == Nan || some(*c, true)))
            .collect()
    }

    #[test]
    fn kinds_are_as_named() {
        let expected = [
            vec![Normal],
            vec![Zero, Subnormal, Normal],
            vec![Zero, Normal],
            vec![Normal, Infinite],
            vec![Normal, Nan],
            vec![Subnormal, Normal, Nan],
            vec![Zero],
            vec![Zero, Subnormal, Normal, Infinite, Nan],
        ];
        for (kind, list) in expected.iter().enumerate() {
            assert_eq!(met(kind as u64), *list, "kind {kind}");
        }
    }

    #[test]
    fn single_kinds_are_as_named() {
        assert!(floats(1000, 5, MINUS_ZEROS).iter().all(|x| x.to_bits() == 1 << 63));
        assert!(floats(1000, 5, POSITIVE).iter().all(|x| *x > 0.0 && x.is_normal()));
        assert_eq!(met(TINY), [Zero, Subnormal]);
        assert!(floats(1000, 5, LARGEST).iter().all(|x| x.is_finite() && (x + x).is_infinite()));
    }

    // numbers that are all different, and whose sums are rounded
    #[test]
    fn ordinary_numbers_differ() {
        let set = floats(6_000, 9, 0);
        assert_eq!(set.iter().map(|x| x.to_bits()).collect::<HashSet<_>>().len(), set.len());
        let rounded = set.chunks(3).filter(|c| c.len() == 3 && (c[0] + c[1]) + c[2] != c[0] + (c[1] + c[2])).count();
        assert!(rounded > 300, "{rounded}");
    }
}
