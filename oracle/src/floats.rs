//! Floats on which rounding and the root can go wrong, and the original's answers on them.
use crate::common::nint;
use crate::record::{checksum, float_word, Record, Replay};
use crate::rng::Rng;

/// The patterns next to b, as far as there are any.
fn around(b: u64, list: &mut Vec<u64>) {
    list.extend([b.saturating_sub(1), b, b.saturating_add(1)]);
}

fn around_float(f: f64, list: &mut Vec<u64>) {
    around(f.to_bits(), list)
}

/// A float whose root is as near to the middle between two floats as one can be: with a middle m of 54
/// digits, the last a 1, and a small c, it is m * m - c, which has 53 digits and then zeros.
pub fn near_tie(r: &mut Rng) -> u64 {
    let c = 8 * (r.below(1 << 20) as i128 - (1 << 19)) + 1;
    // the root of c modulo 2^55, a digit at a time; there is one for each c that is 1 modulo 8
    let mut m: i128 = 1;
    for k in 3..55 {
        if (m * m - c) % (1 << (k + 1)) != 0 {
            m += 1 << (k - 1);
        }
    }
    m %= 1 << 54;
    if m < 1 << 53 {
        m = (1 << 54) - m;
    }
    let square = m * m - c;
    let cut = if square < 1 << 107 { 54 } else { 55 };
    let even = 2 * (r.below(900) as i32 - 450);
    ((square >> cut) as f64 * 2f64.powi(even + cut)).to_bits()
}

/// A significand with few digits, or with all but few.
pub fn sparse(r: &mut Rng) -> u64 {
    let digits = (1u64 << r.below(52)) | (1u64 << r.below(52));
    let digits = if r.below(2) == 0 { digits } else { 0x000F_FFFF_FFFF_FFFF ^ digits };
    (r.bits() & 0xFFF0_0000_0000_0000) | digits
}

/// A number of the size on which rounding has work to do, often half a whole number or next to it.
pub fn near_half(r: &mut Rng) -> u64 {
    let halves = (r.bits() >> (10 + r.below(54))) as f64 / 2.0;
    let b = halves.to_bits() | (r.bits() & (1 << 63));
    match r.below(4) {
        0 => b.wrapping_add(1),
        1 if halves != 0.0 => b.wrapping_sub(1),
        _ => b,
    }
}

/// A float by its bits, of any kind.
pub fn pattern(r: &mut Rng) -> u64 {
    match r.below(8) {
        0 => r.bits() & 0x800F_FFFF_FFFF_FFFF, // subnormal
        1 => sparse(r),
        2 => near_tie(r),
        3 | 4 => near_half(r),
        5 => ((r.bits() >> (38 + r.below(26))) as f64).powi(2).to_bits() + r.bits() % 2,
        6 => (r.bits() & 0x800F_FFFF_FFFF_FFFF) | ((1015 + r.bits() % 80) << 52),
        _ => r.bits(),
    }
}

/// The patterns that are recorded: the special ones, then some at random.
fn patterns() -> Vec<u64> {
    let mut list = vec![];
    for b in [0, 1, 0x000F_FFFF_FFFF_FFFF, 0x0010_0000_0000_0000, 0x7FEF_FFFF_FFFF_FFFF] {
        around(b, &mut list);
    }
    // infinity, and NaN of both kinds
    for b in [0x7FF0_0000_0000_0000, 0x7FF4_0000_0000_0001, 0x7FF8_0000_0000_0000, 0x7FFF_FFFF_FFFF_FFFF] {
        list.push(b);
    }
    for e in -4..=66 {
        around_float(2f64.powi(e), &mut list);
    }
    for e in (-1074..=1023).step_by(31) {
        around_float(2f64.powi(e), &mut list);
    }
    for k in 0..24 {
        around_float(k as f64 + 0.5, &mut list);
    }
    for e in [24, 31, 32, 50, 51, 52, 53, 62, 63] {
        for d in [-1.5, -1.0, -0.5, 0.5, 1.0, 1.5] {
            around_float(2f64.powi(e) + d, &mut list);
        }
    }
    for k in [3u64, 5, 7, 10, 12, 99, 1000, 4095, 65537, 0x3FF_FFFF, 0x400_0001, 94_906_265] {
        around_float((k * k) as f64, &mut list);
    }
    let mut both: Vec<u64> = list.iter().flat_map(|b| [*b, b | (1 << 63)]).collect();
    let mut r = Rng::new(1);
    while both.len() < 1900 {
        both.push(pattern(&mut r));
    }
    both
}

/// The words of a record: x, nint x, x rounded, the root of x.
pub fn replay() -> Replay {
    let answers = |b: u64| {
        let x = f64::from_bits(b);
        vec![b, nint(x) as u64, float_word(x.round()), float_word(x.sqrt())]
    };
    let records: Vec<Record> = patterns().into_iter().map(answers).collect();
    let numberless = |k: usize| records.iter().filter(|r| f64::from_bits(r[k]).is_nan()).count();
    let line = |name: &str, nan: usize| format!("{name}: {} compared, {nan} of them NaN, 0 differ\n", records.len());
    let stdout = [line("nint", 0), line("round", numberless(2)), line("sqrt", numberless(3))].concat()
        + &format!("checksum {}\n", checksum(&records));
    Replay::new(records, stdout, 1)
}

#[cfg(test)]
mod tests {
    use super::*;

    // the middle of the root and a neighbour, squared, is within a few units of 2^-105 of x
    #[test]
    fn ties_are_near() {
        let mut r = Rng::new(7);
        for _ in 0..1000 {
            let x = near_tie(&mut r);
            let q = f64::from_bits(x).sqrt().to_bits();
            let digits = |b: u64| (b % (1 << 52) + (1 << 52)) as u128;
            let scaled = |middle: u128| {
                let square = middle * middle;
                (square >> (128 - square.leading_zeros() - 53), square % (1 << 54))
            };
            let near = |middle: u128| {
                let (top, rest) = scaled(middle);
                let whole = digits(x);
                (top == whole && rest < 1 << 24) || (top + 1 == whole && rest > (1 << 54) - (1 << 24))
            };
            assert!(near(2 * digits(q) + 1) || near(2 * digits(q) - 1), "{x:x}");
        }
    }
}
