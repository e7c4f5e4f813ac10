//! Sets of floats of every kind.
use crate::rng::Rng;

#[derive(Clone, Copy)]
enum Kind {
    Plain,
    Wild,
    Huge,
    Tiny,
    Zeros,
    Grid,
    Bits,
}

const KINDS: [Kind; 8] = [Kind::Plain, Kind::Plain, Kind::Wild, Kind::Huge, Kind::Tiny, Kind::Zeros, Kind::Grid, Kind::Bits];

fn sign(r: &mut Rng) -> f64 {
    [1.0, -1.0][r.below(2)]
}

/// Zeros of both signs, subnormal numbers, infinities, NaN, the largest, numbers that overflow, and plain ones.
fn wild(r: &mut Rng) -> f64 {
    match r.below(20) {
        0 => 0.0,
        1 => -0.0,
        2 => sign(r) * f64::from_bits(r.bits() >> 12),
        3 => sign(r) * f64::INFINITY,
        4 => f64::NAN,
        // of either sign, quiet and signalling
        5 => f64::from_bits(0x7FF0_0000_0000_0001 | r.bits() & 0x800F_FFFF_FFFF_FFFF),
        6 => sign(r) * f64::MAX,
        7 => (r.unit() * 2.0 - 1.0) * 1.7e308,
        8 => (r.unit() - 0.5) * 3e-308,
        9 => f64::from_bits(r.bits()),
        _ => r.unit() * 2.0 - 1.0,
    }
}

fn number(r: &mut Rng, kind: Kind) -> f64 {
    match kind {
        Kind::Plain => r.unit() * 20.0 - 10.0,
        Kind::Wild => wild(r),
        Kind::Huge => sign(r) * f64::from_bits(0x7FC0_0000_0000_0000 + r.bits() % 0x002F_FFFF_FFFF_FFFF),
        Kind::Tiny => sign(r) * f64::from_bits(r.bits() % 64),
        Kind::Zeros => [0.0, -0.0, -0.0][r.below(3)],
        Kind::Grid => (r.below(1 << 21) as f64 - 1_048_576.0) / 1_048_576.0,
        Kind::Bits => f64::from_bits(r.bits()),
    }
}

/// n numbers of one kind; now and then with a wild one among plain ones.
pub fn fill(r: &mut Rng, n: usize) -> Vec<f64> {
    let kind = KINDS[r.below(KINDS.len())];
    let mut set: Vec<f64> = (0..n).map(|_| number(r, kind)).collect();
    if n > 0 && r.below(4) == 0 {
        let at = r.below(n);
        set[at] = wild(r);
    }
    set
}

pub fn plain(r: &mut Rng, n: usize) -> Vec<f64> {
    (0..n).map(|_| number(r, Kind::Plain)).collect()
}
