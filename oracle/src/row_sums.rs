//! Row sums of a full second-order set by document 02, A.10, as plain Rust: a model to compare with, which takes nothing
//! from the port. The grid is read from the bits, with integers.

pub const LIMIT: usize = 1024;

/// A multiple of 2^-20 from -2^20 to 2^20.
pub fn on_grid(x: f64) -> bool {
    let bits = x.to_bits();
    let (field, low) = (bits >> 52 & 0x7ff, bits & ((1 << 52) - 1));
    if field == 0x7ff {
        return false;
    }
    // x is digits · 2^(scale - 20), up to its sign
    let (digits, scale) = if field == 0 { (low, 20 - 1074) } else { (low | 1 << 52, field as i64 - 1075 + 20) };
    let whole = digits == 0 || scale >= 0 || (scale > -64 && digits % (1u64 << -scale) == 0);
    whole && x.abs() <= 1_048_576.0
}

/// The nine sums of each atom by a fresh pass: from 0.0, over the second atom, rising.
pub fn fresh(set: &[f64], n: usize) -> Vec<f64> {
    let mut sums = vec![0.0; n * 9];
    for i in 0..n {
        for j in 0..n {
            for k in 0..9 {
                sums[i * 9 + k] += set[(i * n + j) * 9 + k];
            }
        }
    }
    sums
}

/// The answer to a pass that is asked for, and the sums after it.
pub fn row_sums(sums: &mut Vec<f64>, set: &[f64], n: usize) -> u8 {
    if n > LIMIT {
        return 1;
    }
    if set.len() != n * n * 9 || sums.len() != n * 9 {
        return 2;
    }
    *sums = fresh(set, n);
    0
}

/// The answer to a block that arrives, and the set and the sums after it.
pub fn replace_block(set: &mut [f64], sums: &mut [f64], block: &[f64], i: usize, j: usize, n: usize) -> u8 {
    if n > LIMIT {
        return 1;
    }
    if set.len() != n * n * 9 || sums.len() != n * 9 || block.len() != 9 {
        return 2;
    }
    if i >= n || j >= n {
        return 3;
    }
    let at = (i * n + j) * 9;
    let old = set[at..at + 9].to_vec();
    if !old.iter().chain(block).all(|x| on_grid(*x)) {
        return 10;
    }
    for k in 0..9 {
        set[at + k] = block[k];
        sums[i * 9 + k] = sums[i * 9 + k] - old[k] + block[k];
    }
    0
}
