//! The groups that random shift tables are made of.
use crate::rng::Rng;
use crate::shifts::{cyclic, product, q8, s3, tables, Group, Tables};
use std::sync::OnceLock;

/// The n turns and their exchange by m elements, each of which multiplies a turn by r: r to the m is 1 modulo n.
fn turned(n: usize, m: usize, r: usize) -> Group {
    let power = |k: usize| (0..k).fold(1, |product, _| product * r % n);
    let mul = |a: usize, b: usize| (a / m + power(a % m) * (b / m)) % n * m + (a + b) % m;
    Group { n: n * m, mul: (0..n * m * n * m).map(|ab| mul(ab / (n * m), ab % (n * m))).collect() }
}

/// The cyclic groups to 12, products of them, S3, Q8, D4, D5, Dic3, and the smallest group that is not abelian and has
/// no element of order two.
pub fn all() -> &'static [Group] {
    static ALL: OnceLock<Vec<Group>> = OnceLock::new();
    ALL.get_or_init(|| {
        let z2 = cyclic(2);
        let four = product(&z2, &z2);
        let mut list: Vec<Group> = (1..=12).map(cyclic).collect();
        list.extend([product(&four, &z2), product(&z2, &cyclic(4)), product(&cyclic(3), &cyclic(3)), product(&s3(), &z2)]);
        list.extend([s3(), q8(), turned(4, 2, 3), turned(5, 2, 4), turned(3, 4, 2), turned(7, 3, 2)]);
        list.push(four);
        list
    })
}

/// No atom at all: any number of rows obeys the rules.
fn nothing(num_trans: usize) -> Tables {
    Tables { n_satom: 0, n_patom: 0, num_trans, perms: vec![], p2s: vec![], s2pp: vec![], nsym_list: vec![] }
}

/// Tables that obey the rules, over any group, with atoms, rows and representatives in any order or in plain order, for
/// a compact set of the given order and of at most `most` numbers.
pub fn random_tables(r: &mut Rng, order: usize, most: usize) -> Tables {
    if r.below(60) == 0 {
        return nothing(1 + r.below(4));
    }
    loop {
        let g = &all()[r.below(all().len())];
        let n_patom = [1, 1, 2, 2, 3, 1 + r.below(8)][r.below(6)];
        let length = n_patom * (n_patom * g.n).pow(order as u32 - 1) * 3usize.pow(order as u32);
        if length <= most {
            return if r.below(6) == 0 { tables(g, n_patom, None) } else { tables(g, n_patom, Some(r)) };
        }
    }
}

#[cfg(test)]
mod tests {
    use super::*;

    #[test]
    fn all_are_groups() {
        for g in all() {
            let mul = |a: usize, b: usize| g.mul[a * g.n + b];
            for a in 0..g.n {
                assert!(mul(0, a) == a && mul(a, 0) == a && (0..g.n).any(|b| mul(a, b) == 0));
                assert!((0..g.n * g.n).all(|bc| mul(mul(a, bc / g.n), bc % g.n) == mul(a, mul(bc / g.n, bc % g.n))));
            }
        }
    }

    #[test]
    fn random_tables_obey_the_rules() {
        let mut r = Rng::new(11);
        assert!((0..300).all(|_| random_tables(&mut r, 3, 40_000).obey()));
    }
}
