//! Shift tables of document 01: groups, tables that obey the rules (every such table is a free action
//! of a group), and a judge of the rules written from document 01 alone.
use crate::rng::Rng;

/// A group by its table: mul[a * n + b] is a after b, and element 0 the unit.
pub struct Group {
    pub n: usize,
    pub mul: Vec<usize>,
}

fn group(n: usize, mul: impl Fn(usize, usize) -> usize) -> Group {
    let table = (0..n * n).map(|ab| mul(ab / n, ab % n)).collect();
    Group { n, mul: table }
}

pub fn cyclic(n: usize) -> Group {
    group(n, |a, b| (a + b) % n)
}

pub fn product(g: &Group, h: &Group) -> Group {
    group(g.n * h.n, |a, b| {
        g.mul[a / h.n * g.n + b / h.n] * h.n + h.mul[a % h.n * h.n + b % h.n]
    })
}

/// The orders of three: a turn and a flip, which sends each turn to its inverse.
pub fn s3() -> Group {
    group(6, |a, b| {
        let turn = if a % 2 == 0 { b / 2 } else { 3 - b / 2 };
        (a / 2 + turn) % 3 * 2 + (a + b) % 2
    })
}

/// The quaternions: element s * 4 + u is the unit u of 1, i, j, k, negated if s is 1.
pub fn q8() -> Group {
    let units = [[0, 1, 2, 3], [1, 4, 3, 6], [2, 7, 4, 1], [3, 2, 5, 4]];
    group(8, |a, b| {
        let p = units[a % 4][b % 4];
        (a / 4 + b / 4 + p / 4) % 2 * 4 + p % 4
    })
}

/// A Latin square with a unit that is no group: 1 after 1 is 0, and no group of five elements has a
/// pair of that kind. Its rows obey every rule but that two of them, composed, are a row.
pub fn loop5() -> Group {
    let rows = [[0, 1, 2, 3, 4], [1, 0, 3, 4, 2], [2, 4, 0, 1, 3], [3, 2, 4, 0, 1], [4, 3, 1, 2, 0]];
    group(5, |a, b| rows[a][b])
}

/// The four tables and their counts, as a call is given them; the lengths may be any.
#[derive(Clone, Debug, PartialEq)]
pub struct Tables {
    pub n_satom: usize,
    pub n_patom: usize,
    pub num_trans: usize,
    pub perms: Vec<i64>,
    pub p2s: Vec<i64>,
    pub s2pp: Vec<i64>,
    pub nsym_list: Vec<i64>,
}

/// The group acting on n_patom copies of itself. With a random generator the atoms are renumbered,
/// and rows, primitive atoms and representatives stand in any order.
pub fn tables(g: &Group, n_patom: usize, r: Option<&mut Rng>) -> Tables {
    let (n, n_satom) = (g.n, n_patom * g.n);
    let (mut number, mut rows) = ((0..n_satom).collect::<Vec<_>>(), (0..n).collect::<Vec<_>>());
    let (mut primitive, mut chosen) = ((0..n_patom).collect::<Vec<_>>(), vec![0; n_patom]);
    if let Some(r) = r {
        number = r.order(n_satom);
        rows = r.order(n);
        primitive = r.order(n_patom);
        chosen = (0..n_patom).map(|_| r.below(n)).collect();
    }
    let mut t = Tables {
        n_satom,
        n_patom,
        num_trans: n,
        perms: vec![0; n * n_satom],
        p2s: vec![0; n_patom],
        s2pp: vec![0; n_satom],
        nsym_list: vec![0; n_satom],
    };
    for p in 0..n_patom {
        t.p2s[primitive[p]] = number[p * n + chosen[p]] as i64;
        for e in 0..n {
            let a = number[p * n + e];
            t.s2pp[a] = primitive[p] as i64;
            for k in 0..n {
                let image = number[p * n + g.mul[rows[k] * n + e]];
                t.perms[k * n_satom + a] = image as i64;
                if g.mul[rows[k] * n + e] == chosen[p] {
                    t.nsym_list[a] = k as i64;
                }
            }
        }
    }
    t
}

impl Tables {
    pub fn row(&self, t: usize, a: usize) -> usize {
        self.perms[t * self.n_satom + a] as usize
    }

    /// No count is zero, and the lengths are those stated.
    pub fn sized(&self) -> bool {
        let (s, p, n) = (self.n_satom, self.n_patom, self.num_trans);
        s.min(p).min(n) > 0
            && self.p2s.len() == p
            && self.s2pp.len() == s
            && self.nsym_list.len() == s
            && n.checked_mul(s) == Some(self.perms.len())
    }

    /// All the rules hold. The entries are in range.
    pub fn obey(&self) -> bool {
        self.rules() == [true; 8]
    }

    /// The rules of "Shift tables", in document 01's order. The entries are in range.
    pub fn rules(&self) -> [bool; 8] {
        let (ns, np, nt) = (self.n_satom, self.n_patom, self.num_trans);
        let s2pp = |a: usize| self.s2pp[a] as usize;
        let p2s = |p: usize| self.p2s[p] as usize;
        let after = |k: usize, l: usize| (0..nt).any(|m| (0..ns).all(|a| self.row(m, a) == self.row(k, self.row(l, a))));
        [
            ns == np * nt,
            (0..nt).all(|k| (0..ns).all(|a| (0..a).all(|b| self.row(k, a) != self.row(k, b)))),
            (0..nt).any(|k| (0..ns).all(|a| self.row(k, a) == a)),
            (0..nt).all(|k| (0..nt).all(|l| after(k, l))),
            (0..nt).all(|k| (0..k).all(|l| (0..ns).all(|a| self.row(k, a) != self.row(l, a)))),
            (0..np).all(|p| s2pp(p2s(p)) == p),
            (0..nt).all(|k| (0..ns).all(|a| s2pp(self.row(k, a)) == s2pp(a))),
            (0..ns).all(|a| self.row(self.nsym_list[a] as usize, a) == p2s(s2pp(a))),
        ]
    }

    /// The refusal, or 0, of a call with these tables, of a compact set and a work slice of the lengths
    /// of second order, at the given limit of the atoms.
    pub fn verdict(&self, limit: usize, set: usize, work: usize) -> u64 {
        let blocks = self.n_patom.saturating_mul(self.n_satom);
        self.judged(limit, set == blocks.saturating_mul(9) && work == blocks)
    }

    /// The refusal, or 0, of a call with these tables, whose other slices have the right lengths or not.
    pub fn judged(&self, limit: usize, right: bool) -> u64 {
        let (ns, np, nt) = (self.n_satom, self.n_patom, self.num_trans);
        if ns > limit || np > limit || nt > limit {
            return 1;
        }
        if !right
            || self.perms.len() != nt * ns
            || self.p2s.len() != np
            || self.s2pp.len() != ns
            || self.nsym_list.len() != ns
        {
            return 2;
        }
        let bad = |table: &[i64], count: usize| table.iter().any(|x| *x < 0 || *x >= count as i64);
        if bad(&self.perms, ns) || bad(&self.p2s, ns) || bad(&self.s2pp, np) || bad(&self.nsym_list, nt) {
            return 3;
        }
        if self.obey() {
            0
        } else {
            6
        }
    }

    /// The tables by number: perms, p2s, s2pp, nsym_list.
    pub fn table(&mut self, k: usize) -> &mut Vec<i64> {
        match k {
            0 => &mut self.perms,
            1 => &mut self.p2s,
            2 => &mut self.s2pp,
            _ => &mut self.nsym_list,
        }
    }
}

#[cfg(test)]
mod tests {
    use super::*;

    fn associative(g: &Group) -> bool {
        let n = g.n;
        (0..n * n * n).all(|abc| {
            let (a, b, c) = (abc / n / n, abc / n % n, abc % n);
            g.mul[g.mul[a * n + b] * n + c] == g.mul[a * n + g.mul[b * n + c]]
        })
    }

    fn latin_with_unit(g: &Group) -> bool {
        let n = g.n;
        (0..n).all(|a| {
            let all = |line: Vec<usize>| (0..n).all(|x| line.contains(&x));
            g.mul[a] == a
                && g.mul[a * n] == a
                && all((0..n).map(|b| g.mul[a * n + b]).collect())
                && all((0..n).map(|b| g.mul[b * n + a]).collect())
        })
    }

    #[test]
    fn groups_are_groups() {
        let z2 = cyclic(2);
        for g in [cyclic(1), cyclic(3), cyclic(4), product(&z2, &z2), s3(), q8()] {
            assert!(latin_with_unit(&g) && associative(&g));
        }
        assert!(latin_with_unit(&loop5()) && !associative(&loop5()));
    }
}
