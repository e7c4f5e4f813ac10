//! The check of shift tables, which the Rust leaves to its caller: the rules of document 01 as shifts.rs has them; and why tables are refused, as
//! include/gullyfork.h says it.
use crate::c_names;
use crate::call::{index, integers, Call, Parts, ATOMS};
use crate::makers;
use crate::rng::Rng;
use crate::shift_records::damage;
use crate::shifts::Tables;
use crate::spoil::spoil;

#[derive(Clone, Debug)]
pub struct Check(pub Tables);

impl Call for Check {
    fn parts(&mut self) -> Parts<'_> {
        let t = &mut self.0;
        let (s, p, n) = (t.n_satom, t.n_patom, t.num_trans);
        let counts = vec![(&mut t.n_satom, ATOMS[2]), (&mut t.n_patom, ATOMS[2]), (&mut t.num_trans, ATOMS[2])];
        let slices = vec![
            index(&mut t.p2s, &[p], s),
            index(&mut t.s2pp, &[s], p),
            index(&mut t.nsym_list, &[s], n),
            index(&mut t.perms, &[n, s], s),
        ];
        Parts::new(counts, slices)
    }

    fn rest(&self) -> u8 {
        if self.0.obey() {
            0
        } else {
            6
        }
    }

    fn original(&mut self) -> u8 {
        0
    }

    fn port(&mut self) -> u8 {
        let t = &self.0;
        // SAFETY: slices by their pointers and lengths, no precondition.
        unsafe {
            c_names::gf_check_shift_tables(
                t.p2s.as_ptr(), t.p2s.len(), t.s2pp.as_ptr(), t.s2pp.len(), t.nsym_list.as_ptr(), t.nsym_list.len(),
                t.perms.as_ptr(), t.perms.len(), t.n_satom, t.n_patom, t.num_trans,
            )
        }
    }

    fn spoil(&mut self, r: &mut Rng) {
        if self.0.sized() {
            damage(r, &mut self.0);
        }
    }
}

#[derive(Clone, Debug)]
pub struct Explain {
    pub tables: Tables,
    pub place: Vec<i64>,
}

/// Tables with up to two changes, so that all that can be wrong with them is.
pub fn explain(r: &mut Rng) -> Explain {
    let mut check = makers::check(r);
    for _ in 0..r.below(3) {
        spoil(r, &mut check);
    }
    Explain { tables: check.0, place: (0..5).map(|_| r.bits() as i64).collect() }
}

/// Whether i, j and k break the rule.
fn breaks(t: &Tables, rule: usize, i: usize, j: usize, k: usize) -> bool {
    let (s2pp, p2s) = (|a: usize| t.s2pp[a] as usize, |p: usize| t.p2s[p] as usize);
    match rule {
        0 => t.n_satom != t.n_patom * t.num_trans,
        1 => j != k && t.row(i, j) == t.row(i, k),
        2 => (0..t.num_trans).all(|u| (0..t.n_satom).any(|a| t.row(u, a) != a)),
        3 => (0..t.num_trans).all(|u| (0..t.n_satom).any(|a| t.row(u, a) != t.row(j, t.row(i, a)))),
        4 => i != j && t.row(i, k) == t.row(j, k),
        5 => s2pp(p2s(i)) != i,
        6 => s2pp(t.row(i, j)) != s2pp(j),
        _ => t.row(t.nsym_list[i] as usize, i) != p2s(s2pp(i)),
    }
}

fn reason(t: &Tables) -> [usize; 5] {
    let (s, p, n) = (t.n_satom, t.n_patom, t.num_trans);
    if let Some(which) = [s, p, n].iter().position(|count| *count > ATOMS[2]) {
        return [1, which, 0, 0, 0];
    }
    let tables = [(&t.perms, n * s, s), (&t.p2s, p, s), (&t.s2pp, s, p), (&t.nsym_list, s, n)];
    if let Some(which) = tables.iter().position(|(table, stated, _)| table.len() != *stated) {
        return [2, which, 0, 0, 0];
    }
    for (which, (table, _, count)) in tables.iter().enumerate() {
        if let Some(entry) = table.iter().position(|x| *x < 0 || *x as u64 >= *count as u64) {
            return [3, which, entry, 0, 0];
        }
    }
    let counts = [[1; 3], [n, s, s], [1; 3], [n, n, 1], [n, n, s], [p, 1, 1], [n, s, 1], [s, 1, 1]];
    for (rule, [a, b, c]) in counts.into_iter().enumerate() {
        for place in 0..a * b * c {
            let (i, j, k) = (place / c / b, place / c % b, place % c);
            if breaks(t, rule, i, j, k) {
                return [6, rule, i, j, k];
            }
        }
    }
    [0; 5]
}

impl Call for Explain {
    fn parts(&mut self) -> Parts<'_> {
        let t = &mut self.tables;
        let mut slices: Vec<_> = [&mut t.p2s, &mut t.s2pp, &mut t.nsym_list, &mut t.perms]
            .into_iter()
            .map(|table| {
                let length = [table.len()];
                integers(table, &length)
            })
            .collect();
        slices.push(integers(&mut self.place, &[5]));
        Parts::new(vec![], slices)
    }

    fn original(&mut self) -> u8 {
        self.place = reason(&self.tables).map(|x| x as i64).to_vec();
        0
    }

    fn port(&mut self) -> u8 {
        let t = &self.tables;
        // SAFETY: slices by their pointers and lengths, no precondition.
        unsafe {
            c_names::gf_explain_shift_tables(
                t.p2s.as_ptr(), t.p2s.len(), t.s2pp.as_ptr(), t.s2pp.len(), t.nsym_list.as_ptr(), t.nsym_list.len(), t.perms.as_ptr(),
                t.perms.len(), self.place.as_mut_ptr() as *mut usize, self.place.len(), t.n_satom, t.n_patom, t.num_trans,
            )
        }
    }
}
