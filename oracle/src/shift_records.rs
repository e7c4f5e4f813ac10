//! Recorded verdicts on shift tables: good ones, and ones damaged in every way that document 01 names.
use crate::call::{refusal, Call as _};
use crate::call_tables::Explain;
use crate::record::{counted, report, Record, Replay};
use crate::rng::Rng;
use crate::values::integer_sum;
use crate::shifts::{cyclic, loop5, product, q8, s3, tables, Group, Tables};

/// The tables of a call, with the lengths of its set and of its work slice.
#[derive(Clone)]
struct Call {
    limit: usize,
    set: usize,
    work: usize,
    /// The slots of the explanation.
    slots: usize,
    tables: Tables,
}

impl Call {
    /// The call with the lengths that its counts state.
    fn new(limit: usize, tables: Tables) -> Call {
        let work = tables.n_patom.saturating_mul(tables.n_satom);
        Call { limit, set: work.saturating_mul(9), work, slots: 5, tables }
    }

    fn record(&self) -> Record {
        let t = &self.tables;
        let verdict = t.verdict(self.limit, self.set, self.work);
        let lists = [&t.perms, &t.p2s, &t.s2pp, &t.nsym_list];
        let mut told = Explain { tables: t.clone(), place: vec![7; self.slots] };
        let refused = refusal(&mut told);
        let answer = if refused == 0 { told.original() } else { refused };
        // the tables alone: check_shift_tables, and what explain_shift_tables says of them
        let mut words = vec![verdict, t.judged(1024, true), answer as u64, integer_sum(&told.place)];
        words.extend([self.limit, self.set, self.work, self.slots, t.n_satom, t.n_patom, t.num_trans].map(|n| n as u64));
        words.extend(lists.map(|l| l.len() as u64));
        words.extend(lists.into_iter().flatten().map(|x| *x as u64));
        counted(words)
    }
}

pub fn groups() -> Vec<Group> {
    let z2 = cyclic(2);
    vec![cyclic(1), cyclic(2), cyclic(3), cyclic(4), product(&z2, &z2), s3(), q8()]
}

const LIMITS: [usize; 3] = [1024, 256, 64];

fn good(r: &mut Rng) -> Vec<Call> {
    let mut calls = vec![];
    for (k, g) in groups().iter().enumerate() {
        for n_patom in 1..=3 {
            calls.push(Call::new(LIMITS[k % 3], tables(g, n_patom, None)));
            calls.push(Call::new(LIMITS[(k + 1) % 3], tables(g, n_patom, Some(r))));
        }
    }
    // at the limit
    calls.push(Call::new(64, tables(&cyclic(1), 64, Some(r))));
    calls.push(Call::new(64, tables(&cyclic(4), 16, Some(r))));
    calls
}

/// No table at all: all entries for the given counts are 0.
pub fn zeros(n_satom: usize, n_patom: usize, num_trans: usize) -> Tables {
    Tables {
        n_satom,
        n_patom,
        num_trans,
        perms: vec![0; n_satom * num_trans],
        p2s: vec![0; n_patom],
        s2pp: vec![0; n_satom],
        nsym_list: vec![0; n_satom],
    }
}

/// Counts of zero, and tables of zeros for small counts.
fn small_counts() -> Vec<Call> {
    let mut calls = vec![];
    for n_satom in 0..3 {
        for n_patom in 0..3 {
            for num_trans in 0..3 {
                calls.push(Call::new(64, zeros(n_satom, n_patom, num_trans)));
            }
        }
    }
    calls.push(Call::new(64, zeros(0, 0, 64)));
    calls
}

/// Counts above the limit, with the right lengths, with others, and with bad entries.
fn counts_above(r: &mut Rng) -> Vec<Call> {
    let mut calls = vec![];
    let base = Call::new(64, tables(&cyclic(3), 2, Some(r)));
    for large in [65, 66, usize::MAX / 2, usize::MAX] {
        for k in 0..3 {
            let mut call = base.clone();
            match k {
                0 => call.tables.n_satom = large,
                1 => call.tables.n_patom = large,
                _ => call.tables.num_trans = large,
            }
            calls.push(Call::new(64, call.tables.clone()));
            call.tables.s2pp[0] = -1;
            call.work = 3;
            calls.push(call);
        }
    }
    // each count at its limit and one above, with the lengths of small ones
    for count in [1024, 1025] {
        let changes: [fn(&mut Tables, usize); 3] = [|t, n| t.n_satom = n, |t, n| t.n_patom = n, |t, n| t.num_trans = n];
        for change in changes {
            let mut call = Call { limit: 1024, ..base.clone() };
            change(&mut call.tables, count);
            calls.push(call);
        }
    }
    calls.push(Call::new(64, zeros(65, 65, 1)));
    calls.push(Call::new(64, zeros(0, 0, 65)));
    calls.push(Call::new(256, zeros(0, 0, 257)));
    calls.push(Call::new(1024, zeros(0, 0, 1025)));
    calls.push(Call::new(1024, zeros(0, 0, 1024)));
    calls
}

/// Lengths one too small and one too large, alone and with a bad entry; and counts one off.
fn wrong_lengths(r: &mut Rng) -> Vec<Call> {
    let mut calls = vec![];
    let base = Call::new(256, tables(&s3(), 2, Some(r)));
    for k in 0..6 {
        for longer in [false, true] {
            for bad_entry in [false, true] {
                let mut call = base.clone();
                match k {
                    4 => call.set = if longer { call.set + 1 } else { call.set - 1 },
                    5 => call.work = if longer { call.work + 1 } else { 0 },
                    _ if longer => call.tables.table(k).push(0),
                    _ => drop(call.tables.table(k).pop()),
                }
                if bad_entry {
                    call.tables.perms[5] = -7;
                }
                calls.push(call);
            }
        }
    }
    for k in 0..3 {
        for more in [false, true] {
            let mut t = base.tables.clone();
            let count = match k {
                0 => &mut t.n_satom,
                1 => &mut t.n_patom,
                _ => &mut t.num_trans,
            };
            *count = if more { *count + 1 } else { *count - 1 };
            calls.push(Call::new(256, t));
        }
    }
    calls
}

/// One entry out of range, read by the Rust or not; a broken rule beside it does not matter.
fn out_of_range(r: &mut Rng) -> Vec<Call> {
    let mut calls = vec![];
    for g in [cyclic(2), s3()] {
        let base = Call::new(64, tables(&g, 2, Some(r)));
        for k in 0..4 {
            let t = &base.tables;
            let count = [t.n_satom, t.n_satom, t.n_patom, t.num_trans][k] as i64;
            for value in [-1, i64::MIN, count, i64::MAX] {
                let mut call = base.clone();
                let table = call.tables.table(k);
                let at = match r.below(3) {
                    0 => 0,
                    1 => table.len() - 1,
                    _ => r.below(table.len()),
                };
                table[at] = value;
                calls.push(call);
            }
        }
    }
    calls
}

/// The tables with exactly the given rules broken, if some are among many damaged ones.
fn with_broken(r: &mut Rng, broken: [bool; 8]) -> Option<Tables> {
    let all = groups();
    for _ in 0..4000 {
        let g = &all[1 + r.below(all.len() - 1)];
        let n_patom = 1 + r.below(3);
        let mut t = tables(g, n_patom, Some(r));
        for _ in 0..1 + r.below(3) {
            damage(r, &mut t);
        }
        if t.verdict(1024, t.n_patom * t.n_satom * 9, t.n_patom * t.n_satom) == 6 && t.rules().map(|holds| !holds) == broken {
            return Some(t);
        }
    }
    None
}

/// One change that leaves lengths and ranges as they are stated.
pub fn damage(r: &mut Rng, t: &mut Tables) {
    let (ns, nt) = (t.n_satom, t.num_trans);
    match r.below(7) {
        // two images of a row exchanged
        0 => {
            let row = r.below(nt) * ns;
            let (a, b) = (row + r.below(ns), row + r.below(ns));
            t.perms.swap(a, b);
        }
        // a row twice
        1 => {
            let (from, to) = (r.below(nt) * ns, r.below(nt) * ns);
            t.perms.copy_within(from..from + ns, to);
        }
        // a row left out, and nothing points to it any more
        2 => {
            if nt > 1 {
                t.perms.truncate((nt - 1) * ns);
                t.num_trans -= 1;
                for x in &mut t.nsym_list {
                    *x = (*x).min(nt as i64 - 2);
                }
            }
        }
        // any entry
        k => {
            let count = [ns, ns, t.n_patom, nt][k - 3];
            let value = r.below(count) as i64;
            let table = t.table(k - 3);
            let at = r.below(table.len());
            table[at] = value;
        }
    }
}

/// Every set of rules that a few changes can break, each once, and some damaged tables more.
fn broken_rules(r: &mut Rng) -> Vec<Call> {
    let mut calls = vec![];
    for g in [cyclic(2), cyclic(3), cyclic(4), s3()] {
        let mut t = tables(&g, 2, Some(r));
        t.nsym_list[1] = (t.nsym_list[1] + 1) % t.num_trans as i64;
        calls.push(Call::new(64, t));
    }
    for n_patom in 1..=2 {
        calls.push(Call::new(64, tables(&loop5(), n_patom, None)));
        calls.push(Call::new(64, tables(&loop5(), n_patom, Some(r))));
    }
    for set in 1..256 {
        let broken = std::array::from_fn(|k| set >> k & 1 == 1);
        if let Some(t) = with_broken(r, broken) {
            calls.push(Call::new(LIMITS[set % 3], t));
        }
    }
    calls
}

/// The words of a record: how many follow; verdict; that on the tables alone, whose limit is 1,024; the answer of the explanation and the sum of its
/// slots, all of which held 7; limit; lengths of the set, of the work slice and of the slots;
/// n_satom, n_patom, num_trans; lengths of perms, p2s, s2pp, nsym_list; their entries.
pub fn replay() -> Replay {
    let mut r = Rng::new(2);
    let mut calls = good(&mut r);
    calls.extend(small_counts());
    calls.extend(counts_above(&mut r));
    calls.extend(wrong_lengths(&mut r));
    calls.extend(out_of_range(&mut r));
    calls.extend(broken_rules(&mut r));
    // slots of other lengths, with tables that obey and with such that do not
    for call in [calls[0].clone(), calls[calls.len() - 1].clone()] {
        calls.extend([0, 4, 6].map(|slots| Call { slots, ..call.clone() }));
    }
    let records: Vec<Record> = calls.iter().map(Call::record).collect();
    let stdout = report("shift tables", &records, 1);
    Replay::new(records, stdout, 3)
}

#[cfg(test)]
mod tests {
    use super::*;

    fn flags(t: &Tables) -> Vec<usize> {
        (0..8).filter(|k| !t.rules()[*k]).collect()
    }

    #[test]
    fn good_tables_pass() {
        for call in good(&mut Rng::new(9)) {
            assert_eq!(call.tables.verdict(call.limit, call.set, call.work), 0);
        }
    }

    // The rules that can be broken alone: the null shift (all counts 0), closure (the loop of five), and
    // nsym_list. Each of the others follows from the rest, and is broken together with some.
    #[test]
    fn rules_are_broken() {
        assert_eq!(flags(&zeros(0, 0, 0)), [2]);
        assert_eq!(flags(&tables(&loop5(), 1, None)), [3]);
        let broken: Vec<Vec<usize>> = broken_rules(&mut Rng::new(2)).iter().map(|c| flags(&c.tables)).collect();
        assert!(broken.contains(&vec![7]));
        for rule in 0..8 {
            assert!(broken.iter().any(|b| b.contains(&rule)), "{rule}");
        }
        for alone in [0, 1, 4, 5, 6] {
            assert!(!broken.contains(&vec![alone]), "{alone}");
        }
    }
}
