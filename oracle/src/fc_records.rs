//! Recorded answers of the originals' symmetrizers and transposes of third and fourth order; and of the true transposes, which the
//! originals do not have, by their definition.
use crate::call::ATOMS;
use crate::compare_true::{exchanged, swapped};
use crate::record::{counted, report, Record, Replay};
use crate::rng::Rng;
use crate::shift_records::{groups, zeros};
use crate::shifts::{cyclic, product, s3, tables, Tables};
use crate::values::{byte_sum, bytes, fill, sum, KINDS, LARGEST, MINUS_ZEROS, TINY};
use crate::{fc3, fc4};

/// Document 01's limit of the counts.
pub fn limit(order: u32) -> usize {
    ATOMS[order as usize]
}

/// The numbers of a block.
pub fn width(order: u32) -> usize {
    3usize.pow(order)
}

/// The longest set that is recorded.
fn room(order: u32) -> usize {
    if order == 4 {
        83000
    } else {
        32768
    }
}

#[derive(Clone, Copy, PartialEq)]
enum Name {
    Full,
    Compact,
    Transpose,
    True,
    Swap,
}

/// A call. Of a full set n_satom is num_atom, and there are no tables.
#[derive(Clone)]
struct Call {
    order: u32,
    name: Name,
    /// The set is made from the seed, and not the one that the call before left.
    fresh: bool,
    t_type: i64,
    seed: u64,
    kind: u64,
    set: usize,
    work: usize,
    tables: Tables,
}

impl Call {
    /// The call with the lengths that its counts state.
    fn new(order: u32, name: Name, t_type: i64, kind: u64, tables: Tables) -> Call {
        let mut call = Call { order, name, fresh: true, t_type, seed: 0, kind, set: 0, work: 0, tables };
        (call.set, call.work) = call.stated();
        call
    }

    /// The lengths of the set and of the work slice.
    fn stated(&self) -> (usize, usize) {
        let (n, p) = (self.tables.n_satom, self.tables.n_patom);
        let blocks = |first: usize, others: u32| first.saturating_mul(n.saturating_pow(others));
        let (set, work) = match (self.name, self.order) {
            (Name::Full, 3) => (blocks(n, 2), 0),
            (Name::Full, _) => (blocks(n, 3), blocks(n, 3)),
            (Name::Compact, order) => (blocks(p, order - 1), blocks(p, order - 1)),
            (Name::Transpose | Name::True | Name::Swap, order) => (blocks(p, order - 1), blocks(p, 1)),
        };
        (set.saturating_mul(width(self.order)), work)
    }

    /// The refusal by document 01, or 0.
    fn refusal(&self) -> u64 {
        let right = (self.set, self.work) == self.stated();
        if self.name != Name::Full {
            // a leg above 3 comes after 1 and 2 and before 6
            return match self.tables.judged(limit(self.order), right) {
                0 | 6 if self.legs().iter().any(|leg| *leg > 3) => 3,
                number => number,
            };
        }
        match (self.tables.n_satom > limit(self.order), right) {
            (true, _) => 1,
            (_, false) => 2,
            _ => 0,
        }
    }

    /// The two legs of a swap, which stand in the place of a type: the first and eight times the second.
    fn legs(&self) -> [usize; 2] {
        if self.name == Name::Swap {
            [self.t_type as usize % 8, self.t_type as usize / 8]
        } else {
            [0; 2]
        }
    }

    /// The number of the call in a record: 0 to 2 of third order, 3 to 5 of fourth; the true transposes by their order, the swaps 5.
    fn number(&self) -> u64 {
        match self.name {
            Name::True => return self.order as u64,
            Name::Swap => return 5,
            _ => {}
        }
        3 * (self.order as u64 - 3) + self.name as u64
    }

    /// The original's call, or what the definition leaves.
    fn run(&self, f: &mut [f64]) {
        let t = &self.tables;
        let (n, p) = (t.n_satom, t.n_patom);
        match (self.name, self.order) {
            (Name::Full, 3) => fc3::set_permutation_symmetry_fc3(f, n),
            (Name::Full, _) => fc4::set_permutation_symmetry_fc4(f, n),
            (Name::Compact, 3) => fc3::set_permutation_symmetry_compact_fc3(f, &t.p2s, &t.s2pp, &t.nsym_list, &t.perms, n, p),
            (Name::Compact, _) => fc4::set_permutation_symmetry_compact_fc4(f, &t.p2s, &t.s2pp, &t.nsym_list, &t.perms, n, p),
            (Name::Transpose, 3) => fc3::transpose_compact_fc3(f, &t.p2s, &t.s2pp, &t.nsym_list, &t.perms, n, p, self.t_type),
            (Name::Transpose, _) => fc4::transpose_compact_fc4(f, &t.p2s, &t.s2pp, &t.nsym_list, &t.perms, n, p, self.t_type),
            (Name::True, order) => f.copy_from_slice(&exchanged(order as usize, self.t_type, t, f)),
            (Name::Swap, _) => f.copy_from_slice(&swapped(4, (self.legs()[0], self.legs()[1]), t, f)),
        }
    }

    /// `memory` is what the set is lent from: the program's, which the calls before have written.
    fn record(&self, memory: &mut [f64]) -> Record {
        let t = &self.tables;
        let lists = [&t.perms, &t.p2s, &t.s2pp, &t.nsym_list];
        assert!(self.work <= 2048 && t.perms.len() <= 256 && lists[1..].iter().all(|l| l.len() <= 65), "no room");
        let set = &mut memory[..self.set];
        if self.fresh {
            fill(set, self.seed, self.kind);
        }
        let mut work = bytes(self.work, self.seed);
        let refusal = self.refusal();
        if refusal == 0 {
            self.run(set);
            work.fill(0);
        }
        let mut words = vec![refusal, sum(set), byte_sum(&work), self.number(), self.fresh as u64];
        words.extend([self.t_type as u64, self.seed, self.kind]);
        words.extend([self.set, self.work, t.n_satom, t.n_patom, t.num_trans].map(|n| n as u64));
        words.extend(lists.map(|l| l.len() as u64));
        words.extend(lists.into_iter().flatten().map(|x| *x as u64));
        counted(words)
    }
}

/// Full sets of 0 to 4 atoms, of every kind, and refused ones.
fn full(order: u32) -> Vec<Call> {
    let call = |n: usize, kind: u64| Call::new(order, Name::Full, 0, kind, Tables { n_satom: n, ..none() });
    let kinds = || (0..KINDS).chain([MINUS_ZEROS, TINY, LARGEST]);
    let mut calls: Vec<Call> = (0..5).flat_map(|n| kinds().map(move |kind| call(n, kind))).collect();
    for n in [limit(order), limit(order) + 1, usize::MAX] {
        let mut large = call(2, 0);
        large.tables.n_satom = n;
        calls.push(large);
    }
    for n in [1, 2] {
        for more in [false, true] {
            let mut other = call(n, 0);
            other.set = if more { other.set + 1 } else { other.set - 1 };
            calls.push(other);
            // the full call of third order has no work slice
            if order == 4 {
                let mut other = call(n, 0);
                other.work = if more { other.work + 1 } else { other.work - 1 };
                calls.push(other);
            }
        }
    }
    calls
}

/// Without its last entry.
pub fn shorten(table: &mut Vec<i64>) {
    table.truncate(table.len() - 1)
}

fn none() -> Tables {
    zeros(0, 0, 0)
}

/// The types that a call of the order is recorded with, the last two without a meaning; at second order there is none.
fn types(order: u32) -> Vec<i64> {
    match order {
        2 => vec![0],
        3 => vec![0, 1, 2, 3, -1],
        _ => vec![0, 1, -1],
    }
}

/// Every group with 1 to 3 primitive atoms, atoms and rows in any order; small ones with sets of every kind.
fn good(order: u32, r: &mut Rng) -> Vec<Call> {
    let mut calls = vec![];
    let mut kind = 0;
    for g in groups() {
        for n_patom in 1..=3 {
            let t = tables(&g, n_patom, Some(r));
            if Call::new(order, Name::Compact, 0, 0, t.clone()).set > room(order) {
                continue;
            }
            calls.push(Call::new(order, Name::Compact, 0, kind % KINDS, t.clone()));
            for ty in types(order).into_iter().take(if order == 3 { 3 } else { 1 }) {
                kind += 1;
                calls.push(Call::new(order, Name::Transpose, ty, kind % KINDS, t.clone()));
            }
        }
    }
    let z2 = cyclic(2);
    for g in [cyclic(1), cyclic(2), cyclic(3), product(&z2, &z2)] {
        let t = tables(&g, 1, Some(r));
        for kind in (0..KINDS).chain([MINUS_ZEROS, TINY, LARGEST]) {
            calls.push(Call::new(order, Name::Compact, 0, kind, t.clone()));
        }
        for (k, ty) in types(order).into_iter().enumerate() {
            calls.push(Call::new(order, Name::Transpose, ty, k as u64 % KINDS, t.clone()));
        }
    }
    for ty in [i64::MIN, i64::MAX, 4, 256, 1 << 32] {
        calls.push(Call::new(order, Name::Transpose, ty, 0, tables(&z2, 2, Some(r))));
    }
    calls
}

/// Counts of zero, and tables of zeros for small counts.
fn small_counts(order: u32) -> Vec<Call> {
    let mut calls = vec![];
    for (n_satom, n_patom, num_trans) in [(0, 0, 0), (0, 0, 1), (0, 1, 0), (1, 0, 0), (1, 1, 1), (2, 1, 1), (2, 2, 1), (1, 1, 2), (0, 0, limit(order))] {
        for name in [Name::Compact, Name::Transpose] {
            calls.push(Call::new(order, name, 0, 0, zeros(n_satom, n_patom, num_trans)));
        }
    }
    calls
}

type Change = Box<dyn Fn(&mut Call)>;

/// A call damaged in every way that document 01 names.
fn damaged(base: &Call, r: &mut Rng) -> Vec<Call> {
    let mut calls = vec![];
    let mut with = |change: &dyn Fn(&mut Call)| {
        let mut call = base.clone();
        change(&mut call);
        calls.push(call);
    };
    // counts above the limit, with right and with wrong lengths
    for large in [limit(base.order) + 1, usize::MAX] {
        with(&|c| c.tables.n_satom = large);
        with(&|c| c.tables.n_patom = large);
        with(&|c| c.tables.num_trans = large);
    }
    with(&|c| {
        c.tables.num_trans = limit(c.order) + 1;
        c.set = 5;
        c.tables.s2pp[0] = -1;
    });
    // lengths one off, alone and with a bad entry; counts one off
    let mut lengths: Vec<Change> =
        vec![Box::new(|c| c.set -= 1), Box::new(|c| c.set += 1), Box::new(|c| c.work -= 1), Box::new(|c| c.work += 1)];
    for k in 0..4 {
        lengths.push(Box::new(move |c| c.tables.table(k).push(0)));
        lengths.push(Box::new(move |c| shorten(c.tables.table(k))));
    }
    for change in &lengths {
        with(change);
        with(&|c| {
            c.tables.nsym_list[0] = -7;
            change(c);
        });
    }
    with(&|c| c.tables.n_satom += 1);
    with(&|c| c.tables.n_patom += 1);
    with(&|c| c.tables.num_trans -= 1);
    // entries out of range, the last of a table too
    let t = &base.tables;
    for (k, count) in [t.n_satom, t.n_satom, t.n_patom, t.num_trans].into_iter().enumerate() {
        for bad in [-1, count as i64, i64::MIN, i64::MAX] {
            let at = r.below(base.tables.clone().table(k).len());
            with(&|c| c.tables.table(k)[at] = bad);
        }
        with(&|c| *c.tables.table(k).last_mut().unwrap() = -1);
    }
    // entries in range that break rules
    for (k, count) in [t.n_satom, t.n_satom, t.n_patom, t.num_trans].into_iter().enumerate() {
        for _ in 0..3 {
            let at = r.below(base.tables.clone().table(k).len());
            let more = 1 + r.below(count.max(2) - 1);
            with(&|c| {
                let entry = &mut c.tables.table(k)[at];
                *entry = (*entry + more as i64) % count as i64;
            });
        }
    }
    calls
}

fn refused(order: u32, r: &mut Rng) -> Vec<Call> {
    let z2 = cyclic(2);
    let mut calls = vec![];
    calls.extend(damaged(&Call::new(order, Name::Compact, 0, 0, tables(&product(&z2, &z2), 1, Some(r))), r));
    calls.extend(damaged(&Call::new(order, Name::Transpose, 0, 0, tables(&cyclic(2), 2, Some(r))), r));
    if order == 3 {
        calls.extend(damaged(&Call::new(order, Name::Transpose, 2, 0, tables(&cyclic(3), 1, Some(r))), r));
    }
    // sheet 11: one atom, 26 numbers; the same with a bad index
    let mut short = Call::new(order, Name::Compact, 0, 0, tables(&cyclic(1), 1, None));
    short.set -= 1;
    let mut bad = short.clone();
    bad.tables.p2s[0] = 1;
    calls.extend([short, bad]);
    // tables that break a rule, with a type that has no meaning
    let mut call = Call::new(order, Name::Transpose, 7, 0, tables(&cyclic(3), 1, Some(r)));
    call.tables.nsym_list.swap(0, 1);
    calls.push(call);
    calls
}

/// Each count at its limit and one above, with the lengths as they were.
fn at_limits(base: &Call) -> Vec<Call> {
    let n = limit(base.order);
    let changes: [fn(&mut Tables, usize); 3] = [|t, n| t.n_satom = n, |t, n| t.n_patom = n, |t, n| t.num_trans = n];
    let changed = |change: &fn(&mut Tables, usize), n: usize| {
        let mut call = base.clone();
        change(&mut call.tables, n);
        call
    };
    changes.iter().flat_map(|change| [changed(change, n), changed(change, n + 1)]).collect()
}

/// Lists of transposes, each on the result of the one before; every third is refused.
fn lists(order: u32, name: Name, r: &mut Rng) -> Vec<Call> {
    let mut calls = vec![];
    for (k, g) in [cyclic(1), cyclic(3), cyclic(5), s3(), cyclic(4), cyclic(3)].iter().enumerate() {
        let t = tables(g, if g.n < 4 { 2 } else { 1 }, Some(r));
        let length = 4 + r.below(4);
        for i in 0..length {
            let ty = types(order)[r.below(types(order).len())];
            let mut call = Call::new(order, name, ty, [0, 7, 5][k % 3], t.clone());
            call.fresh = i == 0;
            match (i % 3, r.below(4)) {
                (1, 0) => call.tables.n_satom = limit(order) + 1,
                (1, 1) => call.work += 1,
                (1, 2) => call.tables.perms[0] = -1,
                (1, _) => call.tables.nsym_list.rotate_left(1),
                _ => {}
            }
            calls.push(call);
        }
    }
    calls
}

fn calls(order: u32) -> Vec<Call> {
    let mut r = Rng::new(30 + order as u64);
    let mut calls = full(order);
    calls.extend(good(order, &mut r));
    calls.extend(small_counts(order));
    calls.extend(refused(order, &mut r));
    for name in [Name::Compact, Name::Transpose] {
        calls.extend(at_limits(&Call::new(order, name, 0, 0, tables(&cyclic(2), 1, Some(&mut r)))));
    }
    calls.extend(lists(order, Name::Transpose, &mut r));
    for (k, call) in calls.iter_mut().enumerate() {
        call.seed = 1000 * order as u64 + k as u64;
    }
    calls
}

/// The true transposes of one order: every group with 1 and 2 primitive atoms, half shifts among them; every type; refused calls; lists.
fn true_calls(order: u32, r: &mut Rng) -> Vec<Call> {
    let mut calls = vec![];
    for (k, g) in groups().into_iter().enumerate() {
        for n_patom in 1..=2 {
            let t = tables(&g, n_patom, Some(r));
            let ty = types(order)[k % types(order).len()];
            let call = Call::new(order, Name::True, ty, k as u64 % KINDS, t);
            if call.set <= room(order) / 4 && call.tables.perms.len() <= 256 {
                calls.push(call);
            }
        }
    }
    let z2 = cyclic(2);
    for g in [cyclic(1), cyclic(2), product(&z2, &z2)] {
        let t = tables(&g, 1, Some(r));
        calls.extend(types(order).into_iter().map(|ty| Call::new(order, Name::True, ty, MINUS_ZEROS, t.clone())));
    }
    for ty in [i64::MIN, i64::MAX, 4, 1 << 32] {
        calls.push(Call::new(order, Name::True, if order == 2 { 0 } else { ty }, 0, tables(&z2, 2, Some(r))));
    }
    for (n_satom, n_patom, num_trans) in [(0, 0, 0), (0, 0, 1), (1, 0, 0), (1, 1, 1), (2, 2, 1)] {
        calls.push(Call::new(order, Name::True, 0, 0, zeros(n_satom, n_patom, num_trans)));
    }
    calls.extend(damaged(&Call::new(order, Name::True, 0, 0, tables(&z2, 2, Some(r))), r));
    let mut call = Call::new(order, Name::True, if order == 2 { 0 } else { 7 }, 0, tables(&cyclic(3), 1, Some(r)));
    call.tables.nsym_list.swap(0, 1);
    calls.push(call);
    calls.extend(at_limits(&Call::new(order, Name::True, 0, 0, tables(&z2, 1, Some(r)))));
    calls.extend(lists(order, Name::True, r));
    calls
}

/// The swaps of two legs at fourth order: every pair of legs over tables with half shifts and without, legs above 3 alone and beside what comes
/// before and after them, refused calls; a list.
fn swap_calls(r: &mut Rng) -> Vec<Call> {
    let z2 = cyclic(2);
    let legs = |a: usize, b: usize| (a + 8 * b) as i64;
    let mut calls = vec![];
    for g in [cyclic(1), cyclic(2), cyclic(3), product(&z2, &z2), s3()] {
        let t = tables(&g, 1, Some(r));
        calls.extend((0..16).map(|k| Call::new(4, Name::Swap, legs(k / 4, k % 4), k as u64 % KINDS, t.clone())));
    }
    let base = Call::new(4, Name::Swap, legs(2, 0), 0, tables(&z2, 2, Some(r)));
    calls.extend((0..16).map(|k| Call { t_type: legs(k / 4, k % 4), kind: k as u64 % KINDS, ..base.clone() }));
    calls.extend(at_limits(&base));
    calls.extend(damaged(&base, r));
    for (a, b) in [(4, 0), (0, 4), (4, 4), (7, 3), (1, 6)] {
        let call = Call { t_type: legs(a, b), ..base.clone() };
        let mut changed = vec![call.clone(); 4];
        changed[0].tables.n_satom = limit(4) + 1;
        changed[1].work += 1;
        changed[2].tables.perms[0] = -1;
        changed[3].tables.nsym_list.swap(0, 1);
        calls.push(call);
        calls.extend(changed);
    }
    let t = tables(&product(&z2, &z2), 1, Some(r));
    calls.extend((0..12).map(|i| {
        let mut call = Call::new(4, Name::Swap, legs(r.below(4), r.below(5)), 0, t.clone());
        call.fresh = i == 0;
        call
    }));
    calls
}

/// The records of the true transposes of the three orders and of the swaps, all sets lent from one memory.
pub fn true_replay() -> Replay {
    let mut r = Rng::new(37);
    let mut memory = vec![0.0; room(4)];
    let mut calls: Vec<Call> = (2..5).flat_map(|order| true_calls(order, &mut r)).collect();
    calls.extend(swap_calls(&mut r));
    calls.iter_mut().enumerate().for_each(|(k, call)| call.seed = 7000 + k as u64);
    let records: Vec<Record> = calls.into_iter().map(|call| call.record(&mut memory)).collect();
    let stdout = report("true transposes", &records, 1);
    Replay::new(records, stdout, 3)
}

/// The words of a record: see README.md. All sets are lent from one memory.
pub fn replay(order: u32) -> Replay {
    let mut memory = vec![0.0; room(order)];
    let records: Vec<Record> = calls(order).into_iter().map(|call| call.record(&mut memory)).collect();
    let (title, pages) = if order == 3 { ("third order", 3) } else { ("fourth order", 2) };
    let stdout = report(title, &records, 1);
    Replay::new(records, stdout, pages)
}
