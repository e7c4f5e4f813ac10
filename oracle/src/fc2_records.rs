//! Recorded answers of second order. The numbers of sets, work slices and rotations are made from a seed.
use crate::call::{fit, refusal, Call, Lent};
use crate::call_compact::{Compact, Name};
use crate::call_distribute::Distribute;
use crate::call_full::Full;
use crate::record::{counted, report, Record, Replay};
use crate::rng::Rng;
use crate::shifts::{loop5, tables, Tables};
use crate::spoil::{at_limits, spoil};
use crate::{groups, makers, values};

/// What a record says of a call: the words between the sums and the tables, and the tables.
struct Inputs {
    /// The lengths of set, work slice and rotations.
    lengths: [usize; 3],
    words: Vec<u64>,
    tables: Vec<Vec<i64>>,
}

impl Inputs {
    fn entries(&self) -> usize {
        self.tables.iter().map(Vec::len).sum()
    }

    /// Whether the replay program has room for them.
    fn fit(&self) -> bool {
        let most = if self.tables.len() > 4 { [3072, 64, 64, 2560] } else { [3072, 2048, 0, 640] };
        let [set, work, rotations] = self.lengths;
        [set, work, rotations, self.entries()].iter().zip(most).all(|(n, most)| *n <= most)
    }
}

trait Recorded: Call {
    /// Makes all numbers from the seed: kinds are those of the set and of the rotations.
    fn fill(&mut self, seed: u64, kinds: [u64; 2]);

    fn inputs(&self, seed: u64, kinds: [u64; 2]) -> Inputs;

    /// The sums of what the call left: the set and the work slice.
    fn left(&self) -> [u64; 2];
}

/// The words that a call on a set has as those of third and fourth order have them; the level or 1 for a transpose stands in the place of the type.
fn of_a_set(number: u64, level: usize, seed: u64, kind: u64, [set, work]: [usize; 2], counts: [usize; 3], tables: Vec<Vec<i64>>) -> Inputs {
    let mut words = vec![number, 1, level as u64, seed, kind, set as u64, work as u64];
    words.extend(counts.map(|n| n as u64));
    Inputs { lengths: [set, work, 0], words, tables }
}

impl Recorded for Full {
    fn fill(&mut self, seed: u64, kinds: [u64; 2]) {
        self.set = values::floats(self.set.len(), seed, kinds[0]);
    }

    fn inputs(&self, seed: u64, kinds: [u64; 2]) -> Inputs {
        of_a_set(0, self.level, seed, kinds[0], [self.set.len(), 0], [self.atoms, 0, 0], vec![vec![]; 4])
    }

    fn left(&self) -> [u64; 2] {
        [values::sum(&self.set), 0]
    }
}

impl Recorded for Compact {
    fn fill(&mut self, seed: u64, kinds: [u64; 2]) {
        self.set = values::floats(self.set.len(), seed, kinds[0]);
        self.done = values::bytes(self.done.len(), seed);
    }

    fn inputs(&self, seed: u64, kinds: [u64; 2]) -> Inputs {
        let t = self.tables.clone();
        let (number, level) = if self.name == Name::Symmetrize2 { (1, self.level) } else { (2, self.t_type as usize) };
        let lists = vec![t.perms, t.p2s, t.s2pp, t.nsym_list];
        of_a_set(number, level, seed, kinds[0], [self.set.len(), self.done.len()], [t.n_satom, t.n_patom, t.num_trans], lists)
    }

    fn left(&self) -> [u64; 2] {
        [values::sum(&self.set), values::byte_sum(&self.done)]
    }
}

impl Recorded for Distribute {
    fn fill(&mut self, seed: u64, kinds: [u64; 2]) {
        self.set = values::floats(self.set.len(), seed, kinds[0]);
        self.reverse = values::integers(self.reverse.len(), seed + 1);
        self.r_carts = values::floats(self.r_carts.len(), seed + 2, kinds[1]);
    }

    fn inputs(&self, seed: u64, kinds: [u64; 2]) -> Inputs {
        let tables = [&self.atom_list, &self.fc_indices, &self.permutations, &self.map_atoms, &self.map_syms];
        let lengths = [self.set.len(), self.reverse.len(), self.r_carts.len()];
        let counts = [self.num_pos, self.num_first, self.num_rot];
        let words = [seed, kinds[0], kinds[1]].into_iter().chain(lengths.into_iter().chain(counts).map(|n| n as u64)).collect();
        Inputs { lengths, words, tables: tables.map(Vec::clone).to_vec() }
    }

    fn left(&self) -> [u64; 2] {
        [values::sum(&self.set), values::integer_sum(&self.reverse)]
    }
}

/// The words of a record: how many follow; the answer; the sums of the set and of the work slice after the call; the words of the call; lengths of
/// the tables; their entries.
fn record<C: Recorded>(mut call: C, seed: u64, kinds: [u64; 2]) -> Record {
    call.fill(seed, kinds);
    let inputs = call.inputs(seed, kinds);
    assert!(inputs.fit(), "no room for {call:?}");
    let answer = refusal(&mut call);
    if answer == 0 {
        call.original();
        call.parts().slices.iter_mut().filter(|s| s.work).for_each(Lent::clear);
    }
    let mut words = vec![answer as u64];
    words.extend(call.left());
    words.extend(inputs.words);
    words.extend(inputs.tables.iter().map(|t| t.len() as u64));
    words.extend(inputs.tables.iter().flatten().map(|x| *x as u64));
    counted(words)
}

struct Recorder {
    r: Rng,
    records: Vec<Record>,
}

impl Recorder {
    fn add<C: Recorded>(&mut self, call: C, kind: u64) {
        let seed = self.r.bits() >> 1;
        let rotations = if self.r.below(3) == 0 { self.r.bits() % values::KINDS } else { 0 };
        self.records.push(record(call, seed, [kind, rotations]));
    }

    /// A call with rotations of that kind.
    fn add_rotated<C: Recorded>(&mut self, call: C, kinds: [u64; 2]) {
        let seed = self.r.bits() >> 1;
        self.records.push(record(call, seed, kinds));
    }

    /// The call with each of its counts at its limit and one above.
    fn limited<C: Recorded>(&mut self, call: C) {
        at_limits(&call).into_iter().for_each(|call| self.add(call, 0));
    }

    /// So many calls of each refusal, with short tables: calls that are made and then changed.
    fn refused<C: Recorded>(&mut self, of_each: usize, make: impl Fn(&mut Rng) -> C) {
        let mut found = [0; 7];
        for _ in 0..20_000 {
            let mut call = make(&mut self.r);
            for _ in 0..1 + self.r.below(2) {
                spoil(&mut self.r, &mut call);
            }
            call.fill(0, [0; 2]);
            let answer = refusal(&mut call) as usize;
            let inputs = call.inputs(0, [0; 2]);
            if answer > 0 && found[answer] < of_each && inputs.fit() && inputs.entries() < 300 {
                found[answer] += 1;
                let kind = self.r.bits() % values::KINDS;
                self.add(call, kind);
            }
        }
    }
}

fn full(atoms: usize, level: usize) -> Full {
    let mut call = Full { level, ..Full::new(2, atoms) };
    fit(&mut call, 3072);
    call
}

/// Columns are worked at eight at a time: fewer, as many, one more, and two times as many and one more.
const ATOMS: [usize; 8] = [0, 1, 2, 3, 5, 8, 9, 17];

fn full_sets(all: &mut Recorder) {
    for atoms in ATOMS {
        for kind in 0..values::KINDS {
            for level in 0..4 {
                all.add(full(atoms, level), kind);
            }
        }
    }
    // tiny numbers, sums of -0.0, and numbers whose averages overflow
    for atoms in ATOMS {
        for kind in [values::TINY, values::MINUS_ZEROS, values::LARGEST] {
            all.add(full(atoms, 0), kind);
            all.add(full(atoms, 1), kind);
        }
    }
    for atoms in 1..=3 {
        all.add(full(atoms, 1000), 0);
        all.add(full(atoms, 1001), 0);
    }
    all.refused(12, |r| full([1, 2, 3][r.below(3)], r.below(4)));
    all.limited(full(2, 1));
}

fn compact(r: &mut Rng, name: Name, tables: Tables) -> Compact {
    let mut call = Compact::new(name, tables);
    match name {
        Name::Symmetrize2 => call.level = r.below(4),
        _ => call.t_type = r.below(2) as i64,
    }
    fit(&mut call, 2048);
    call
}

/// Half shifts, shifts that do not commute, atoms, rows and representatives in any order; then the refused calls, and
/// among them tables that are no group.
fn compact_sets(all: &mut Recorder, name: Name) {
    for g in groups::all() {
        for n_patom in 1..=if g.n < 5 { 3 } else if g.n < 9 { 2 } else { 1 } {
            for plain in [false, true] {
                if plain && g.n > 4 {
                    continue;
                }
                let t = tables(g, n_patom, if plain { None } else { Some(&mut all.r) });
                let (call, kind) = (compact(&mut all.r, name, t), all.r.bits() % values::KINDS);
                all.add(call, kind);
            }
        }
    }
    // a block's own diagonal that overflows, and sets of -0.0
    for g in &groups::all()[..4] {
        for (kind, type_or_level) in [(values::LARGEST, 0), (values::LARGEST, 1), (values::MINUS_ZEROS, 0), (values::TINY, 1)] {
            let t = tables(g, 1, Some(&mut all.r));
            let mut call = compact(&mut all.r, name, t);
            (call.level, call.t_type) = (type_or_level, type_or_level as i64);
            all.add(call, kind);
        }
    }
    for num_trans in [0, 1, 2, 1024, 1025] {
        let nothing = Tables { num_trans, ..tables(&groups::all()[0], 0, None) };
        let call = compact(&mut all.r, name, nothing);
        all.add(call, 0);
    }
    for n_patom in 1..=2 {
        let t = tables(&loop5(), n_patom, Some(&mut all.r));
        let call = compact(&mut all.r, name, t);
        all.add(call, 0);
    }
    all.refused(10, |r| {
        let g = &groups::all()[r.below(6)];
        let n_patom = 1 + r.below(2);
        let t = tables(g, n_patom, Some(r));
        compact(r, name, t)
    });
    let t = tables(&groups::all()[1], 1, Some(&mut all.r));
    let call = compact(&mut all.r, name, t);
    all.limited(call);
}

fn distributed(all: &mut Recorder) {
    let small = |r: &mut Rng| loop {
        let call = makers::distribute(r);
        if call.num_pos < 9 && call.inputs(0, [0; 2]).fit() {
            return call;
        }
    };
    for k in 0..96 {
        let call = small(&mut all.r);
        all.add(call, k % values::KINDS);
    }
    // blocks of -0.0, to which +0.0 is added
    for _ in 0..6 {
        let call = small(&mut all.r);
        all.add_rotated(call, [values::MINUS_ZEROS, values::POSITIVE]);
    }
    all.refused(10, small);
    // sheet 11 and its like: one atom too many, and a list too long
    let call = small(&mut all.r);
    all.add(Distribute { num_pos: 1025, ..call.clone() }, 0);
    all.limited(call.clone());
    for n in [1024, 1025] {
        all.add(Distribute { atom_list: vec![0; n], fc_indices: vec![0; 1025], ..call.clone() }, 0);
    }
}

/// Sheet 11, second order: 1,025 atoms.
fn sheets(all: &mut Recorder) {
    all.add(full(1025, 0), 0);
    for name in [Name::Symmetrize2, Name::Exchange2] {
        let mut t = tables(&groups::all()[1], 1, None);
        t.n_satom = 1025;
        let call = compact(&mut all.r, name, t);
        all.add(call, 0);
    }
}

/// Full and compact sets.
pub fn second() -> Replay {
    let mut all = Recorder { r: Rng::new(8), records: vec![] };
    sheets(&mut all);
    full_sets(&mut all);
    compact_sets(&mut all, Name::Symmetrize2);
    compact_sets(&mut all, Name::Exchange2);
    let stdout = report("second order", &all.records, 1);
    Replay::new(all.records, stdout, 3)
}

/// The distributor.
pub fn distribute() -> Replay {
    let mut all = Recorder { r: Rng::new(9), records: vec![] };
    distributed(&mut all);
    let stdout = report("distributed, second order", &all.records, 1);
    Replay::new(all.records, stdout, 2)
}

#[cfg(test)]
mod tests {
    use super::*;

    #[test]
    fn every_call_and_refusal_is_recorded() {
        let records = second().records;
        let all: [(u64, &[u64]); 3] = [(0, &[0, 1, 2]), (1, &[0, 1, 2, 3, 6]), (2, &[0, 1, 2, 3, 6])];
        for (call, answers) in all {
            for answer in answers {
                assert!(records.iter().any(|r| r[4] == call && r[1] == *answer), "call {call}, answer {answer}");
            }
        }
        let records = distribute().records;
        assert!([0, 1, 2, 3, 5].iter().all(|answer| records.iter().any(|r| r[1] == *answer)));
    }

    // (x + x) / 2 is infinite where x is one of the largest numbers; the full call leaves its own diagonal alone
    #[test]
    fn own_diagonals_overflow() {
        let mut call = compact(&mut Rng::new(1), Name::Exchange2, tables(&groups::all()[0], 1, None));
        call.t_type = 0;
        call.fill(5, [values::LARGEST, 0]);
        assert!(call.set.iter().all(|x| x.is_finite()));
        call.original();
        assert!([0, 4, 8].iter().all(|k| call.set[*k].is_infinite()));
        let one_atom = |r: &&Record| (r[1], r[4], r[6], r[8], r[11]) == (0, 2, 0, values::LARGEST, 1);
        assert!(second().records.iter().any(|r| one_atom(&r)));
    }

    // sheet 11: 1,025 atoms, and every slice as it was
    #[test]
    fn sheet_11() {
        let mut all = Recorder { r: Rng::new(8), records: vec![] };
        sheets(&mut all);
        for r in &all.records {
            assert_eq!((r[1], r[11]), (1, 1025));
            assert_eq!(r[2], values::sum(&values::floats(r[9] as usize, r[7], r[8])));
            assert_eq!(r[3], values::byte_sum(&values::bytes(r[10] as usize, r[7])));
        }
    }
}
