//! Records of the symmetrizers of third and fourth order that take the drift off too: small sets, right and refused.
use crate::call::{fit, refusal, Call, Lent};
use crate::call_acoustic::Acoustic;
use crate::groups;
use crate::record::{counted, report, Record, Replay};
use crate::rng::Rng;
use crate::shifts::{cyclic, product, tables};
use crate::spoil::{at_limits, spoil};
use crate::values::{byte_sum, bytes, floats, sum, KINDS, LARGEST, MINUS_ZEROS, TINY};

/// The most numbers of a set, marks, sums of the drift, entries of the tables.
fn most(order: usize) -> [usize; 4] {
    if order == 3 {
        [3500, 140, 500, 160]
    } else {
        [10_400, 140, 2600, 160]
    }
}

fn fits(call: &Acoustic) -> bool {
    let t = &call.tables;
    let entries = t.perms.len() + t.p2s.len() + t.s2pp.len() + t.nsym_list.len();
    [call.set.len(), call.done.len(), call.drift.len(), entries].iter().zip(most(call.order)).all(|(n, most)| *n <= most)
}

/// The words of a record: how many follow; answer; sums of the set, of the marks and of the drift's slice after the call; the call (0: full, 1: compact,
/// of fourth order 2 and 3); level; seed; kind; lengths of the three; n_satom or the atoms, n_patom, num_trans; lengths of perms, p2s, s2pp, nsym_list; their entries.
fn record(mut call: Acoustic, seed: u64, kind: u64) -> Record {
    assert!(fits(&call), "no room for {call:?}");
    call.set = floats(call.set.len(), seed, kind);
    call.done = bytes(call.done.len(), seed);
    call.drift = floats(call.drift.len(), seed + 1, kind);
    let answer = refusal(&mut call);
    if answer == 0 {
        call.original();
        call.parts().slices.iter_mut().filter(|s| s.work).for_each(Lent::clear);
    }
    let t = &call.tables;
    let first = if call.compact { t.n_satom } else { call.atoms };
    let lists = [&t.perms, &t.p2s, &t.s2pp, &t.nsym_list];
    let number = 2 * (call.order as u64 - 3) + call.compact as u64;
    let mut words = vec![answer as u64, sum(&call.set), byte_sum(&call.done), sum(&call.drift), number, call.level as u64, seed, kind];
    words.extend([call.set.len(), call.done.len(), call.drift.len(), first, t.n_patom, t.num_trans].map(|n| n as u64));
    words.extend(lists.map(|l| l.len() as u64));
    words.extend(lists.into_iter().flatten().map(|x| *x as u64));
    counted(words)
}

fn sized(mut call: Acoustic) -> Acoustic {
    let most = most(call.order)[0] as u128;
    fit(&mut call, most);
    call
}

/// Full sets of 0 to 4 atoms (3 of fourth order), compact ones over groups with half shifts and without, one and two primitive atoms, as far as there
/// is room; every kind, levels 0 to 3.
fn good(r: &mut Rng, order: usize) -> Vec<(Acoustic, u64)> {
    let mut calls = vec![];
    let kinds = (0..KINDS).chain([MINUS_ZEROS, TINY, LARGEST]);
    for (k, kind) in kinds.enumerate() {
        for atoms in 0..=7 - order {
            calls.push((sized(Acoustic::full(order, atoms, (k + atoms) % 4)), kind));
        }
    }
    let z2 = cyclic(2);
    for (k, g) in [cyclic(1), cyclic(2), cyclic(3), cyclic(4), product(&z2, &z2)].iter().enumerate() {
        for n_patom in 1..=2 {
            for level in 0..4 {
                let call = Acoustic::compact(order, tables(g, n_patom, Some(r)), level);
                calls.push((sized(call), (3 * k + level) as u64 % KINDS));
            }
        }
    }
    calls.push((sized(Acoustic::full(order, 2, 1000)), 0));
    calls.push((sized(Acoustic::compact(order, tables(&z2, 5 - order, Some(r)), 1000)), 0));
    calls.retain(|(call, _)| call.set.len() == call.stated());
    calls
}

/// Calls with one or two things wrong.
fn spoilt(r: &mut Rng, order: usize) -> Vec<(Acoustic, u64)> {
    let mut calls = vec![];
    while calls.len() < 80 {
        let g = &groups::all()[r.below(4)];
        let n_patom = 1 + r.below(2);
        let full = r.below(3) == 0;
        let mut call =
            sized(if full { Acoustic::full(order, 1 + r.below(6 - order), 1) } else { Acoustic::compact(order, tables(g, n_patom, Some(r)), 1) });
        let there_is_room = call.set.len() == call.stated();
        (0..1 + r.below(2)).for_each(|_| spoil(r, &mut call));
        if there_is_room && fits(&call) && refusal(&mut call) > 0 {
            calls.push((call, 0));
        }
    }
    calls
}

pub fn replay(order: usize) -> Replay {
    let mut r = Rng::new(43);
    let mut calls = good(&mut r, order);
    calls.extend(spoilt(&mut r, order));
    for call in [Acoustic::full(order, 2, 1), Acoustic::compact(order, tables(&cyclic(2), 5 - order, Some(&mut r)), 1)] {
        calls.extend(at_limits(&sized(call)).into_iter().map(|call| (call, 0)));
    }
    let records: Vec<Record> = calls.into_iter().enumerate().map(|(k, (call, kind))| record(call, 4300 + k as u64, kind)).collect();
    let (title, pages) = if order == 3 { ("third order without drift", 3) } else { ("fourth order without drift", 1) };
    let stdout = report(title, &records, 1);
    Replay::new(records, stdout, pages)
}

#[cfg(test)]
mod tests {
    use super::*;

    #[test]
    fn every_answer_is_recorded() {
        for (order, number) in [(3, 0), (4, 2)] {
            let records = replay(order).records;
            for (call, answers) in [(number, &[0, 1, 2][..]), (number + 1, &[0, 1, 2, 3, 6][..])] {
                assert!(answers.iter().all(|answer| records.iter().any(|r| r[5] == call && r[1] == *answer)), "{call}");
            }
        }
    }
}
