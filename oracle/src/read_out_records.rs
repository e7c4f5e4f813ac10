//! Records for the replay program of reading compact sets out: small sets of the three orders, right and refused.
use crate::call::{refusal, Call};
use crate::call_read_out::ReadOut;
use crate::groups::random_tables;
use crate::record::{counted, report, Record, Replay};
use crate::rng::Rng;
use crate::shifts::{cyclic, product, tables};
use crate::spoil::{at_limits, perhaps_spoilt};
use crate::values::{fill, sum, KINDS};

/// The words of a record: what document 01 answers and what the full slice holds then, as a checksum; the call. Both sets are made from seeds.
fn record(call: &mut ReadOut, seed: u64) -> Record {
    fill(&mut call.full, seed + 1, seed % KINDS);
    fill(&mut call.set, seed, seed % KINDS);
    let number = refusal(call);
    let mut after = call.clone();
    if number == 0 {
        after.original();
    }
    let t = &call.tables;
    let lists = [&t.perms, &t.p2s, &t.s2pp, &t.nsym_list];
    let mut words = vec![number as u64, sum(&after.full), call.order as u64, seed, seed + 1, seed % KINDS];
    words.extend([call.full.len(), call.set.len(), t.n_satom, t.n_patom, t.num_trans].map(|n| n as u64));
    words.extend(lists.map(|l| l.len() as u64));
    words.extend(lists.into_iter().flatten().map(|x| *x as u64));
    counted(words)
}

/// There is room for it in the program.
fn small(call: &ReadOut) -> bool {
    let t = &call.tables;
    call.full.len() <= 21000 && call.set.len() <= 10_400 && t.perms.len() <= 256 && [&t.p2s, &t.s2pp, &t.nsym_list].iter().all(|l| l.len() <= 65)
}

pub fn replay() -> Replay {
    let mut r = Rng::new(113);
    let mut calls: Vec<ReadOut> = vec![];
    for order in 2..5 {
        let mut make = || {
            let call = ReadOut::new(order, random_tables(&mut r, order, 2700));
            perhaps_spoilt(&mut r, call)
        };
        calls.extend((0..4000).map(|_| make()).filter(small).take(120));
        // two atoms in the primitive cell, half shifts and others
        calls.extend([cyclic(2), cyclic(3), product(&cyclic(2), &cyclic(2))].iter().map(|g| ReadOut::new(order, tables(g, 2, Some(&mut r)))).filter(small));
        calls.extend(at_limits(&ReadOut::new(order, tables(&cyclic(2), 1, None))));
    }
    let records: Vec<Record> = calls.iter_mut().enumerate().map(|(k, call)| record(call, 11000 + k as u64)).collect();
    let stdout = report("full sets", &records, 1);
    Replay::new(records, stdout, 4)
}
