//! Records for the replay program of row sums: calls on sets of at most three atoms, right and refused.
use crate::compare_row_sums::{make, Asked, Name};
use crate::record::{checksum, counted, float_word, report, Record, Replay};
use crate::rng::Rng;
use crate::values;

/// The words of a record: what the model answers and leaves, then the call.
fn record(before: &Asked) -> Record {
    let mut after = before.clone();
    let number = after.model();
    let mut words = vec![number as u64, values::sum(&after.set), values::sum(&after.sums)];
    let counts = [before.name as usize, before.n, before.i, before.j, before.set.len(), before.sums.len(), before.block.len()];
    words.extend(counts.iter().map(|n| *n as u64));
    words.extend(before.set.iter().chain(&before.sums).chain(&before.block).map(|x| float_word(*x)));
    counted(words)
}

/// The atoms at their limit and one above, with the lengths of one atom; and sums that are not exact: 2^53 less -1 is 2^53, and so is that plus 1.
fn chosen() -> Vec<Asked> {
    let call = |name: Name, n: usize| Asked { name, set: vec![-1.0; 9], sums: vec![2f64.powi(53); 9], block: vec![1.0; 9], i: 0, j: 0, n };
    [Name::RowSums, Name::ReplaceBlock].into_iter().flat_map(|name| [1, 1024, 1025].map(|n| call(name, n))).collect()
}

pub fn replay() -> Replay {
    let mut r = Rng::new(78);
    let mut calls: Vec<Asked> = vec![];
    for (name, most) in [(Name::RowSums, 60), (Name::ReplaceBlock, 240)] {
        let small = |a: &Asked| a.set.len() <= 90 && a.sums.len() <= 36 && a.block.len() <= 12;
        calls.extend((0..4000).map(|_| make(&mut r, name, 3)).filter(small).take(most));
    }
    calls.extend(chosen());
    let records: Vec<Record> = calls.iter().map(record).collect();
    let off_grid = records.iter().filter(|r| r[1] == 10).count();
    let stdout = report("row sums", &records, 1) + &format!("refused, 10: {off_grid}\n");
    assert!(stdout.contains(&checksum(&records).to_string()));
    Replay::new(records, stdout, 3)
}
