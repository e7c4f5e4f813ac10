//! That a limit one off changes a recorded answer. A count above its limit is refused first of all, so a limit that is one too high shows at a record
//! with that count one above it and every other count within its own, and one that is one too low at a record with that count at it.
use crate::call::{ATOMS, LEVEL, LIST};
use crate::record::{Record, Replay};
use crate::{acoustic_records, fc2_records, fc_records, finding_records, matching, read_out_records, report_records, row_sums_records, shift_records, slab_records};

/// The counts of a record by their words, each with its limit.
type Counts = Vec<(usize, usize)>;

/// The limits of a call that its records do not tell from those one off.
fn untold(name: &str, records: &[&Record], answer: usize, counts: &Counts) -> Vec<String> {
    let mut missing = vec![];
    for (k, (word, limit)) in counts.iter().enumerate() {
        let others = |r: &Record| counts.iter().enumerate().all(|(l, (word, limit))| l == k || r[*word] as usize <= *limit);
        let at = |n: usize, refused: bool| records.iter().any(|r| r[*word] as usize == n && others(r) && (r[answer] == 1) == refused);
        if !at(limit + 1, true) || !at(*limit, false) {
            missing.push(format!("{name}, word {word}, limit {limit}"));
        }
    }
    missing
}

fn of_call(replay: &Replay, word: usize, number: u64) -> Vec<&Record> {
    replay.records.iter().filter(|r| r[word] == number).collect()
}

fn three(words: [usize; 3], limit: usize) -> Counts {
    words.map(|word| (word, limit)).to_vec()
}

/// Of all calls; those of the reports count twice, for they are judged apart where the slots have other lengths.
const LIMITS: usize = 71 + 2 * 54;

#[test]
fn a_limit_one_off_changes_an_answer() {
    let mut limits = 0;
    let mut missing = vec![];
    let mut told = |name: &str, records: &[&Record], answer: usize, counts: Counts| {
        limits += counts.len();
        missing.extend(untold(name, records, answer, &counts));
    };
    let shifts = shift_records::replay();
    told("check_shift_tables", &shifts.records.iter().collect::<Vec<_>>(), 2, three([9, 10, 11], ATOMS[2]));
    for (name, replay, word) in [("compute_permutation", matching::replay(), 4), ("find_permutation", finding_records::replay(), 5)] {
        told(name, &replay.records.iter().collect::<Vec<_>>(), 1, vec![(word, ATOMS[2])]);
    }
    let second = fc2_records::second();
    told("perm_trans_symmetrize_fc", &of_call(&second, 4, 0), 1, vec![(11, ATOMS[2]), (6, LEVEL)]);
    told("perm_trans_symmetrize_compact_fc", &of_call(&second, 4, 1), 1, [three([11, 12, 13], ATOMS[2]), vec![(6, LEVEL)]].concat());
    told("set_index_permutation_symmetry_compact_fc", &of_call(&second, 4, 2), 1, three([11, 12, 13], ATOMS[2]));
    let distribute = fc2_records::distribute();
    let counts = vec![(10, ATOMS[2]), (11, ATOMS[2]), (12, LIST), (13, LIST)];
    told("distribute_fc2", &distribute.records.iter().collect::<Vec<_>>(), 1, counts);
    for order in 3..5 {
        let (replay, limit, first) = (fc_records::replay(order), ATOMS[order as usize], 3 * (order as u64 - 3));
        told("set_permutation_symmetry", &of_call(&replay, 4, first), 1, vec![(11, limit)]);
        told("set_permutation_symmetry_compact", &of_call(&replay, 4, first + 1), 1, three([11, 12, 13], limit));
        told("transpose_compact", &of_call(&replay, 4, first + 2), 1, three([11, 12, 13], limit));
        told("distribute", &of_call(&slab_records::distribute(), 3, order as u64), 1, vec![(9, limit), (10, limit)]);
        told("rotate_delta", &of_call(&slab_records::deltas(), 4, order as u64 - 1), 1, vec![(14, limit), (15, LIST), (16, LIST)]);
    }
    let transposes = fc_records::true_replay();
    for (number, order) in [(2, 2), (3, 3), (4, 4), (5, 4)] {
        told("true transposes and swaps", &of_call(&transposes, 4, number), 1, three([11, 12, 13], ATOMS[order]));
    }
    let sums = row_sums_records::replay();
    for number in 0..2 {
        told("row sums", &of_call(&sums, 4, number), 1, vec![(5, ATOMS[2])]);
    }
    let acoustic = acoustic_records::replay(3);
    told("perm_trans_symmetrize_fc3", &of_call(&acoustic, 5, 0), 1, vec![(12, ATOMS[3]), (6, LEVEL)]);
    told("perm_trans_symmetrize_compact_fc3", &of_call(&acoustic, 5, 1), 1, [three([12, 13, 14], ATOMS[3]), vec![(6, LEVEL)]].concat());
    let read_out = read_out_records::replay();
    for order in 2..5 {
        told("compact_to_full", &of_call(&read_out, 3, order), 1, three([9, 10, 11], ATOMS[order as usize]));
    }
    let reports = [report_records::audits(), report_records::reports()];
    let compact = [(2, 2), (3, 3), (4, 4), (5, 2), (22, 2), (23, 3), (24, 4), (63, 3), (64, 4), (42, 2), (43, 3), (44, 4)];
    let full = [(12, 2), (13, 3), (14, 4), (15, 3), (16, 2), (32, 2), (33, 3), (34, 4), (74, 4), (52, 2), (53, 3), (54, 4)];
    for (number, order) in compact.into_iter().chain(full) {
        let mut counts = three([5, 6, 7], ATOMS[order]);
        counts.truncate(if compact.contains(&(number, order)) { 3 } else { 1 });
        counts.extend((40 < number && number < 60).then_some((21, LIST)));
        // with the slots that the call has, and with others
        let calls = reports.iter().flat_map(|replay| of_call(replay, 4, number));
        let (right, wrong): (Vec<&Record>, Vec<&Record>) = calls.partition(|r| slots_fit(r));
        told(&format!("report {number}"), &right, 1, counts.clone());
        told(&format!("report {number}, other slots"), &wrong, 1, counts);
    }
    assert_eq!(missing, Vec::<String>::new());
    assert_eq!(limits, LIMITS);
}

/// Whether the place and the numbers of a report's record have the lengths that its call has.
fn slots_fit(r: &Record) -> bool {
    let slots = match r[4] {
        5 | 16 => [4, 1],
        15 => [6, 1],
        number if number < 15 => [2, 2],
        _ => [2, 1],
    };
    [r[13], r[19]] == slots
}
