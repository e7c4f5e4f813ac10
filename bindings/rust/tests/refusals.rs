//! Refused calls leave every slice, counts beyond every limit cost no memory, and work memory has no influence and ends in zeros.
use gullyfork::{audit, audit::Audit, cells, cells::MatchError, fc2, fc3, fc4, report, roll, tables, Refusal};

const HUGE: usize = usize::MAX;
const IDENTITY: [f64; 9] = [1.0, 0.0, 0.0, 0.0, 1.0, 0.0, 0.0, 0.0, 1.0];
const ROWS: [i64; 9] = [0, 1, 2, 1, 2, 0, 2, 0, 1];

fn counting(n: u32) -> Vec<f64> {
    (0..n).map(f64::from).collect()
}

#[test]
fn huge_counts_are_refused_before_memory_is_asked_for() {
    let above = Err(Refusal::CountAboveLimit);
    let mut set = counting(27);
    assert_eq!(tables::check_shift_tables(&[], &[], &[], &[], HUGE, HUGE, HUGE), above);
    assert_eq!(cells::compute_permutation(&mut [], &IDENTITY, &[], &[], HUGE, 0.1), Err(Refusal::CountAboveLimit.into()));
    assert_eq!(cells::find_permutation(&mut [], &mut [], &IDENTITY, [true; 3], &[], &[], HUGE, 0.1), Err(Refusal::CountAboveLimit));
    assert_eq!(fc2::perm_trans_symmetrize_fc(&mut set, HUGE, 1), above);
    assert_eq!(fc2::perm_trans_symmetrize_compact_fc(&mut set, &[], &[], &[], &[], HUGE, HUGE, 1), above);
    assert_eq!(fc2::set_index_permutation_symmetry_compact_fc(&mut set, &[], &[], &[], &[], HUGE, 2, true), above);
    assert_eq!(fc2::distribute_fc2(&mut set, &[], &[], &[], &[], &[], &[], HUGE), above);
    assert_eq!(fc2::drift_report(&set, HUGE), Err(Refusal::CountAboveLimit));
    assert_eq!(fc2::row_sums_fc2(&mut set, &[], HUGE), above);
    assert_eq!(fc2::replace_block_fc2(&mut set, &mut [], IDENTITY, 0, 0, HUGE), above);
    assert_eq!(fc2::compact_to_full_fc2(&mut set, &[], &[], &[], &[], &[], HUGE, 1), above);
    assert_eq!(fc3::compact_to_full_fc3(&mut set, &[], &[], &[], &[], &[], 257, 1), above);
    assert_eq!(fc4::compact_to_full_fc4(&mut set, &[], &[], &[], &[], &[], 1, 65), above);
    assert_eq!(fc3::set_permutation_symmetry_fc3(&mut set, HUGE), above);
    assert_eq!(fc3::set_permutation_symmetry_compact_fc3(&mut set, &[], &[], &[], &[], 257, 1), above);
    assert_eq!(fc3::perm_trans_symmetrize_fc3(&mut set, HUGE, 1), above);
    assert_eq!(fc3::perm_trans_symmetrize_fc3(&mut set, 1, 1001), above);
    assert_eq!(fc3::perm_trans_symmetrize_compact_fc3(&mut set, &[], &[], &[], &[], HUGE, 1, 1), above);
    assert_eq!(fc3::transpose_compact_fc3(&mut set, &[], &[], &[], &[], 1, HUGE, 0), above);
    assert_eq!(fc3::distribute_fc3(&mut set, 1, 0, &[], HUGE, &IDENTITY), above);
    assert_eq!(fc3::rotate_delta_fc2s(&mut set, &[], &[], &[], &[], 1, HUGE, HUGE), above);
    assert_eq!(fc4::set_permutation_symmetry_fc4(&mut set, HUGE), above);
    assert_eq!(fc4::set_permutation_symmetry_compact_fc4(&mut set, &[], &[], &[], &[], HUGE, HUGE), above);
    assert_eq!(fc4::perm_trans_symmetrize_fc4(&mut set, HUGE, 1), above);
    assert_eq!(fc4::perm_trans_symmetrize_fc4(&mut set, 1, 1001), above);
    assert_eq!(fc4::perm_trans_symmetrize_compact_fc4(&mut set, &[], &[], &[], &[], HUGE, 1, 1), above);
    assert_eq!(fc4::transpose_compact_fc4(&mut set, &[], &[], &[], &[], HUGE, HUGE, 0), above);
    assert_eq!(fc2::true_transpose_compact_fc2(&mut set, &[], &[], &[], &[], HUGE, 2), above);
    assert_eq!(fc3::true_transpose_compact_fc3(&mut set, &[], &[], &[], &[], 1, HUGE, 0), above);
    assert_eq!(fc4::true_transpose_compact_fc4(&mut set, &[], &[], &[], &[], HUGE, HUGE, 0), above);
    assert_eq!(fc4::swap_pairs_compact_fc4(&mut set, &[], &[], &[], &[], HUGE, HUGE, 0, 1), above);
    assert_eq!(fc4::distribute_fc4(&mut set, 1, 0, &[], HUGE, &IDENTITY), above);
    assert_eq!(fc4::rotate_delta_fc3s(&mut set, &[], &[], &[], &[], 65, 1, 1), above);
    assert_eq!(set, counting(27));
}

#[test]
fn audits_and_drifts_refuse_as_the_calls_of_their_order() {
    let (set, above, wrong) = (counting(27), Refusal::CountAboveLimit, Refusal::WrongLength);
    assert_eq!(fc2::drift_report_compact_fc2(&set, &[], &[], &[], &[], HUGE, 1), Err(above));
    assert_eq!(fc3::drift_report_fc3(&set, 257), Err(above));
    assert_eq!(audit::audit_fc2(&set, 1025), Err(above));
    assert_eq!(audit::audit_fc3(&set, 257), Err(above));
    assert_eq!(audit::audit_fc4(&set, 65), Err(above));
    assert_eq!(audit::audit_compact_fc2(&set, &[], &[], &[], &[], HUGE, 1), Err(above));
    assert_eq!(audit::audit_compact_fc3(&set, &[], &[], &[], &[], 1, 257), Err(above));
    assert_eq!(audit::audit_compact_fc4(&set, &[], &[], &[], &[], 65, HUGE), Err(above));
    assert_eq!(audit::audit_fc2(&set, 1), Err(wrong));
    assert_eq!(audit::audit_fc3(&set[..26], 1), Err(wrong));
    assert_eq!(fc3::drift_report_fc3(&set[..26], 1), Err(wrong));
    assert_eq!(audit::same_set(&set, &set[..26]), Err(wrong));
    assert_eq!(report::set_difference(&set, &set[..26]), Err(wrong));
    assert_eq!(report::difference_report_fc2(&set, 1025), Err(above));
    assert_eq!(report::difference_report_fc3(&set[..26], 1), Err(wrong));
    assert_eq!(report::difference_report_compact_fc2(&set, &[0], &[0; 3], &[0, 1, 2], &ROWS, 3, 1), Err(Refusal::BadShiftTables));
    assert_eq!(report::crystal_report_fc3(&set, &[0.0; 9], &[1], 1), Err(Refusal::IndexOutOfRange));
    assert_eq!(report::crystal_report_fc4(&set, &[0.0; 9], &[0], 65), Err(above));
    assert_eq!(report::drift_report_fc4(&set, 65), Err(above));
    assert_eq!(report::drift_report_compact_fc3(&set, &[], &[], &[], &[], 1, 257), Err(above));
    assert_eq!(audit::audit_compact_fc2(&set, &[0], &[0; 3], &[0, 1, 2], &ROWS, 3, 1), Err(Refusal::BadShiftTables));
    assert_eq!(fc2::drift_report_compact_fc2(&set, &[3], &[0; 3], &[0, 2, 1], &ROWS, 3, 1), Err(Refusal::IndexOutOfRange));
}

#[test]
fn a_symmetrized_set_is_alike_and_one_swapped_leg_is_found() {
    let mut set: Vec<f64> = (0..243).map(|k| f64::from(k * k * k % 101)).collect();
    fc3::set_permutation_symmetry_compact_fc3(&mut set, &[0], &[0; 3], &[0, 2, 1], &ROWS, 3, 1).unwrap();
    let seen = |set: &[f64]| audit::audit_compact_fc3(set, &[0], &[0; 3], &[0, 2, 1], &ROWS, 3, 1).unwrap();
    assert_eq!(seen(&set), Audit::Alike);
    set.swap(27 * 5 + 5, 27 * 5 + 7); // directions 0 1 2 and 0 2 1 of block (0, 1, 2)
    assert!(matches!(seen(&set), Audit::Unlike(found) if found.here != found.there && found.order != 0));
}

#[test]
fn a_refused_call_leaves_set_and_work_memory() {
    let (mut set, mut done) = (counting(243), [7; 9]);
    let wrong = [0, 1, 2];
    let refused = fc3::set_permutation_symmetry_compact_fc3_with(&mut set, &[0], &[0; 3], &wrong, &ROWS, &mut done, 3, 1, 3);
    assert_eq!(refused, Err(Refusal::BadShiftTables));
    assert_eq!((set, done), (counting(243), [7; 9]));
}

#[test]
fn work_memory_has_no_influence_and_ends_in_zeros() {
    let (mut set, mut done, mut plain) = (counting(243), [7; 9], counting(243));
    fc3::set_permutation_symmetry_compact_fc3_with(&mut set, &[0], &[0; 3], &[0, 2, 1], &ROWS, &mut done, 3, 1, 3).unwrap();
    fc3::set_permutation_symmetry_compact_fc3(&mut plain, &[0], &[0; 3], &[0, 2, 1], &ROWS, 3, 1).unwrap();
    assert_eq!(done, [0; 9]);
    assert_eq!(set, plain);
    let (mut blocks, mut work) = ([7.0; 27], [7.0; 9]);
    fc3::rotate_delta_fc2s_with(&mut blocks, &counting(9), &[1.0; 3], &IDENTITY, &[0], &mut work, 1, 1, 1).unwrap();
    assert_eq!(work, [0.0; 9]);
}

#[test]
fn lengths_that_are_no_whole_number_of_rows_are_refused() {
    let wrong = Err(Refusal::WrongLength);
    let mut set = counting(55);
    assert_eq!(fc3::distribute_fc3(&mut set, 1, 0, &[0], 1, &IDENTITY), wrong);
    assert_eq!(fc3::transpose_compact_fc3(&mut set[..27], &[0], &[0], &[0], &[0, 0], 1, 1, 0), Err(Refusal::BadShiftTables));
    assert_eq!(fc3::transpose_compact_fc3(&mut set[..26], &[0], &[0], &[0], &[0], 1, 1, 0), wrong);
    assert_eq!(fc2::distribute_fc2(&mut set, &[0], &[0], &IDENTITY[1..], &[0], &[0], &[0], 1), wrong);
    assert_eq!(set, counting(55));
}

#[test]
fn no_match_is_no_refusal() {
    let mut slots = [7, 7];
    let (pos, rot_pos) = ([0.25, 0.0, 0.0, 0.0, 0.0, 0.0], [0.125, 0.0, 0.0, 0.375, 0.0, 0.0]);
    assert_eq!(cells::compute_permutation(&mut slots, &IDENTITY, &pos, &rot_pos, 2, 0.1875), Ok(false));
    assert_eq!(slots, [0, -1]);
}

#[test]
fn a_distance_that_is_no_number_is_named() {
    let mut slots = [7; 8];
    let (mut pos, mut rot_pos) = ([0.0; 24], [0.0; 24]);
    for a in 0..8 {
        pos[a * 3] = a as f64 / 8.0;
        rot_pos[a * 3] = a as f64 / 8.0;
    }
    // atom 3 is moved away, and slot 7, which it tries last, is NaN
    pos[9] += 0.0625;
    rot_pos[22] = f64::NAN;
    let failed = cells::compute_permutation(&mut slots, &IDENTITY, &pos, &rot_pos, 8, 0.03125).unwrap_err();
    assert_eq!(failed, MatchError::NoNumber { position: 3, slot: 7 });
    assert_eq!(failed.to_string(), "position 3 against slot 7: the distance is not a number");
    assert_eq!(slots, [0, 1, 2, -1, 4, 5, 6, -1]);
    assert_eq!(cells::compute_permutation(&mut slots, &IDENTITY, &pos, &pos, 8, f64::NAN), Ok(false));
}

#[test]
fn drifts() {
    let mut fc = [0.0; 36];
    let still = fc2::DriftReport { drift: fc2::Drift::Still, along: fc2::Along::Rows, atom: 0, directions: [0, 0] };
    assert_eq!(fc2::drift_report(&fc, 2), Ok(still));
    fc[9 + 7] = f64::NAN;
    let none = fc2::DriftReport { drift: fc2::Drift::NoNumber, along: fc2::Along::Rows, atom: 0, directions: [2, 1] };
    assert_eq!(fc2::drift_report(&fc, 2), Ok(none));
    assert_eq!(fc2::drift_report(&fc, 3), Err(Refusal::WrongLength));
}

#[test]
fn a_group_has_fewer_places_than_members() {
    let (mut slots, mut marks) = ([7; 3], [7; 3]);
    let at = |xs: [f64; 3]| xs.map(|x| [x, 0.0, 0.0]).concat();
    // positions 0 and 2 have slot 0 alone; position 1 has slot 2
    let (pos, rot_pos) = (at([0.0, 0.5, 0.0]), at([0.0, 0.25, 0.5]));
    assert_eq!(
        cells::find_permutation(&mut slots, &mut marks, &IDENTITY, [true; 3], &pos, &rot_pos[..6], 3, 0.1),
        Err(Refusal::WrongLength)
    );
    assert_eq!((slots, marks), ([7; 3], [7; 3]));
    assert_eq!(cells::find_permutation(&mut slots, &mut marks, &IDENTITY, [true; 3], &pos, &rot_pos, 3, 0.1), Ok(false));
    assert_eq!((slots, marks), ([-1; 3], [1, 0, 1]));
    assert_eq!(cells::find_permutation(&mut slots, &mut marks, &IDENTITY, [true; 3], &pos, &pos, 3, 0.1), Ok(true));
    assert_eq!((slots, marks), ([0, 1, 2], [0; 3]));
}

#[test]
fn a_set_that_is_not_read_out_leaves_the_full_one() {
    let (mut full, fc) = (counting(36), [0.5; 18]);
    for (n, s2pp, nsym_list, refusal) in [
        (1025, [-1, 0], [0, 1], Refusal::CountAboveLimit),
        (35, [-1, 0], [0, 1], Refusal::WrongLength),
        (36, [-1, 0], [0, 0], Refusal::IndexOutOfRange),
        (36, [0, 0], [0, 0], Refusal::BadShiftTables),
    ] {
        let n_satom = if n > 1024 { n } else { 2 };
        let lent = &mut full[..n.min(36)];
        assert_eq!(fc2::compact_to_full_fc2(lent, &fc, &[0], &s2pp, &nsym_list, &[0, 1, 1, 0], n_satom, 1), Err(refusal));
    }
    assert_eq!(full, counting(36));
    fc2::compact_to_full_fc2(&mut full, &fc, &[0], &[0, 0], &[0, 1], &[0, 1, 1, 0], 2, 1).unwrap();
    assert_eq!(full, [0.5; 36]);
}

#[test]
fn an_edit_that_is_refused_leaves_set_and_sums() {
    let (mut fc, mut sums) = (counting(36), counting(18));
    for (block, i, n, refusal) in [
        ([0.1; 9], 2, 2, Refusal::IndexOutOfRange),
        ([0.1; 9], 0, 3, Refusal::WrongLength),
        ([0.1; 9], 0, 2, Refusal::OffGrid),
        ([f64::NAN; 9], 0, 2, Refusal::OffGrid),
        ([1_048_577.0; 9], 0, 2, Refusal::OffGrid),
    ] {
        assert_eq!(fc2::replace_block_fc2(&mut fc, &mut sums, block, i, 1, n), Err(refusal));
    }
    assert_eq!((fc.clone(), sums.clone()), (counting(36), counting(18)));
    fc[9 + 4] = 0.1; // the old block (0, 1)
    assert_eq!(fc2::replace_block_fc2(&mut fc, &mut sums, [0.0; 9], 0, 1, 2), Err(Refusal::OffGrid));
    assert_eq!(fc2::replace_block_fc2(&mut fc, &mut sums, [0.0; 9], 0, 0, 2), Ok(()));
}

#[test]
fn a_roll_that_is_none_is_left_alone() {
    let mut file = [9; 40];
    file[..8].copy_from_slice(&roll::EMPTY);
    let before = file;
    for (count, set, label, refusal) in [
        (7, 1, 0, Refusal::NotARoll),
        (41, 1, 0, Refusal::NotARoll),
        (8, 0, 0, Refusal::NotARoll),
        (8, 1, 256, Refusal::NotARoll),
        (8, 1, 19, Refusal::NoRoom),
    ] {
        assert_eq!(roll::append(&mut file, count, roll::DELIVERY, set, 0, &vec![65; label]), Err(refusal));
    }
    assert_eq!(file, before);
    assert_eq!(roll::append(&mut file, 8, roll::DELIVERY, 1, 0, &[65; 18]), Ok(40));
    assert_eq!(roll::read(&file, 40, 0).unwrap().unwrap().label, [65; 18]);
    assert_eq!(roll::read(&file, 40, 28), Ok(None));
    assert_eq!(roll::read(&file, 40, 10), Err(Refusal::NotARoll));
    assert_eq!(roll::records(&file, 39).collect::<Vec<_>>(), [Err(Refusal::NotARoll)]);
}

#[test]
fn an_older_roll_comes_over() {
    let (mut file, mut new) = ([0; 50], [0; 50]);
    let mut count = roll::append(&mut file, 8, roll::DELIVERY, 7, 0, b"AB").unwrap();
    count = roll::append(&mut file, count, roll::REPLACEMENT, 8, 7, b"").unwrap();
    let rising = file;
    file[22..30].rotate_left(4); // the two starts exchanged
    assert!(!roll::is_roll(&file, count) && roll::is_roll_former(&file, count));
    assert_eq!(roll::read(&file, count, 12), Err(Refusal::NotARoll));
    assert_eq!(roll::append(&mut file, count, roll::DELIVERY, 9, 0, b""), Err(Refusal::NotARoll));
    assert_eq!(roll::retire_all(&mut file, count, 7), Err(Refusal::NotARoll));
    assert_eq!(roll::read_former(&file, count, 12).unwrap().map(|r| (r.set, r.earlier)), Some((8, 7)));
    let mut long = roll::EMPTY.len();
    for record in roll::records_former(&file, count) {
        let roll::Record { kind, set, earlier, label, .. } = record.unwrap();
        long = roll::append(&mut new, long, kind, set, earlier, label).unwrap();
    }
    assert_eq!((long, new), (count, rising));
}

#[test]
fn which_set_stands_now() {
    let mut file = vec![0u8; 200];
    let mut count = roll::EMPTY.len();
    let mut add = |file: &mut [u8], kind, set, earlier| {
        count = roll::append(file, count, kind, set, earlier, b"").unwrap();
        count
    };
    add(&mut file, roll::DELIVERY, 7, 0);
    add(&mut file, roll::REPLACEMENT, 41, 7);
    let chain = add(&mut file, roll::REPLACEMENT, 57, 41);
    assert_eq!(roll::stands_now(&file, chain, 7), Ok(roll::Standing::Current(57)));
    assert_eq!(roll::stands_now(&file, chain, 8), Ok(roll::Standing::Unknown));
    assert_eq!(roll::stands_now(&file, chain - 1, 7), Err(Refusal::NotARoll));
    let on_the_way = add(&mut file, roll::RETIREMENT, 41, 0);
    assert_eq!(roll::stands_now(&file, on_the_way, 41), Ok(roll::Standing::Current(57)));
    let retired = add(&mut file, roll::RETIREMENT, 57, 0);
    assert_eq!(roll::stands_now(&file, retired, 7), Ok(roll::Standing::Retired));
    let twice = add(&mut file, roll::DELIVERY, 7, 0);
    assert_eq!(roll::stands_now(&file, twice, 57), Err(Refusal::NotLawful));
    assert_eq!(roll::retire_all(&mut file, twice, 57), Err(Refusal::NotLawful));
}

#[test]
fn a_set_retired_everywhere() {
    let mut file = vec![0u8; 8 + 14 * 4];
    let mut count = roll::append(&mut file, 8, roll::DELIVERY, 7, 0, b"").unwrap();
    count = roll::append(&mut file, count, roll::REPLACEMENT, 5, 7, b"").unwrap();
    let before = file.clone();
    assert_eq!(roll::retire_all(&mut file, count, 6), Err(Refusal::UnknownSet));
    assert_eq!(roll::retire_all(&mut file[..count + 27], count, 7), Err(Refusal::NoRoom));
    assert_eq!(file, before);
    count = roll::retire_all(&mut file, count, 7).unwrap();
    assert_eq!(roll::retire_all(&mut file, count, 5), Ok(count));
    let records: Vec<_> = roll::records(&file, count).map(|r| r.unwrap()).collect();
    assert_eq!(
        records[2..].iter().map(|r| (r.kind, r.set, r.label.len())).collect::<Vec<_>>(),
        [(roll::RETIREMENT, 5, 0), (roll::RETIREMENT, 7, 0)]
    );
}
