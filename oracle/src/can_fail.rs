//! That the comparison can fail: one flipped bit of one answer is seen, in every slice of every call. The Rust stands in
//! for the library, so nothing but this folder is needed.
use crate::call::{refusal, Call, Lent, Numbers};
use crate::call_compact::{Compact, Name};
use crate::call_drift::Drift;
use crate::call_finding::{is_group, on_axis, staircase, Finding, NO_MATCH};
use crate::call_full::Full;
use crate::makers;
use crate::port;
use crate::rng::Rng;
use crate::shifts::{cyclic, tables};
use crate::spoil::perhaps_spoilt;
use crate::tally::Tally;
use crate::compare_roll::{Asked, Name as Name3};
use crate::compare_row_sums::{Asked as Edit, Name as Name4};
use crate::{compare, compare_common, compare_roll, compare_row_sums, row_sums};

const REFUSALS: std::ops::RangeInclusive<u8> = 1..=6;

fn stand_in<C: Call>(call: &mut C) -> u8 {
    let number = refusal(call);
    if number > 0 {
        return number;
    }
    let number = call.original();
    call.parts().slices.iter_mut().filter(|s| s.work).for_each(Lent::clear);
    number
}

/// Flips a bit of a number of the slice; a NaN that arithmetic `made` is left, for any NaN equals it. True if a bit was
/// flipped.
fn flip(lent: &mut Lent, at: usize, bit: usize, made: bool) -> bool {
    match &mut lent.numbers {
        Numbers::Floats(v) if v[at].is_nan() && made => return false,
        Numbers::Floats(v) => v[at] = f64::from_bits(v[at].to_bits() ^ 1 << bit),
        Numbers::Integers(v) => v[at] ^= 1 << bit,
        Numbers::Bytes(v) => v[at] ^= 1 << (bit % 8),
    }
    true
}

/// 300 calls: none differs as it is; each differs with one bit of one number flipped, and with one of the answer.
fn seen<C: Call>(make: impl Fn(&mut Rng) -> C) {
    let mut r = Rng::new(31);
    let mut flipped = vec![0; make(&mut r).parts().slices.len()];
    for _ in 0..300 {
        let call = make(&mut r);
        let mut call = perhaps_spoilt(&mut r, call);
        let mut tally = Tally::new("");
        tally.call(&mut call, &stand_in);
        assert_eq!(tally.differences, 0, "{:?}", tally.smallest);
        let (slice, bit) = (r.below(flipped.len()), r.below(64));
        let n = call.parts().slices[slice].len();
        let at = r.below(n.max(1));
        let done = std::cell::Cell::new(false);
        tally.call(&mut call, &|c: &mut C| {
            let number = stand_in(c);
            let made = n > 0 && !REFUSALS.contains(&number) && c.made(slice, at);
            done.set(n > 0 && flip(&mut c.parts().slices[slice], at, bit, made));
            number
        });
        assert_eq!(tally.differences, done.get() as u64, "slice {slice}, number {at}, bit {bit}");
        flipped[slice] += done.get() as u64;
        tally.call(&mut call, &|c: &mut C| stand_in(c) ^ 1 << (bit % 8));
        assert_eq!(tally.differences, done.get() as u64 + 1, "answer, bit {}", bit % 8);
    }
    assert!(flipped.iter().all(|n| *n > 0), "{flipped:?}");
}

#[test]
fn compact_sets() {
    for name in [Name::Symmetrize2, Name::Exchange2, Name::Symmetrize3, Name::Transpose3, Name::Symmetrize4, Name::Transpose4] {
        seen(|r| makers::compact(r, name));
    }
    for name in [Name::True2, Name::True3, Name::True4, Name::Swap4] {
        seen(|r| makers::compact(r, name));
    }
}

#[test]
fn full_sets() {
    for order in 2..5 {
        seen(|r| makers::full(r, order));
        seen(|r| makers::read_out(r, order));
    }
    for (order, compact) in [(3, false), (3, true), (4, false), (4, true)] {
        seen(|r| makers::acoustic(r, order, compact));
    }
}

#[test]
fn other_calls() {
    seen(makers::check);
    seen(makers::distribute);
    for order in 3..5 {
        seen(|r| makers::slabs(r, order));
        seen(|r| makers::deltas(r, order));
    }
    seen(makers::matching);
}

/// One flipped bit of a slot, of a coordinate, of the lattice or of the answer is seen in `find_permutation`; one
/// of a mark too, unless what it makes is a group again, of which any is right.
#[test]
fn finding_calls() {
    let mut r = Rng::new(31);
    let mut groups = 0;
    for _ in 0..1500 {
        let call = makers::finding(&mut r);
        let mut call = perhaps_spoilt(&mut r, call);
        let (slice, bit) = (r.below(5), r.below(64));
        let n = call.parts().slices[slice].len();
        let at = r.below(n.max(1));
        let mut free = false;
        let differences = |call: &mut Finding, change: &dyn Fn(&mut Finding) -> u8| {
            let mut tally = Tally::new("");
            tally.call(call, &|c: &mut Finding| {
                let number = stand_in(c);
                number ^ change(c)
            });
            tally.differences
        };
        let flipped = |c: &mut Finding| {
            flip(&mut c.parts().slices[slice], at, bit, false);
            0u8
        };
        if slice == 1 && n > 0 {
            let mut after = call.clone();
            let number = stand_in(&mut after);
            flipped(&mut after);
            free = number == NO_MATCH && is_group(&after.near(), &after.marks);
            groups += free as u64;
        }
        assert_eq!(differences(&mut call, &|_| 0), 0);
        assert_eq!(differences(&mut call, &|_| 1 << (bit % 8)), 1);
        if n > 0 {
            assert_eq!(differences(&mut call, &flipped), !free as u64, "slice {slice}, number {at}, bit {bit}");
        }
    }
    assert!(groups > 0);
}

/// A call that marks nothing, everything, or leaves the slots where there is no match is seen; so is another bijection than greedy's.
#[test]
fn wrong_findings() {
    let one = |mut call: Finding, number: u8, slots: &[i64], marks: &[u8]| {
        let mut tally = Tally::new("");
        tally.call(&mut call, &|c: &mut Finding| {
            (c.slots, c.marks) = (slots.to_vec(), marks.to_vec());
            number
        });
        tally.differences
    };
    let none = || staircase(3, false);
    assert_eq!(one(none(), NO_MATCH, &[-1; 3], &[1; 3]), 0);
    assert_eq!(one(none(), NO_MATCH, &[-1; 3], &[0; 3]), 1);
    assert_eq!(one(none(), NO_MATCH, &[-1; 3], &[1, 0, 1]), 1);
    assert_eq!(one(none(), NO_MATCH, &[0, 1, -1], &[1; 3]), 1);
    let free = || on_axis(&[0.0, 0.0, 0.125], &[0.0, 0.125, 0.0], 0.1);
    assert_eq!(one(free(), 0, &[0, 2, 1], &[0; 3]), 0);
    assert_eq!(one(free(), 0, &[1, 2, 0], &[0; 3]), 1);
    let chains = || on_axis(&[0.25, 0.25, 0.0, 0.0], &[0.125, 0.125, 0.375, 0.375], 0.1875);
    assert_eq!(one(chains(), 0, &[2, 3, 0, 1], &[0; 4]), 0);
    assert_eq!(one(chains(), 0, &[3, 2, 1, 0], &[0; 4]), 0);
    assert_eq!(one(chains(), 0, &[3, 3, 1, 0], &[0; 4]), 1);
    assert_eq!(one(chains(), 0, &[2, 3, 0, 1], &[0, 0, 1, 0]), 1);
    assert_eq!(one(chains(), NO_MATCH, &[-1; 4], &[0, 0, 1, 1]), 1);
}

/// The first place with the worst drift is named, and no other: a row before a column that shares it, and a column where it is worse.
#[test]
fn drift_reports() {
    seen(makers::drift);
    one_place([1.0, 2.0, 4.0, 2.0], 6.0, [0, 1, 0, 0]);
    one_place([1.0, 0.0, 5.0, 1.0], 6.0, [0, 1, 0, 0]);
    one_place([3.0, -2.0, 3.0, -2.0], 6.0, [1, 0, 0, 0]);
}

/// The blocks of two atoms hold one number each.
fn one_place(blocks: [f64; 4], worst: f64, first: [i64; 4]) {
    let set = (0..4 * 9).map(|k| blocks[k / 9]).collect();
    let mut call = Drift { set, value: vec![0.0], place: vec![0; 4], n_satom: 2 };
    for place in (0..36).map(|r| [r / 18, r / 9 % 2, r % 9 / 3, r % 3]) {
        let mut tally = Tally::new("");
        tally.call(&mut call, &|c: &mut Drift| {
            (c.value, c.place) = (vec![worst], place.to_vec());
            66
        });
        assert_eq!(tally.differences, (place != first) as u64, "{place:?}");
    }
}

/// One flipped bit of the lent slice, of a slot or of the answer is seen in the calls on a roll.
#[test]
fn rolls() {
    let mut r = Rng::new(31);
    for name in [Name3::IsRoll, Name3::ReadRoll, Name3::AppendRoll, Name3::StandsNow, Name3::RetireAll, Name3::IsRollFormer, Name3::ReadRollFormer] {
        for _ in 0..300 {
            let (asked, bit) = (compare_roll::make(&mut r, name), r.below(8));
            let flipped = |flip: &dyn Fn(&mut Asked) -> u8| {
                let mut tally = Tally::new("");
                compare_roll::one(&mut tally, &asked, &|a: &mut Asked| {
                    let number = a.model();
                    number ^ flip(a)
                });
                tally.differences
            };
            assert_eq!(flipped(&|_| 0), 0);
            assert_eq!(flipped(&|_| 1 << bit), 1);
            assert_eq!(flipped(&|a| a.lent.last_mut().map_or(1, |b| { *b ^= 1 << bit; 0 })), 1);
            assert_eq!(flipped(&|a| a.slots.first_mut().map_or(1, |n| { *n ^= 1 << bit; 0 })), 1);
        }
    }
}

/// One flipped bit of the set, of a sum, of the block or of the answer is seen in the calls on row sums.
#[test]
fn row_sums_calls() {
    let mut r = Rng::new(31);
    let flip = |v: &mut Vec<f64>, bit: usize| {
        let Some(x) = v.last_mut().filter(|x| !x.is_nan()) else { return 1 };
        *x = f64::from_bits(x.to_bits() ^ 1 << bit);
        0
    };
    for name in [Name4::RowSums, Name4::ReplaceBlock] {
        for _ in 0..300 {
            let (asked, bit) = (compare_row_sums::make(&mut r, name, 4), r.below(8));
            let flipped = |change: &dyn Fn(&mut Edit) -> u8| {
                let mut tally = Tally::new("");
                compare_row_sums::one(&mut tally, &asked, &|a: &mut Edit| {
                    let number = a.model();
                    number ^ change(a)
                });
                tally.differences
            };
            assert_eq!(flipped(&|_| 0), 0);
            assert_eq!(flipped(&|_| 1 << bit), 1);
            assert_eq!(flipped(&|a| flip(&mut a.set, bit)), 1);
            assert_eq!(flipped(&|a| flip(&mut a.sums, bit)), 1);
            assert_eq!(flipped(&|a| flip(&mut a.block, bit)), 1);
        }
    }
}

/// The model's grid at its ends.
#[test]
fn the_grid() {
    let step = 1.0 / 1_048_576.0;
    for x in [0.0, -0.0, step, -step, 1_048_576.0, -1_048_576.0, 1_048_576.0 - step, 0.5, 1.0] {
        assert!(row_sums::on_grid(x), "{x}");
    }
    for x in [step / 2.0, 1_048_576.0 + step, -1_048_576.0 - step, f64::NAN, f64::INFINITY, f64::NEG_INFINITY, 5e-324, 1e16, 1.0 + step / 2.0] {
        assert!(!row_sums::on_grid(x), "{x}");
    }
}

/// Sheet 11 of document 01.
#[test]
fn refusals_in_their_order() {
    assert_eq!(refusal(&mut Full::new(2, 1025)), 1);
    let mut call = Compact::new(Name::Symmetrize3, tables(&cyclic(1), 1, None));
    (call.set, call.done) = (vec![0.0; 27], vec![0]);
    assert_eq!(refusal(&mut call), 0);
    call.set.pop();
    assert_eq!(refusal(&mut call), 2);
    call.tables.p2s[0] = 7;
    assert_eq!(refusal(&mut call), 2);
    call.set.push(0.0);
    assert_eq!(refusal(&mut call), 3);
}

/// The same with the library, where there is one: a little of everything agrees, and a flipped bit is seen.
#[test]
fn the_library() {
    if !port::has("perm_trans_symmetrize_fc") {
        return;
    }
    assert_eq!(compare::compare("all", 5, 40), Some(true));
    let mut tally = Tally::new("perm_trans_symmetrize_fc");
    tally.calls(&mut Rng::new(5), 40, &|r| makers::full(r, 2), &|call: &mut Full| {
        let number = call.port();
        if let Some(x) = call.set.last_mut() {
            *x = f64::from_bits(x.to_bits() ^ 1);
        }
        number
    });
    assert!(tally.differences > 20);
    let mut tally = Tally::new("nint");
    compare_common::patterns(&mut tally, &mut Rng::new(5), 1000);
    assert_eq!(tally.differences, 0);
}
