//! The true transposes, which the Rust does not have: their definition over the read-out, and the library beside it.
use crate::call::Call;
use crate::call_compact::{Compact, Name};
use crate::compare_lists::{half_shift, same};
use crate::makers;
use crate::record::float_word;
use crate::rng::Rng;
use crate::shifts::Tables;
use crate::tally::Tally;

/// The two legs that a call exchanges; None for a type without a meaning.
fn legs(order: usize, t_type: i64) -> Option<(usize, usize)> {
    match (order, t_type) {
        (2, _) | (_, 0) => Some((0, 1)),
        (3, 1) => Some((0, 2)),
        (3, 2) => Some((1, 2)),
        _ => None,
    }
}

/// Where the read-out's number for the legs (atom, direction) stands.
pub fn address(t: &Tables, legs: &[(usize, usize)]) -> usize {
    let row = t.nsym_list[legs[0].0] as usize;
    let block = legs[1..].iter().fold(t.s2pp[legs[0].0] as usize, |b, leg| b * t.n_satom + t.row(row, leg.0));
    legs.iter().fold(block, |place, leg| place * 3 + leg.1)
}

/// Number k of all choices of legs, whose first atoms are one of `first`.
pub fn choice(k: usize, order: usize, n_satom: usize, first: impl Fn(usize) -> usize) -> Vec<(usize, usize)> {
    let mut rest = k;
    let mut digit = |base: usize| {
        let d = rest % base;
        rest /= base;
        d
    };
    let mut legs = vec![(0, 0); order];
    legs.iter_mut().rev().for_each(|leg| leg.1 = digit(3));
    legs[1..].iter_mut().rev().for_each(|leg| leg.0 = digit(n_satom));
    legs[0].0 = first(rest);
    legs
}

/// The set that the definition leaves: at the place of any legs the old number of the legs exchanged.
pub fn exchanged(order: usize, t_type: i64, t: &Tables, set: &[f64]) -> Vec<f64> {
    legs(order, t_type).map_or_else(|| set.to_vec(), |legs| swapped(order, legs, t, set))
}

/// The same for two legs.
pub fn swapped(order: usize, (u, v): (usize, usize), t: &Tables, set: &[f64]) -> Vec<f64> {
    let number = |q: usize| {
        let mut legs = choice(q, order, t.n_satom, |p| t.p2s[p] as usize);
        legs.swap(u, v);
        set[address(t, &legs)]
    };
    (0..set.len()).map(number).collect()
}

/// Whether the new set reads out, at every choice of legs, what the old one reads out at the legs exchanged.
fn reads_out(old: &Compact, new: &[f64]) -> (bool, u64) {
    let (t, order) = (&old.tables, old.name.order());
    let count = (3 * t.n_satom).pow(order as u32);
    let agrees = |k: usize| {
        let mut legs = choice(k, order, t.n_satom, |a| a);
        let got = new[address(t, &legs)];
        if let Some((u, v)) = self::legs(order, old.t_type) {
            legs.swap(u, v);
        }
        float_word(got) == float_word(old.set[address(t, &legs)])
    };
    ((0..count).all(agrees), count as u64)
}

/// The call of the Rust's own transposes with the same arguments.
fn beside(call: &Compact) -> Compact {
    let name = [Name::Exchange2, Name::Transpose3, Name::Transpose4][call.name.order() - 2];
    let t_type = if name == Name::Exchange2 { 1 } else { call.t_type };
    Compact { name, t_type, ..call.clone() }
}

/// `count` calls, half shifts among their tables: the whole read-out beside its definition; twice is as before; and where no shift is a half
/// shift the set beside that of the library's other transposes.
pub fn read_outs(tally: &mut Tally, r: &mut Rng, count: u64) {
    for k in 0..count {
        let call = makers::compact(r, [Name::True2, Name::True3, Name::True4][k as usize % 3]);
        let mut new = call.clone();
        let answer = new.port();
        *tally.answers.entry(answer).or_default() += 1;
        let (mut agree, numbers) = reads_out(&call, &new.set);
        let mut back = new.clone();
        agree &= answer == 0 && back.port() == 0 && same(&back.set, &call.set);
        if !half_shift(&call.tables) {
            let mut other = beside(&call);
            agree &= other.port() == 0 && same(&other.set, &new.set);
        }
        tally.numbers += numbers;
        if !agree {
            tally.differ(call.set.len(), || format!("{call:?}"));
        }
    }
}

/// The set after the order o was spelled: the number that stood at x0, x1, .. stands at xa, xb, .., where o is a, b, ..
fn spelled(o: [usize; 4], t: &Tables, set: &[f64]) -> Vec<f64> {
    let number = |q: usize| {
        let to = choice(q, 4, t.n_satom, |p| t.p2s[p] as usize);
        let mut from = vec![(0, 0); 4];
        (0..4).for_each(|k| from[o[k]] = to[k]);
        set[address(t, &from)]
    };
    (0..set.len()).map(number).collect()
}

/// `count` lists of up to eight swaps, one in four of them refused: the answers, and the set beside the order that the list spells.
pub fn swap_lists(tally: &mut Tally, r: &mut Rng, count: u64) {
    for _ in 0..count {
        let mut call = makers::compact(r, Name::Swap4);
        let (start, mut order, mut agree) = (call.clone(), [0, 1, 2, 3], true);
        for _ in 0..r.below(9) {
            (call.legs, call.done) = ([r.below(4), r.below(4)], start.done.clone());
            let (wanted, legs) = match r.below(8) {
                0 => (3, [call.legs[0], 4 + r.below(3)]),
                1 => (2, call.legs),
                _ => (0, call.legs),
            };
            (call.legs, call.tables.n_patom) = (legs, start.tables.n_patom + usize::from(wanted == 2));
            let answer = call.port();
            call.tables.n_patom = start.tables.n_patom;
            if answer == 0 {
                order.swap(legs[0], legs[1]);
            }
            agree &= answer == wanted;
            *tally.answers.entry(answer).or_default() += 1;
        }
        agree &= same(&call.set, &spelled(order, &start.tables, &start.set));
        tally.numbers += call.set.len() as u64;
        if !agree {
            tally.differ(call.set.len(), || format!("{order:?} {start:?}"));
        }
    }
}
