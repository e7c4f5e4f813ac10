//! Both sides of a call, number by number.
use crate::call::{refusal, Call, Lent, Numbers};
use crate::edges::edges;
use crate::rng::Rng;
use crate::spoil::perhaps_spoilt;
use std::collections::BTreeMap;

/// What was compared of one call name, and what differed.
#[derive(Default)]
pub struct Tally {
    pub name: String,
    /// How often each number was answered: 0 done, 1 to 6 refused, the others the call's own.
    pub answers: BTreeMap<u8, u64>,
    pub numbers: u64,
    /// How many of them are NaN.
    pub nans: u64,
    /// How many of those are compared by their bits: all that no arithmetic of the call made.
    pub kept: u64,
    pub differences: u64,
    /// The shortest input on which the sides differ, by the length of its slices.
    pub smallest: Option<(usize, String)>,
}

/// The first place at which the two differ. Where `made` says so, any NaN equals any NaN.
fn differing(got: &Lent, want: &Lent, made: impl Fn(usize) -> bool) -> Option<usize> {
    if got.len() != want.len() {
        return Some(0);
    }
    let float = matches!(got.numbers, Numbers::Floats(_));
    let nan = |word: u64| float && f64::from_bits(word).is_nan();
    (0..got.len()).find(|k| {
        let (a, b) = (got.word(*k), want.word(*k));
        a != b && !(nan(a) && nan(b) && made(*k))
    })
}

/// The places of a slice that hold a NaN.
fn nans(lent: &Lent) -> Vec<usize> {
    match &lent.numbers {
        Numbers::Floats(v) => (0..v.len()).filter(|k| v[*k].is_nan()).collect(),
        _ => vec![],
    }
}

/// Rubbish in the work slices.
pub fn fill_work<C: Call>(r: &mut Rng, call: &mut C) {
    call.parts().slices.iter_mut().filter(|s| s.work).for_each(|s| s.rubbish(r));
}

/// So many calls have all their edges tried.
const EDGES: u64 = 4;

impl Tally {
    pub fn new(name: &str) -> Tally {
        Tally { name: name.to_string(), ..Tally::default() }
    }

    /// Counts a difference; the shortest input is kept.
    pub fn differ(&mut self, size: usize, what: impl Fn() -> String) {
        self.differences += 1;
        if self.smallest.as_ref().is_none_or(|(least, _)| size < *least) {
            self.smallest = Some((size, what()));
        }
    }

    /// One call: `side` beside the Rust, or beside document 01 where the call is to be refused.
    pub fn call<C: Call>(&mut self, before: &mut C, side: &dyn Fn(&mut C) -> u8) {
        let refused = refusal(before);
        let (mut want, mut got) = (before.clone(), before.clone());
        let mut number = refused;
        if refused == 0 {
            number = want.original();
            want.parts().slices.iter_mut().filter(|s| s.work).for_each(Lent::clear);
        }
        let answer = side(&mut got);
        if refused == 0 {
            want.settle(&got);
        }
        *self.answers.entry(number).or_default() += 1;
        let (got, want) = (got.parts().slices, want.parts().slices);
        let size = want.iter().map(Lent::len).sum();
        self.numbers += size as u64;
        let made = |slice: usize, k: usize| refused == 0 && before.made(slice, k);
        for (slice, lent) in want.iter().enumerate() {
            let places = nans(lent);
            self.nans += places.len() as u64;
            self.kept += places.iter().filter(|k| !made(slice, **k)).count() as u64;
        }
        let side_by_side = got.iter().zip(&want).enumerate();
        let places: Vec<Option<usize>> = side_by_side.map(|(slice, (a, b))| differing(a, b, |k| made(slice, k))).collect();
        if answer != number || places.iter().any(Option::is_some) {
            self.differ(size, || describe(before, [answer, number], &places, [&got, &want]));
        }
    }

    /// `count` calls that `make` makes, two in five of them spoilt, with rubbish in the work slices; and the edges of some.
    pub fn calls<C: Call>(&mut self, r: &mut Rng, count: u64, make: &dyn Fn(&mut Rng) -> C, side: &dyn Fn(&mut C) -> u8) {
        for _ in 0..EDGES.min(count / 40) {
            let mut call = make(r);
            fill_work(r, &mut call);
            edges(self, &call, side);
        }
        for _ in 0..count {
            let call = make(r);
            let mut call = perhaps_spoilt(r, call);
            fill_work(r, &mut call);
            self.call(&mut call, side);
        }
    }

    pub fn line(&self) -> String {
        let calls: u64 = self.answers.values().sum();
        let answers: Vec<String> = self.answers.iter().map(|(answer, n)| format!("{} {n}", words(*answer))).collect();
        let (numbers, nans, kept, differences) = (self.numbers, self.nans, self.kept, self.differences);
        format!("{}: {calls} calls ({}), {numbers} numbers ({nans} NaN, {kept} by their bits), {differences} differences", self.name, answers.join(", "))
    }
}

fn words(answer: u8) -> String {
    match answer {
        0 => "done".into(),
        64 => "not matched".into(),
        65 => "still".into(),
        66 => "worst".into(),
        67 => "no number".into(),
        68 => "end".into(),
        69 => "not matched, no number".into(),
        70 => "unknown".into(),
        71 => "retired".into(),
        72 => "no match".into(),
        k => format!("refused by {k}:"),
    }
}

fn describe<C: Call>(call: &C, answers: [u8; 2], places: &[Option<usize>], sides: [&Vec<Lent>; 2]) -> String {
    let mut text = format!("answer {}, to be {}", answers[0], answers[1]);
    for (k, place) in places.iter().enumerate() {
        if let Some(at) = place {
            let word = |side: &Vec<Lent>| if *at < side[k].len() { format!("{:016x}", side[k].word(*at)) } else { "nothing".into() };
            text += &format!("\n  slice {k}, number {at}: {}, to be {}", word(sides[0]), word(sides[1]));
        }
    }
    let mut input = format!("{call:?}");
    if input.len() > 4000 {
        input.truncate((0..=4000).rev().find(|k| input.is_char_boundary(*k)).unwrap());
        input += " ..";
    }
    text + "\n  input: " + &input
}
