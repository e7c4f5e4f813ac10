//! Lists of third-order transposes, refused calls among them: the library beside the Rust, beside document 01's plain
//! table, and two lists that spell the same order beside each other.
use crate::call::{refusal, Call};
use crate::call_compact::{Compact, Name};
use crate::groups::random_tables;
use crate::rng::Rng;
use crate::shifts::Tables;
use crate::spoil::spoil;
use crate::tally::Tally;
use crate::wild::fill;

/// The calls of a list; none of them has the set, which is lent to one after the other.
type List = Vec<Compact>;

fn transpose(tables: &Tables, t_type: i64) -> Compact {
    let done = vec![0xA5; tables.n_patom * tables.n_satom];
    Compact { t_type, done, ..Compact::new(Name::Transpose3, tables.clone()) }
}

/// A call of any type, one in four of them spoilt. One that is not refused brings the set's own tables.
fn any_call(r: &mut Rng, tables: &Tables, set: &[f64]) -> Compact {
    let plain = transpose(tables, [0, 1, 2, 0, 1, 2, -1, 3][r.below(8)]);
    let mut call = plain.clone();
    if r.below(4) == 0 {
        call.set = set.to_vec();
        spoil(r, &mut call);
        if refusal(&mut call) == 0 {
            call = plain;
        } else if call.set.len() != set.len() {
            // the set is what the call before left: it keeps its length
            call = Compact { done: vec![], ..plain };
        }
        call.set = vec![];
    }
    call
}

fn any_list(r: &mut Rng, tables: &Tables, set: &[f64], most: usize) -> List {
    (0..r.below(most + 1)).map(|_| any_call(r, tables, set)).collect()
}

/// Lends the set to the calls one after the other; the answers.
fn lend(list: &[Compact], set: &mut Vec<f64>, side: fn(&mut Compact) -> u8) -> Vec<u8> {
    let mut answers = vec![];
    for call in list {
        let mut call = call.clone();
        std::mem::swap(&mut call.set, set);
        answers.push(side(&mut call));
        std::mem::swap(&mut call.set, set);
    }
    answers
}

/// What each call has to answer, and the Rust's work where that is 0.
fn wanted(call: &mut Compact) -> u8 {
    let number = refusal(call);
    if number == 0 {
        call.original();
    }
    number
}

/// The order that a list spells, by document 01: 0, 1, 2 with the exchanges of the calls that are not refused.
fn spelt(list: &[Compact], answers: &[u8]) -> [usize; 3] {
    let mut order = [0, 1, 2];
    for (call, answer) in list.iter().zip(answers) {
        match (answer, call.t_type) {
            (0, 0) => order.swap(0, 1),
            (0, 1) => order.swap(0, 2),
            (0, 2) => order.swap(1, 2),
            _ => {}
        }
    }
    order
}

/// The half-shift condition: no row but the null shift undoes itself.
pub fn half_shift(t: &Tables) -> bool {
    let twice = |k: usize| (0..t.n_satom).all(|a| t.row(k, t.row(k, a)) == a);
    let null = |k: usize| (0..t.n_satom).all(|a| t.row(k, a) == a);
    (0..t.num_trans).any(|k| twice(k) && !null(k))
}

/// The plain table at the start: for any three pairs (atom, direction), x = 3 * atom + direction, the read-out's number.
fn read_out(set: &[f64], t: &Tables) -> Vec<f64> {
    let n = 3 * t.n_satom;
    let number = |x: usize, y: usize, z: usize| {
        let row = t.nsym_list[x / 3] as usize;
        let block = (t.s2pp[x / 3] as usize * t.n_satom + t.row(row, y / 3)) * t.n_satom + t.row(row, z / 3);
        set[block * 27 + x % 3 * 9 + y % 3 * 3 + z % 3]
    };
    (0..n * n * n).map(|k| number(k / n / n, k / n % n, k % n)).collect()
}

/// The plain table after a list that spells a, b, c: at legs xa, xb, xc it has the number of x0, x1, x2.
fn moved(table: &[f64], n: usize, [a, b, c]: [usize; 3]) -> Vec<f64> {
    let mut new = vec![f64::NAN; table.len()];
    for (k, number) in table.iter().enumerate() {
        let x = [k / n / n, k / n % n, k % n];
        new[(x[a] * n + x[b]) * n + x[c]] = *number;
    }
    new
}

/// The plain table fed with the list, call by call, as document 01 tells it.
fn fed(mut table: Vec<f64>, n: usize, list: &[Compact], answers: &[u8]) -> Vec<f64> {
    for (call, answer) in list.iter().zip(answers) {
        let order = match (answer, call.t_type) {
            (0, 0) => [1, 0, 2],
            (0, 1) => [2, 1, 0],
            (0, 2) => [0, 2, 1],
            _ => continue,
        };
        table = moved(&table, n, order);
    }
    table
}

/// The same bits, those of NaN too: transposes move.
pub fn same(a: &[f64], b: &[f64]) -> bool {
    a.len() == b.len() && a.iter().zip(b).all(|(x, y)| x.to_bits() == y.to_bits())
}

fn describe(what: &str, tables: &Tables, list: &[Compact], answers: &[u8]) -> String {
    let types: Vec<i64> = list.iter().map(|call| call.t_type).collect();
    format!("{what}\n  types {types:?}, answers {answers:?}, {tables:?}")
}

/// The smallest sets have one atom, the largest some 40,000 numbers.
fn start(r: &mut Rng) -> (Tables, Vec<f64>) {
    let most = if r.below(20) == 0 { 40_000 } else { 6_000 };
    let tables = random_tables(r, 3, most);
    let set = fill(r, tables.n_patom * tables.n_satom * tables.n_satom * 27);
    (tables, set)
}

/// `count` lists: the library's set beside the Rust's, and where no shift is a half shift the read-out beside the plain
/// table, fed call by call and by the order that the list spells.
pub fn lists(tally: &mut Tally, r: &mut Rng, count: u64) {
    for _ in 0..count {
        let (tables, before) = start(r);
        let list = any_list(r, &tables, &before, 6);
        let (mut want, mut got) = (before.clone(), before.clone());
        let numbers = lend(&list, &mut want, wanted);
        let answers = lend(&list, &mut got, Compact::port);
        numbers.iter().for_each(|number| *tally.answers.entry(*number).or_default() += 1);
        tally.numbers += before.len() as u64;
        let mut agree = answers == numbers && same(&got, &want);
        if !half_shift(&tables) {
            let (n, table) = (3 * tables.n_satom, read_out(&before, &tables));
            let after = fed(table.clone(), n, &list, &numbers);
            agree &= same(&read_out(&got, &tables), &after) && same(&moved(&table, n, spelt(&list, &numbers)), &after);
            tally.numbers += 2 * table.len() as u64;
        }
        if !agree {
            tally.differ(before.len(), || describe("the sets, or the read-out and the table, differ", &tables, &list, &answers));
        }
    }
}

/// One or two types that turn the order of `from` into that of `to`, or none if they are the same.
fn bridge(from: [usize; 3], to: [usize; 3]) -> Vec<i64> {
    let after = |types: &[i64]| {
        let mut order = from;
        for t in types {
            let (x, y) = [(0, 1), (0, 2), (1, 2)][*t as usize];
            order.swap(x, y);
        }
        order == to
    };
    let pairs = (0..9).map(|k| vec![k / 3, k % 3]);
    let mut tries = std::iter::once(vec![]).chain((0..3).map(|t| vec![t])).chain(pairs);
    tries.find(|types| after(types)).expect("two exchanges reach every order")
}

/// `count` pairs of lists that spell the same order, from one set over tables without a half shift: the same bits.
pub fn same_order(tally: &mut Tally, r: &mut Rng, count: u64) {
    let mut pairs = 0;
    while pairs < count {
        let (tables, before) = start(r);
        if half_shift(&tables) {
            continue;
        }
        pairs += 1;
        let (one, mut other) = (any_list(r, &tables, &before, 5), any_list(r, &tables, &before, 5));
        let (mut first, mut second) = (before.clone(), before.clone());
        let answers = lend(&one, &mut first, Compact::port);
        let so_far = lend(&other, &mut second, Compact::port);
        let rest: List = bridge(spelt(&other, &so_far), spelt(&one, &answers)).into_iter().map(|t| transpose(&tables, t)).collect();
        let more = lend(&rest, &mut second, Compact::port);
        other.extend(rest);
        for answer in answers.iter().chain(&so_far).chain(&more) {
            *tally.answers.entry(*answer).or_default() += 1;
        }
        tally.numbers += before.len() as u64;
        if !same(&first, &second) {
            tally.differ(before.len(), || describe("the same order, but not the same bits", &tables, &one, &answers));
        }
    }
}
