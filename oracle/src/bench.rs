//! Times of the port against the unchanged Rust: both sides in one process and on one thread, alternating, on the same
//! slices, each restored just before, the least of many runs. A pool of two threads stands apart.
use crate::call::{Call, Lent, Numbers};
use crate::call_tables::Check;
use crate::memory::most_of;
use crate::shifts::Tables;
use crate::stack::deepest;
use rayon::{ThreadPool, ThreadPoolBuilder};
use std::hint::black_box;
use std::time::Instant;

pub struct Bench {
    one: ThreadPool,
    two: ThreadPool,
    /// How long a row may take, in seconds.
    patience: f64,
}

/// So many runs before a pool is left: the first may find the caches as another thread left them.
const RUNS: usize = 4;

/// Least times in seconds.
struct Times {
    port: f64,
    one: f64,
    two: f64,
    /// A copy of the set: the least that a call can take that reads and writes it once.
    copy: f64,
    /// The check of the call's shift tables alone.
    guard: f64,
}

fn clock<T>(work: impl FnOnce() -> T) -> f64 {
    let start = Instant::now();
    black_box(work());
    start.elapsed().as_secs_f64()
}

fn copy_one(to: &mut Lent, from: &Lent) {
    match (&mut to.numbers, &from.numbers) {
        (Numbers::Floats(a), Numbers::Floats(b)) => a.copy_from_slice(b),
        (Numbers::Integers(a), Numbers::Integers(b)) => a.copy_from_slice(b),
        (Numbers::Bytes(a), Numbers::Bytes(b)) => a.copy_from_slice(b),
        _ => unreachable!("slices of the same call"),
    }
}

fn restore<C: Call>(to: &mut C, from: &mut C) {
    let from = from.parts().slices;
    to.parts().slices.iter_mut().zip(&from).for_each(|(a, b)| copy_one(a, b));
}

/// The copy of the set alone, the first slice.
fn copy_of_set<C: Call>(to: &mut C, from: &mut C) -> f64 {
    let (mut to, from) = (to.parts().slices, from.parts().slices);
    clock(|| copy_one(black_box(&mut to[0]), black_box(&from[0])))
}

fn agree<C: Call>(a: &mut C, b: &mut C) -> bool {
    let (a, b) = (a.parts().slices, b.parts().slices);
    let nan = |s: &Lent, k: usize| matches!(s.numbers, Numbers::Floats(_)) && f64::from_bits(s.word(k)).is_nan();
    let same = |x: &Lent, y: &Lent| (0..x.len()).all(|k| x.word(k) == y.word(k) || nan(x, k) && nan(y, k));
    a.iter().zip(&b).all(|(x, y)| x.work || same(x, y))
}

impl Bench {
    pub fn new(patience: f64) -> Bench {
        let pool = |n| ThreadPoolBuilder::new().num_threads(n).build().expect("threads");
        Bench { one: pool(1), two: pool(2), patience }
    }

    pub fn head(&self) {
        println!("| call | size | port, us | the Rust, us | ratio | guard, us | ratio without it | ratio, 2 threads | copy, us | heap / work, kB | stack, kB |");
        println!("|---|---|---|---|---|---|---|---|---|---|---|");
    }

    /// Some runs of both sides, on the thread that asks. What a side finds in the caches is what `restore` left there.
    fn runs<C: Call>(call: &mut C, lent: &mut C, check: &mut Option<Check>, least: &mut Times) {
        for _ in 0..RUNS {
            least.copy = least.copy.min(copy_of_set(lent, call));
            if let Some(check) = check {
                least.guard = least.guard.min(clock(|| assert_eq!(black_box(check).port(), 0)));
            }
            restore(lent, call);
            least.port = least.port.min(clock(|| black_box(&mut *lent).port()));
            restore(lent, call);
            least.one = least.one.min(clock(|| black_box(&mut *lent).original()));
        }
    }

    /// Some runs of the Rust, in the pool that asks.
    fn original_runs<C: Call>(call: &mut C, lent: &mut C, least: &mut f64) {
        for _ in 0..RUNS {
            restore(lent, call);
            *least = least.min(clock(|| black_box(&mut *lent).original()));
        }
    }

    fn times<C: Call + Send>(&self, call: &mut C, tables: Option<Tables>, threads: bool) -> Times {
        let (mut lent, mut mine) = (call.clone(), call.clone());
        mine.port();
        let mut check = tables.map(Check);
        let mut least = Times { port: f64::MAX, one: f64::MAX, two: f64::MAX, copy: f64::MAX, guard: f64::MAX };
        let start = Instant::now();
        loop {
            self.one.install(|| Bench::runs(call, &mut lent, &mut check, &mut least));
            if threads {
                self.two.install(|| Bench::original_runs(call, &mut lent, &mut least.two));
            }
            if start.elapsed().as_secs_f64() >= self.patience {
                break;
            }
        }
        assert!(agree(&mut mine, &mut lent), "the sides differ");
        least
    }

    /// A row of the table: how many times the port's time the Rust takes. `tables` are those that the call judges,
    /// and `threads` says that the Rust uses them.
    pub fn row<C: Call + Send>(&self, name: &str, size: &str, mut call: C, tables: Option<Tables>, threads: bool) {
        let times = self.times(&mut call, tables, threads);
        let mut again = call.clone();
        let stack = deepest(&mut || {
            black_box(again.port());
        });
        restore(&mut again, &mut call);
        let heap = most_of(|| self.one.install(|| again.original())) / 1024;
        let lent = call.parts().slices.iter().filter(|s| s.work).map(|s| s.len() * s.width()).sum::<usize>() / 1024;
        let us = |t: f64| if t == f64::MAX { "".into() } else { format!("{:.1}", t * 1e6) };
        let ratio = |t: f64, to: f64| if t == f64::MAX { "".into() } else { format!("{:.2}", t / to) };
        let work = times.port - times.guard;
        // a small rest of two large times says nothing
        let without = if work < 0.05 * times.port { "".into() } else { ratio(times.one, work) };
        let columns = [
            us(times.port),
            us(times.one),
            ratio(times.one, times.port),
            us(times.guard),
            without,
            ratio(times.two, times.port),
            us(times.copy),
            format!("{heap} / {lent}"),
            format!("{:.1}", stack as f64 / 1024.0),
        ];
        println!("| {name} | {size} | {} |", columns.join(" | "));
    }

    /// Least times, in seconds, of work done in `count` ways on the slices of a call, alternating, the slices restored just before: `work` does way k.
    pub fn ways<C: Call + Send>(&self, call: &mut C, count: usize, work: impl Fn(&mut C, usize) + Sync) -> Vec<f64> {
        let (mut lent, mut least) = (call.clone(), vec![f64::MAX; count]);
        let start = Instant::now();
        while start.elapsed().as_secs_f64() < self.patience {
            self.one.install(|| {
                for k in (0..RUNS * count).map(|k| k % count) {
                    restore(&mut lent, call);
                    least[k] = least[k].min(clock(|| work(black_box(&mut lent), k)));
                }
            });
        }
        least
    }

    /// The least time of the work, in seconds.
    pub fn least(&self, mut work: impl FnMut()) -> f64 {
        let start = Instant::now();
        let mut least = f64::MAX;
        while start.elapsed().as_secs_f64() < self.patience / 4.0 {
            least = least.min(clock(&mut work));
        }
        least
    }

    /// The least time of the table check alone, in seconds.
    pub fn check(&self, tables: &Tables) -> f64 {
        let mut call = Check(tables.clone());
        self.least(|| assert_eq!(black_box(&mut call).port(), 0))
    }
}
