//! Times of nint, round and sqrt against the original and the hardware: both sides in one process, alternating,
//! the least of many runs.
use crate::rng::Rng;
use crate::{common, port};
use std::hint::black_box;
use std::time::Instant;

/// More than a branch predictor learns by heart.
const VALUES: usize = 65536;
const RUNS: usize = 100;

/// The least time of each side for a pass over the values, in seconds.
fn race<T>(x: &[f64], out: &mut [T], sides: [&dyn Fn(&[f64], &mut [T]); 2]) -> [f64; 2] {
    let mut best = [f64::MAX; 2];
    for _ in 0..RUNS {
        for (k, side) in sides.iter().enumerate() {
            let start = Instant::now();
            side(black_box(x), black_box(&mut *out));
            best[k] = best[k].min(start.elapsed().as_secs_f64());
        }
    }
    best
}

fn row(name: &str, values: &str, times: [f64; 2]) {
    let ns = times.map(|t| t * 1e9 / VALUES as f64);
    println!("| {name} | {values} | {:.1} | {:.1} | {:.2} |", ns[0], ns[1], ns[0] / ns[1]);
}

fn each<T>(f: impl Fn(f64) -> T) -> impl Fn(&[f64], &mut [T]) {
    move |x, out| {
        for (o, x) in out.iter_mut().zip(x) {
            *o = f(*x);
        }
    }
}

// The other side as a call through a C name too, as the port's is.
#[inline(never)]
extern "C" fn hardware_root(x: f64) -> f64 {
    x.sqrt()
}

pub fn common() {
    let mut r = Rng::new(5);
    let mut values = |f: &dyn Fn(&mut Rng) -> f64| (0..VALUES).map(|_| f(&mut r)).collect::<Vec<_>>();
    let roots = [
        ("0 to 1", values(&|r| r.unit())),
        ("any size", values(&|r| f64::from_bits(r.bits() % 0x7FF0_0000_0000_0000))),
    ];
    let whole = [
        ("-2 to 2", values(&|r| r.unit() * 4.0 - 2.0)),
        ("-1000 to 1000", values(&|r| r.unit() * 2000.0 - 1000.0)),
        ("any below 2^60", values(&|r| r.unit() * 2f64.powi(r.below(120) as i32 - 60))),
    ];
    let (mut floats, mut integers) = (vec![0.0; VALUES], vec![0; VALUES]);
    println!("| call | values | port, ns | other side, ns | ratio |\n|---|---|---|---|---|");
    for (name, x) in &roots {
        row("sqrt, against the hardware, two roots to an instruction", name, race(x, &mut floats, [&each(port::sqrt), &each(|x| x.sqrt())]));
        row("sqrt, against the hardware, one root to an instruction", name, race(x, &mut floats, [&each(port::sqrt), &each(|x| black_box(x).sqrt())]));
        row("sqrt, against the hardware behind a call", name, race(x, &mut floats, [&each(port::sqrt), &each(|x| black_box(hardware_root as extern "C" fn(f64) -> f64)(x))]));
    }
    for (name, x) in &whole {
        row("round, against f64::round", name, race(x, &mut floats, [&each(port::round), &each(|x| x.round())]));
        row("nint, against the original", name, race(x, &mut integers, [&each(port::nint), &each(common::nint)]));
    }
}
