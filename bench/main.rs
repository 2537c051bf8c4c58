//! Times the port's pieces beside the plain ones, in one run: ratios, since machines differ. Built and run by tools/bench.
#[rustfmt::skip] // calls of many arguments
mod operations;
#[allow(dead_code)]
#[path = "../differential/run/src/port.rs"]
mod port;
#[allow(dead_code)]
#[path = "../differential/run/src/random.rs"]
mod random;
#[allow(dead_code)]
#[path = "../domthelv-sys/src/sizes.rs"]
mod sizes;

use std::hint::black_box;
use std::time::Instant;

#[link(name = "interval_bench", kind = "static")]
unsafe extern "C" {
    fn domthelv_bench_float(op: u8, x: f64, y: f64, n: u64) -> f64;
    fn domthelv_bench_interval(op: u8, x: f64, y: f64, n: u64) -> f64;
}

#[link(name = "power_bench", kind = "static")]
unsafe extern "C" {
    fn domthelv_bench_powers(x: f64, exponents: &[f64; 14]) -> f64;
}

/// Best nanoseconds a turn of `f(turns)`, of several rounds.
fn best(turns: u64, f: impl Fn(u64) -> f64) -> f64 {
    let mut least = f64::INFINITY;
    for _ in 0..15 {
        let start = Instant::now();
        black_box(f(black_box(turns)));
        least = least.min(start.elapsed().as_nanos() as f64 / turns as f64);
    }
    least
}

/// Best nanoseconds of one run of each, in rounds of a few milliseconds that take turns, so that both meet the same load.
fn best_of_two(f: impl Fn(), g: impl Fn()) -> (f64, f64) {
    let round = |f: &dyn Fn(), turns: u64| {
        let start = Instant::now();
        (0..turns).for_each(|_| f());
        start.elapsed().as_nanos() as f64 / turns as f64
    };
    let (mut a, mut b) = (round(&f, 1), round(&g, 1));
    let turns = |once: f64| ((3e6 / once) as u64).max(1);
    let (m, n) = (turns(a), turns(b));
    for _ in 0..20 {
        a = a.min(round(&f, m));
        b = b.min(round(&g, n));
    }
    (a, b)
}

fn intervals() {
    println!("intervals: one operation after another, each waiting for the last");
    println!("{:<14} {:>9} {:>9} {:>7} {:>6}", "operation", "float ns", "ends ns", "ratio", "goal");
    let rows = [
        ("sum", 0u8, 1.0, 1e-9, 8.0),
        ("difference", 1, 1.0, 1e-9, 8.0),
        ("product", 2, 1.0, 1.0 + 1e-9, 12.0),
        ("product, by -1", 2, 1.0, -1.0 - 1e-9, 12.0),
        ("quotient", 3, 1.0, 1.0 + 1e-9, 12.0),
    ];
    for (name, op, x, y, goal) in rows {
        let n = 200_000;
        let float = best(n, |n| unsafe { domthelv_bench_float(op, x, y, n) });
        let ends = best(n, |n| unsafe { domthelv_bench_interval(op, x, y, n) });
        println!("{:<14} {:>9.2} {:>9.2} {:>6.1}x {:>5.0}x", name, float, ends, ends / float, goal);
    }
}

/// Arguments between two ends, the same in each run.
fn arguments(low: f64, high: f64) -> Vec<f64> {
    let mut seed = 0x9e37_79b9_7f4a_7c15u64;
    let mut next = || {
        seed ^= seed << 13;
        seed ^= seed >> 7;
        seed ^= seed << 17;
        (seed >> 11) as f64 / 9007199254740992.0
    };
    (0..4096).map(|_| low + (high - low) * next()).collect()
}

/// A row of an elementary function: independent calls on random arguments.
fn elementary(
    name: &str,
    low: f64,
    high: f64,
    goal: f64,
    ours: Option<unsafe extern "C" fn(f64, *mut f64) -> u8>,
    platform: fn(f64) -> f64,
) {
    let list = arguments(low, high);
    let turns = 50 * list.len() as u64;
    let over = |f: &dyn Fn(f64) -> f64| best(turns, |n| (0..n as usize).map(|i| f(list[i % 4096])).sum());
    let a = over(&|x| {
        let mut r = 0.0;
        unsafe { ours.unwrap()(x, &mut r) };
        r
    });
    let b = over(&|x| platform(black_box(x)));
    println!("{:<14} {:>9.2} {:>9.2} {:>6.1}x {:>5.1}x", name, b, a, a / b, goal);
}

/// One power a turn, of random bases and exponents.
fn power() {
    let (bases, exponents) = (arguments(0.3, 3.0), arguments(3.0, 20.0));
    let turns = 50 * bases.len() as u64;
    let over = |f: &dyn Fn(f64, f64) -> f64| best(turns, |n| (0..n as usize).map(|i| f(bases[i % 4096], exponents[(i * 7) % 4096])).sum());
    let a = over(&|x, y| {
        let mut r = 0.0;
        unsafe { port::POWF.unwrap()(x, y, &mut r) };
        r
    });
    let b = over(&|x, y| black_box(x).powf(black_box(y)));
    println!("{:<14} {:>9.2} {:>9.2} {:>6.1}x {:>5.1}x", "powf", b, a, a / b, 1.5);
}

/// Fourteen exponents of one base a turn: the port works the base's logarithm once.
fn powers() {
    let (bases, list) = (arguments(0.3, 3.0), arguments(3.0, 20.0));
    let exponents: [f64; 14] = std::array::from_fn(|i| list[i]);
    let turns = 5 * bases.len() as u64;
    let over = |f: &dyn Fn(f64) -> f64| best(turns, |n| (0..n as usize).map(|i| f(bases[i % 4096])).sum());
    let a = over(&|x| unsafe { domthelv_bench_powers(x, &exponents) });
    let b = over(&|x| exponents.iter().map(|&y| black_box(x).powf(black_box(y))).sum());
    println!("{:<14} {:>9.2} {:>9.2} {:>6.2}x {:>5.1}x", "14 powers", b, a, a / b, 0.7);
}

fn main() {
    intervals();
    println!("elementary functions: independent calls on random arguments");
    println!("{:<14} {:>9} {:>9} {:>7} {:>6}", "function", "platf. ns", "port ns", "ratio", "goal");
    elementary("sqrt", 0.5, 4.5, 4.0, port::SQRT, f64::sqrt);
    elementary("ln", 0.001, 1000.0, 6.0, port::LN, f64::ln);
    elementary("ln_1p", -0.9, 10.0, 6.0, port::LN_1P, f64::ln_1p);
    elementary("exp", -20.0, 20.0, 1.6, port::EXP, f64::exp);
    elementary("exp_m1", -20.0, 20.0, 1.6, port::EXP_M1, f64::exp_m1);
    elementary("exp_m1, near 0", -0.2, 0.2, 1.6, port::EXP_M1, f64::exp_m1);
    elementary("tanh", -5.0, 5.0, 1.8, port::TANH, f64::tanh);
    power();
    powers();
    operations::run();
}
