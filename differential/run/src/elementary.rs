//! The elementary functions beside independent models: domains by the scope's words, the root by the platform's, the whole
//! power by its rule, the others by the platform's within the distance that is promised.
use crate::lent::Lent;
use crate::oracle::*;
use crate::port;
use crate::random::Random;
use crate::tally::Tally;

/// 2^-48, and a unit in the last place for the platform's own error.
const DISTANCE: f64 = 1.0 / 281474976710656.0 + f64::EPSILON;

fn near(got: f64, model: f64) -> bool {
    (got - model).abs() <= DISTANCE * model.abs()
}

struct Function {
    name: &'static str,
    port: Option<unsafe extern "C" fn(f64, *mut f64) -> u8>,
    inside: fn(f64) -> bool,
    right: fn(f64, f64) -> bool,
    low: f64,
    high: f64,
    special: &'static [f64],
}

const ONE: [Function; 6] = [
    Function {
        name: "sqrt",
        port: port::SQRT,
        inside: sqrt_inside,
        right: |x, r| r.to_bits() == x.sqrt().to_bits(),
        low: 0.0,
        high: 1e6,
        special: &[f64::MAX, 2.25, -0.0, 5e-324, -5e-324],
    },
    Function {
        name: "ln",
        port: port::LN,
        inside: ln_inside,
        right: |x, r| if x == 1.0 { r.to_bits() == 0 } else { near(r, x.ln()) },
        low: 1e-3,
        high: 1e3,
        special: &[f64::MIN_POSITIVE, f64::MAX, 1.0, f64::EPSILON],
    },
    Function {
        name: "ln_1p",
        port: port::LN_1P,
        inside: ln_1p_inside,
        right: |x, r| if x == 0.0 { r.to_bits() == x.to_bits() } else { near(r, x.ln_1p()) },
        low: -0.999,
        high: 10.0,
        special: &[-1.0, 1048576.0, 5e-324, -5e-324, 1e-300],
    },
    Function {
        name: "exp",
        port: port::EXP,
        inside: exp_inside,
        right: |x, r| near(r, x.exp()),
        low: -30.0,
        high: 30.0,
        special: &[-700.0, 700.0],
    },
    Function {
        name: "exp_m1",
        port: port::EXP_M1,
        inside: exp_inside,
        right: |x, r| if x == 0.0 { r.to_bits() == x.to_bits() } else { near(r, x.exp_m1()) },
        low: -30.0,
        high: 30.0,
        special: &[-700.0, 700.0, 5e-324, -5e-324],
    },
    Function {
        name: "tanh",
        port: port::TANH,
        inside: tanh_inside,
        right: |x, r| if x == 0.0 { r.to_bits() == x.to_bits() } else { (r - x.tanh()).abs() <= DISTANCE },
        low: -10.0,
        high: 10.0,
        special: &[-350.0, 350.0, 5e-324, -5e-324],
    },
];

fn argument(g: &mut Random, f: &Function) -> f64 {
    match g.below(8) {
        0 => g.bits(),
        1 => g.odd(),
        2 => {
            let x = g.one_of(f.special);
            g.one_of(&[x, x.next_up(), x.next_down(), -x])
        }
        3 => f64::from_bits(g.next() % (1 << 52) | (g.next() % 160 + 940) << 52 | (g.next() & 1) << 63),
        _ => g.within(f.low, f.high),
    }
}

/// A call with its one output in a guarded page: number, output, and whether all bits beside it are kept.
fn call(lent: &mut Lent, before: u64, f: impl FnOnce(*mut f64) -> u8) -> (u8, f64, bool) {
    lent.clear();
    let at = lent.lend(&[before], before & 1 == 0) as *mut f64;
    let number = f(at);
    (number, lent.out::<f64>(0)[0], lent.guards_kept() && (number == 0 || lent.outs_kept(1)))
}

pub fn run(count: u64, seed: u64, tally: &mut Tally) {
    let mut g = Random(seed ^ 0x5eed);
    let mut lent = Lent::default();
    for _ in 0..count {
        for f in &ONE {
            let Some(port) = f.port else { continue };
            let x = argument(&mut g, f);
            let (number, r, kept) = call(&mut lent, g.pattern(), |out| unsafe { port(x, out) });
            let wanted = if (f.inside)(x) { 0 } else { 6 };
            let right = number == wanted && kept && (wanted == 6 || (f.right)(x, r));
            tally.note(f.name, wanted, right, || format!("of {x:e} ({:016x}) answers {number}, {r:e} ({:016x})", x.to_bits(), r.to_bits()));
        }
        if let Some(port) = port::POWF {
            let ends: [f64; 3] = [0.03125, 32.0, 1.0];
            let base = match g.below(8) {
                0 => g.odd(),
                1 => g.bits(),
                2 => {
                    let x = g.one_of(&ends);
                    g.one_of(&[x, x.next_up(), x.next_down()])
                }
                _ => g.spread(0.03125, 32.0),
            };
            let exponent = match g.below(8) {
                0 => g.odd(),
                1 => g.bits(),
                2 => g.one_of(&[192.0, -192.0, 192.0f64.next_up(), -(192.0f64.next_up()), 0.0, -0.0, 1.0, -1.0]),
                _ => g.within(-192.0, 192.0),
            };
            let (number, r, kept) = call(&mut lent, g.pattern(), |out| unsafe { port(base, exponent, out) });
            let wanted = if powf_inside(base, exponent) { 0 } else { 6 };
            let right = number == wanted && kept && (wanted == 6 || near(r, base.powf(exponent)));
            tally.note("powf", wanted, right, || format!("of {base:e}, {exponent:e} answers {number}, {r:e}"));
        }
        let x = if g.once_in(2) { g.odd() } else { g.within(-40.0, 40.0) };
        let n = match g.below(4) {
            0 => g.one_of(&[i32::MIN, i32::MAX, 0, 1, -1]),
            1 => g.next() as i32,
            _ => g.below(19) as i32 - 9,
        };
        let r = port::powi(x, n);
        tally.note("powi", 0, same(r, num_dual::powi(x, n)), || format!("of {x:e}, {n} is {r:e}, expected {:e}", num_dual::powi(x, n)));
    }
}
