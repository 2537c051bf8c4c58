//! A float of the float run with its two ends, by the outward rules of the scope. Under the name `f64` it takes the place of
//! the plain float in the Rust text.
mod fraction;

pub use fraction::Fraction;
use num_traits::{Inv, One, Zero};
use std::cell::{Cell, RefCell};
use std::ops::*;

thread_local! {
    static EIGHT: Cell<bool> = const { Cell::new(false) };
    static R0: Cell<f64> = const { Cell::new(0.0) };
    static EXACT: Cell<bool> = const { Cell::new(false) };
    static CHOICE: Cell<Choice> = const { Cell::new(Choice::Float) };
    /// The exact run's values; nothing where a divisor of 0 went before.
    static VALUES: RefCell<Vec<Option<Fraction>>> = const { RefCell::new(vec![]) };
}

/// Whether 8 arose since the last look.
pub fn take_eight() -> bool {
    EIGHT.replace(false)
}
/// The lower limit of a diameter's integral, which the two-ended calls take instead of searching it.
pub fn set_r0(x: f64) {
    R0.set(x)
}
pub fn r0() -> F {
    F::k(R0.get())
}

/// Starts the exact run beside the others, or stops it; its values so far are forgotten.
pub fn work_exactly(wanted: bool) {
    EXACT.set(wanted);
    VALUES.with_borrow_mut(Vec::clear);
}

/// What the exact run takes for a constant that lies between two floats: its float, an end, or for each constant another place
/// between its ends, by a seed.
#[derive(Clone, Copy, Debug)]
pub enum Choice {
    Float,
    Low,
    High,
    Apart(u64),
}
pub fn choose(choice: Choice) {
    CHOICE.set(choice)
}

/// Where the exact run's value stands; a point is its float, a constant what was chosen for it.
#[derive(Clone, Copy, Debug)]
enum Exact {
    Point,
    Constant,
    At(usize),
}

#[derive(Clone, Copy, Debug)]
pub struct F {
    pub v: f64,
    pub low: f64,
    pub high: f64,
    exact: Exact,
}

/// The exact run's value of an operation on two operands.
fn exactly(a: F, b: F, f: impl FnOnce(&Fraction, &Fraction) -> Option<Fraction>) -> Exact {
    if !EXACT.get() {
        return Exact::Point;
    }
    let value = match (a.fraction(), b.fraction()) {
        (Some(a), Some(b)) => f(&a, &b),
        _ => None,
    };
    VALUES.with_borrow_mut(|values| {
        values.push(value);
        Exact::At(values.len() - 1)
    })
}

/// The neighbour above: a step onto zero gives +0, from either zero it is 2^-1074.
fn up(x: f64) -> f64 {
    let y = x.next_up();
    if y == 0.0 { 0.0 } else { y }
}
fn down(x: f64) -> f64 {
    let y = x.next_down();
    if y == 0.0 { 0.0 } else { y }
}

/// The least and greatest corner, each moved outward; 8 if an end of an operand, a corner or a moved end is not finite.
fn outward(v: f64, corners: [f64; 4], a: F, b: F, exact: Exact) -> F {
    let low = down(corners.into_iter().fold(f64::INFINITY, f64::min));
    let high = up(corners.into_iter().fold(f64::NEG_INFINITY, f64::max));
    let ends = [a.low, a.high, b.low, b.high, low, high];
    if !ends.into_iter().chain(corners).all(f64::is_finite) {
        EIGHT.set(true);
    }
    F { v, low, high, exact }
}

impl F {
    pub const EPSILON: F = F::k(f64::EPSILON);
    pub const NAN: F = F::k(f64::NAN);
    /// A point: an input, a number of the text or an elementary answer.
    pub const fn k(x: f64) -> F {
        F { v: x, low: x, high: x, exact: Exact::Point }
    }
    /// A constant: its float, and the two floats that enclose it.
    pub const fn between(v: f64, low: f64, high: f64) -> F {
        F { v, low, high, exact: Exact::Constant }
    }
    fn chosen(self) -> Fraction {
        match CHOICE.get() {
            Choice::Float => Fraction::of(self.v),
            Choice::Low => Fraction::of(self.low),
            Choice::High => Fraction::of(self.high),
            Choice::Apart(seed) => {
                let place = (self.v.to_bits() ^ seed).wrapping_mul(0x9e37_79b9_7f4a_7c15) >> 54;
                let width = Fraction::of(self.high).minus(&Fraction::of(self.low));
                Fraction::of(self.low).plus(&width.times(&Fraction::of(place as f64 / 1024.0)))
            }
        }
    }
    /// The exact run's value: nothing after a divisor of 0, or where an input is not finite.
    pub fn fraction(self) -> Option<Fraction> {
        match self.exact {
            Exact::Point => self.v.is_finite().then(|| Fraction::of(self.v)),
            Exact::Constant => Some(self.chosen()),
            Exact::At(k) => VALUES.with_borrow(|values| values[k].clone()),
        }
    }
    pub fn of(n: usize) -> F {
        F::k(n as f64)
    }
    /// An elementary answer to the float run's argument.
    pub fn call(self, f: fn(f64) -> f64) -> F {
        F::k(f(self.v))
    }
    pub fn call_two(self, other: F, f: fn(f64, f64) -> f64) -> F {
        F::k(f(self.v, other.v))
    }
    /// Only branches ask it.
    pub fn abs(self) -> F {
        F::k(self.v.abs())
    }
    pub fn powf(self, n: F) -> F {
        self.call_two(n, f64::powf)
    }
    pub fn powi(self, n: i32) -> F {
        self.call_two(F::from(n), f64::powf)
    }
}
macro_rules! platform {
    ($($f:ident),*) => { impl F { $( pub fn $f(self) -> F { self.call(f64::$f) } )* } };
}
platform!(sqrt, ln, ln_1p, exp, exp_m1, tanh);

impl Neg for F {
    type Output = F;
    fn neg(self) -> F {
        let exact = match self.exact {
            Exact::Point => Exact::Point,
            at => exactly(F::k(0.0), F { exact: at, ..self }, |zero, x| Some(zero.minus(x))),
        };
        F { v: -self.v, low: -self.high, high: -self.low, exact }
    }
}
macro_rules! corners {
    ($($op:ident $f:ident $sign:tt $exact:ident),*) => { $(
        impl $op for F {
            type Output = F;
            fn $f(self, o: F) -> F {
                let corners = [self.low $sign o.low, self.low $sign o.high, self.high $sign o.low, self.high $sign o.high];
                outward(self.v $sign o.v, corners, self, o, exactly(self, o, |a, b| Some(a.$exact(b))))
            }
        }
    )* };
}
corners!(Add add + plus, Sub sub - minus, Mul mul * times);
impl Div for F {
    type Output = F;
    fn div(self, o: F) -> F {
        if !(o.low > 0.0 || o.high < 0.0) {
            EIGHT.set(true);
        }
        let corners = [self.low / o.low, self.low / o.high, self.high / o.low, self.high / o.high];
        outward(self.v / o.v, corners, self, o, exactly(self, o, Fraction::by))
    }
}
macro_rules! assigns {
    ($($op:ident $f:ident $sign:tt),*) => { $(
        impl $op for F {
            fn $f(&mut self, o: F) {
                *self = *self $sign o
            }
        }
    )* };
}
assigns!(AddAssign add_assign +, SubAssign sub_assign -, MulAssign mul_assign *, DivAssign div_assign /);

impl From<i32> for F {
    fn from(n: i32) -> F {
        F::k(n as f64)
    }
}
impl Default for F {
    fn default() -> F {
        F::k(0.0)
    }
}
// branches are those of the float run
impl PartialEq for F {
    fn eq(&self, o: &F) -> bool {
        self.v == o.v
    }
}
impl PartialOrd for F {
    fn partial_cmp(&self, o: &F) -> Option<std::cmp::Ordering> {
        self.v.partial_cmp(&o.v)
    }
}
impl std::fmt::Display for F {
    fn fmt(&self, f: &mut std::fmt::Formatter<'_>) -> std::fmt::Result {
        self.v.fmt(f)
    }
}
impl Zero for F {
    fn zero() -> F {
        F::k(0.0)
    }
    fn is_zero(&self) -> bool {
        self.v == 0.0
    }
}
impl One for F {
    fn one() -> F {
        F::k(1.0)
    }
}
impl Inv for F {
    type Output = F;
    fn inv(self) -> F {
        F::k(1.0) / self
    }
}

pub mod consts {
    use super::F;
    use std::f64::consts;
    pub const PI: F = F::between(consts::PI, consts::PI, consts::PI.next_up());
    pub const TAU: F = F::between(consts::TAU, consts::TAU, consts::TAU.next_up());
    pub const FRAC_PI_6: F = F::between(consts::FRAC_PI_6, consts::FRAC_PI_6.next_down(), consts::FRAC_PI_6);
}

#[cfg(test)]
mod tests {
    use super::*;

    #[test]
    fn the_ends_of_the_constants() {
        // 37 decimals of pi, cut off and one more in the last place
        let digits = ["3.1415926535897932384626433832795028841", "3.1415926535897932384626433832795028842"];
        let pi = digits.map(Fraction::decimal);
        for (factor, c) in [(1.0, consts::PI), (2.0, consts::TAU)] {
            let [low, high] = pi.each_ref().map(|p| p.times(&Fraction::of(factor)));
            assert!(Fraction::of(c.low).at_most(&low) && high.at_most(&Fraction::of(c.high)));
        }
        let [low, high] = pi.each_ref().map(|p| p.by(&Fraction::of(6.0)).unwrap());
        assert!(Fraction::of(consts::FRAC_PI_6.low).at_most(&low) && high.at_most(&Fraction::of(consts::FRAC_PI_6.high)));
        for c in [consts::PI, consts::TAU, consts::FRAC_PI_6] {
            assert!(c.low.next_up() == c.high && (c.v == c.low || c.v == c.high));
            for choice in [Choice::Float, Choice::Low, Choice::High, Choice::Apart(0), Choice::Apart(7)] {
                choose(choice);
                let q = c.fraction().unwrap();
                assert!(Fraction::of(c.low).at_most(&q) && q.at_most(&Fraction::of(c.high)));
            }
        }
    }
}
