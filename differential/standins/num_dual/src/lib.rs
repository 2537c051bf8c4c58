//! Stand-in for num_dual: the trait DualNum for f64, with the platform's functions under their own names and the
//! functions of a table under `port_..`, and Dual by the slope rules of the scope.
#[cfg(feature = "ended")]
use ends::F as f64;
use num_traits::{Inv, One, Zero};
use std::fmt::Debug;
use std::ops::*;
use std::sync::atomic::{AtomicBool, AtomicPtr, Ordering::Relaxed};

/// What the renamed calls reach. `re` is told each value that the text tests.
pub struct Functions {
    pub re: fn(f64) -> f64,
    pub sqrt: fn(f64) -> f64,
    pub ln: fn(f64) -> f64,
    pub ln_1p: fn(f64) -> f64,
    pub exp: fn(f64) -> f64,
    pub exp_m1: fn(f64) -> f64,
    pub tanh: fn(f64) -> f64,
    pub powf: fn(f64, f64) -> f64,
}
pub static PLATFORM: Functions = Functions {
    re: |x| x,
    sqrt: f64::sqrt,
    ln: f64::ln,
    ln_1p: f64::ln_1p,
    exp: f64::exp,
    exp_m1: f64::exp_m1,
    tanh: f64::tanh,
    powf: f64::powf,
};
static TABLE: AtomicPtr<Functions> = AtomicPtr::new(&PLATFORM as *const Functions as *mut Functions);

pub fn use_functions(f: &'static Functions) {
    TABLE.store(f as *const Functions as *mut Functions, Relaxed)
}
fn table() -> &'static Functions {
    unsafe { &*TABLE.load(Relaxed) }
}

/// The whole power of the scope: by binary digits from the lowest, squared only while a digit is left.
pub fn powi(x: f64, n: i32) -> f64 {
    let (mut r, mut square, mut digits) = (f64::one(), x, n.unsigned_abs());
    while digits != 0 {
        if digits % 2 == 1 {
            r = r * square;
        }
        digits /= 2;
        if digits != 0 {
            square = square * square;
        }
    }
    if n < 0 { f64::one() / r } else { r }
}

pub trait DualNum:
    Clone
    + Debug
    + 'static
    + Zero
    + One
    + Inv<Output = Self>
    + From<f64>
    + Neg<Output = Self>
    + Add<Output = Self>
    + Sub<Output = Self>
    + Mul<Output = Self>
    + Div<Output = Self>
    + AddAssign
    + SubAssign
    + MulAssign
    + DivAssign
    + Add<<Self as DualNum>::Primitive, Output = Self>
    + Sub<<Self as DualNum>::Primitive, Output = Self>
    + Mul<<Self as DualNum>::Primitive, Output = Self>
    + Div<<Self as DualNum>::Primitive, Output = Self>
    + AddAssign<<Self as DualNum>::Primitive>
    + MulAssign<<Self as DualNum>::Primitive>
{
    type Primitive;
    fn re(&self) -> f64;
    fn recip(&self) -> Self;
    fn sqrt(&self) -> Self;
    fn ln(&self) -> Self;
    fn ln_1p(&self) -> Self;
    fn exp(&self) -> Self;
    fn exp_m1(&self) -> Self;
    fn tanh(&self) -> Self;
    fn powf(&self, n: f64) -> Self;
    fn powi(&self, n: i32) -> Self;
    fn port_re(&self) -> f64;
    fn port_sqrt(&self) -> Self;
    fn port_ln(&self) -> Self;
    fn port_ln_1p(&self) -> Self;
    fn port_exp(&self) -> Self;
    fn port_exp_m1(&self) -> Self;
    fn port_tanh(&self) -> Self;
    fn port_powf(&self, n: f64) -> Self;
    fn port_powi(&self, n: i32) -> Self;
}

macro_rules! of_f64 {
    ($($own:ident $port:ident),*) => { $(
        #[inline]
        fn $own(&self) -> f64 {
            f64::$own(*self)
        }
        #[inline]
        fn $port(&self) -> f64 {
            (table().$own)(*self)
        }
    )* };
}
impl DualNum for f64 {
    type Primitive = f64;
    of_f64!(sqrt port_sqrt, ln port_ln, ln_1p port_ln_1p, exp port_exp, exp_m1 port_exp_m1, tanh port_tanh);
    #[inline]
    fn re(&self) -> f64 {
        *self
    }
    #[inline]
    fn port_re(&self) -> f64 {
        (table().re)(*self)
    }
    #[inline]
    fn recip(&self) -> f64 {
        f64::one() / *self
    }
    #[inline]
    fn powf(&self, n: f64) -> f64 {
        f64::powf(*self, n)
    }
    #[inline]
    fn port_powf(&self, n: f64) -> f64 {
        (table().powf)(*self, n)
    }
    #[inline]
    fn powi(&self, n: i32) -> f64 {
        f64::powi(*self, n)
    }
    #[inline]
    fn port_powi(&self, n: i32) -> f64 {
        powi(*self, n)
    }
}

/// Value and slope, by the rules of the scope; a plain number has slope +0 under the same rules.
#[derive(Clone, Copy, Debug)]
pub struct Dual<T> {
    pub re: T,
    pub eps: T,
}

/// Set: quotient, whole power and plain numbers as num_dual has them to our knowledge (its source is not in docs/src),
/// for the spread alone.
pub static CRATE_RULES: AtomicBool = AtomicBool::new(false);
#[inline]
fn crate_rules() -> bool {
    CRATE_RULES.load(Relaxed)
}

/// Set: a real power has the slope exponent * (power with exponent - 1) * a', x0's too, as the quantum chain with slopes
/// has it. Unset: a real power of x0 has slope +0, as the chain term of SAFT-VR Mie has it.
pub static REAL_POWER_SLOPES: AtomicBool = AtomicBool::new(false);

pub trait Number: DualNum<Primitive = f64> + Copy {}
impl<T: DualNum<Primitive = f64> + Copy> Number for T {}

impl<T: Number> Dual<T> {
    #[inline]
    pub fn new(re: T, eps: T) -> Self {
        Self { re, eps }
    }
    #[inline]
    pub fn from_re(re: T) -> Self {
        Self { re, eps: T::zero() }
    }
    #[inline]
    pub fn derivative(mut self) -> Self {
        self.eps = T::one();
        self
    }
    /// n * a^(n-1) * a' from the left, +0 if n is 0.
    #[inline]
    fn whole_power(&self, n: i32, power: impl Fn(&T, i32) -> T) -> Self {
        if crate_rules() && n > 2 || crate_rules() && n < 0 {
            let third = power(&self.re, n - 3);
            let first = third * self.re * self.re;
            return Dual::new(first * self.re, self.eps * (first * f64::from(n)));
        }
        let slope = if n == 0 { T::zero() } else { T::from(f64::from(n)) * power(&self.re, n - 1) * self.eps };
        Dual::new(power(&self.re, n), slope)
    }
    /// The value, and where it is wanted the slope, exponent * (power with exponent - 1) * a' from the left.
    #[inline]
    fn real_power(&self, n: f64, power: impl Fn(&T, f64) -> T) -> Self {
        let value = power(&self.re, n);
        if !REAL_POWER_SLOPES.load(Relaxed) {
            return Dual::from_re(value);
        }
        Dual::new(value, T::from(n) * power(&self.re, n - f64::one()) * self.eps)
    }
    /// exp: its value * a'.
    #[inline]
    fn exp_of(&self, exp: impl Fn(&T) -> T) -> Self {
        let value = exp(&self.re);
        Dual::new(value, value * self.eps)
    }
    /// ln_1p: a' / (1 + a).
    #[inline]
    fn ln_1p_of(&self, ln_1p: impl Fn(&T) -> T) -> Self {
        Dual::new(ln_1p(&self.re), self.eps / (T::one() + self.re))
    }
}
impl<T: Number> From<f64> for Dual<T> {
    fn from(x: f64) -> Self {
        Self::from_re(T::from(x))
    }
}
impl<T: Number> Neg for Dual<T> {
    type Output = Self;
    #[inline]
    fn neg(self) -> Self {
        Dual::new(-self.re, -self.eps)
    }
}
impl<T: Number> Add for Dual<T> {
    type Output = Self;
    #[inline]
    fn add(self, o: Self) -> Self {
        Dual::new(self.re + o.re, self.eps + o.eps)
    }
}
impl<T: Number> Sub for Dual<T> {
    type Output = Self;
    #[inline]
    fn sub(self, o: Self) -> Self {
        Dual::new(self.re - o.re, self.eps - o.eps)
    }
}
impl<T: Number> Mul for Dual<T> {
    type Output = Self;
    #[inline]
    fn mul(self, o: Self) -> Self {
        Dual::new(self.re * o.re, self.eps * o.re + self.re * o.eps)
    }
}
impl<T: Number> Div for Dual<T> {
    type Output = Self;
    #[inline]
    fn div(self, o: Self) -> Self {
        let slope = self.eps * o.re - self.re * o.eps;
        if crate_rules() {
            let inverse = o.re.recip();
            return Dual::new(self.re * inverse, slope * inverse * inverse);
        }
        Dual::new(self.re / o.re, slope / (o.re * o.re))
    }
}
macro_rules! with_plain {
    ($($op:ident $f:ident $sign:tt),*) => { $(
        impl<T: Number> $op<f64> for Dual<T> {
            type Output = Self;
            #[inline]
            fn $f(self, o: f64) -> Self {
                self $sign Self::from(o)
            }
        }
    )* };
}
with_plain!(Add add +, Sub sub -, Mul mul *);
impl<T: Number> Div<f64> for Dual<T> {
    type Output = Self;
    #[inline]
    fn div(self, o: f64) -> Self {
        if crate_rules() { Dual::new(self.re / o, self.eps / o) } else { self / Self::from(o) }
    }
}
macro_rules! assigns {
    ($($op:ident $f:ident $sign:tt $rhs:ty),*) => { $(
        impl<T: Number> $op<$rhs> for Dual<T> {
            #[inline]
            fn $f(&mut self, o: $rhs) {
                *self = *self $sign o
            }
        }
    )* };
}
assigns!(AddAssign add_assign + Self, SubAssign sub_assign - Self, MulAssign mul_assign * Self, DivAssign div_assign / Self,
    AddAssign add_assign + f64, MulAssign mul_assign * f64);
impl<T: Number> Zero for Dual<T> {
    fn zero() -> Self {
        Self::from_re(T::zero())
    }
    fn is_zero(&self) -> bool {
        self.re.is_zero()
    }
}
impl<T: Number> One for Dual<T> {
    fn one() -> Self {
        Self::from_re(T::one())
    }
}
impl<T: Number> Inv for Dual<T> {
    type Output = Self;
    fn inv(self) -> Self {
        Self::one() / self
    }
}
macro_rules! not_called {
    ($($f:ident),*) => { $(
        fn $f(&self) -> Self {
            unreachable!("no text asks such a function of a dual")
        }
    )* };
}
impl<T: Number> DualNum for Dual<T> {
    type Primitive = f64;
    not_called!(sqrt, ln, exp_m1, tanh, port_sqrt, port_ln, port_exp_m1, port_tanh);
    #[inline]
    fn ln_1p(&self) -> Self {
        self.ln_1p_of(T::ln_1p)
    }
    #[inline]
    fn port_ln_1p(&self) -> Self {
        self.ln_1p_of(T::port_ln_1p)
    }
    #[inline]
    fn exp(&self) -> Self {
        self.exp_of(T::exp)
    }
    #[inline]
    fn port_exp(&self) -> Self {
        self.exp_of(T::port_exp)
    }
    fn re(&self) -> f64 {
        self.re.re()
    }
    fn port_re(&self) -> f64 {
        self.re.port_re()
    }
    fn recip(&self) -> Self {
        Self::one() / *self
    }
    #[inline]
    fn powi(&self, n: i32) -> Self {
        self.whole_power(n, T::powi)
    }
    #[inline]
    fn port_powi(&self, n: i32) -> Self {
        self.whole_power(n, T::port_powi)
    }
    #[inline]
    fn powf(&self, n: f64) -> Self {
        self.real_power(n, |x, n| x.powf(n))
    }
    #[inline]
    fn port_powf(&self, n: f64) -> Self {
        self.real_power(n, |x, n| x.port_powf(n))
    }
}
