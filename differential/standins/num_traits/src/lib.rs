//! Stand-in for num_traits: Zero, One and Inv, which mean on f64 what they mean there.
use std::ops::{Add, Mul};

pub trait Zero: Sized + Add<Self, Output = Self> {
    fn zero() -> Self;
    fn is_zero(&self) -> bool;
}
pub trait One: Sized + Mul<Self, Output = Self> {
    fn one() -> Self;
}
pub trait Inv {
    type Output;
    fn inv(self) -> Self::Output;
}

impl Zero for f64 {
    fn zero() -> f64 {
        0.0
    }
    fn is_zero(&self) -> bool {
        *self == 0.0
    }
}
impl One for f64 {
    fn one() -> f64 {
        1.0
    }
}
impl Inv for f64 {
    type Output = f64;
    fn inv(self) -> f64 {
        1.0 / self
    }
}
