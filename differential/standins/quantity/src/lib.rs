//! Stand-in for quantity: a molar weight is the molecule's mass in kilograms and converting changes nothing,
//! so that a pair's mass is 2.0 * mi * mj / (mi + mj) from the left, in kilograms.
#[cfg(feature = "ended")]
use ends::F as f64;
use nalgebra::DVector;
use std::ops::{Add, Div, Mul};

#[derive(Clone, Copy, Debug)]
pub struct Mass(f64);

impl Mul<Mass> for f64 {
    type Output = Mass;
    fn mul(self, other: Mass) -> Mass {
        Mass(self * other.0)
    }
}
impl Mul for Mass {
    type Output = Mass;
    fn mul(self, other: Mass) -> Mass {
        Mass(self.0 * other.0)
    }
}
impl Div for Mass {
    type Output = Mass;
    fn div(self, other: Mass) -> Mass {
        Mass(self.0 / other.0)
    }
}
impl Add for Mass {
    type Output = Mass;
    fn add(self, other: Mass) -> Mass {
        Mass(self.0 + other.0)
    }
}
impl Mass {
    pub fn convert_into(self, _: Unit) -> f64 {
        self.0
    }
}

#[derive(Clone, Copy)]
pub struct Unit;
impl Mul for Unit {
    type Output = Unit;
    fn mul(self, _: Unit) -> Unit {
        Unit
    }
}
pub const KILOGRAM: Unit = Unit;
pub const NAV: Unit = Unit;

#[derive(Clone, Debug)]
pub struct MolarWeight<T>(pub T);
impl MolarWeight<DVector<f64>> {
    pub fn get(&self, i: usize) -> Mass {
        Mass(self.0[i])
    }
}
