//! Vapour and liquid of a pure fluid in balance: equal pressure and equal chemical potential at a temperature.
use crate::input::grid::State;
use crate::refused::Refused;
use crate::thermo::{self, PASCALS, Thermo};
use domthelv_sys::safe::QuantumSet;

/// Densities that are looked at for the turns of the isotherm.
const SCANNED: usize = 600;
/// The packing fraction up to which they go.
const PACKED: f64 = 0.5;
/// The most steps in the pressure, and of a density at a pressure.
const MOST_STEPS: usize = 60;
/// The relative step in the pressure at which they end.
const ENOUGH: f64 = 1e-12;
const MOST_HALVINGS: usize = 200;

#[derive(Debug, Clone, PartialEq)]
pub struct Saturation {
    /// In pascals.
    pub pressure: f64,
    pub vapour: f64,
    pub liquid: f64,
    /// The liquid's pressure less the vapour's, over the pressure.
    pub pressure_left: f64,
    /// The liquid's chemical potential less the vapour's, over k T.
    pub potential_left: f64,
    /// Steps in the pressure.
    pub steps: usize,
}

/// Why there is no balance to be told.
#[derive(Debug, Clone, PartialEq)]
pub enum Without {
    Refused(Refused, State),
    /// The isotherm rises throughout: one phase.
    OnePhase,
    /// The steps did not end.
    Steps,
}

struct Isotherm<'a> {
    set: &'a QuantumSet,
    temperature: f64,
}

/// A branch of the isotherm: densities between which the pressure rises.
#[derive(Debug, Clone, Copy)]
struct Branch {
    low: f64,
    high: f64,
}

impl Isotherm<'_> {
    fn state(&self, density: f64) -> State {
        State { temperature: self.temperature, fractions: vec![1.0], densities: vec![density] }
    }
    fn at(&self, density: f64) -> Result<Thermo, Without> {
        let s = self.state(density);
        thermo::at(self.set, &s, false).map_err(|r| Without::Refused(r, s))
    }
    fn pressure(&self, density: f64) -> Result<f64, Without> {
        self.at(density).map(|t| t.reduced_pressure)
    }
    /// The chemical potential over k T, up to what depends on the temperature alone.
    fn potential(&self, density: f64) -> Result<f64, Without> {
        Ok(density.ln() + self.at(density)?.potentials[0])
    }
    /// Vapour's and liquid's branch: up to the first fall of the pressure, and from its next rise on.
    fn branches(&self) -> Result<(Branch, Branch), Without> {
        let table = self
            .set
            .table(self.temperature)
            .map_err(|r| Without::Refused(Refused::at(crate::refused::Stage::Table, r), self.state(0.0)))?;
        let volume = table.hs_diameter(0, 0).unwrap_or(1.0).powi(3) * std::f64::consts::FRAC_PI_6;
        let density = |k: usize| PACKED / volume * (k + 1) as f64 / SCANNED as f64;
        let scanned = (0..SCANNED).map(|k| self.pressure(density(k))).collect::<Result<Vec<_>, _>>()?;
        let top = (1..SCANNED).find(|k| scanned[*k] < scanned[k - 1]).ok_or(Without::OnePhase)? - 1;
        let bottom = (top + 1..SCANNED - 1).find(|k| scanned[k + 1] > scanned[*k]).ok_or(Without::OnePhase)?;
        Ok((Branch { low: 0.0, high: density(top) }, Branch { low: density(bottom), high: density(SCANNED - 1) }))
    }
    /// The density of a branch at a pressure, by halving.
    fn density(&self, branch: Branch, pressure: f64) -> Result<f64, Without> {
        let Branch { mut low, mut high } = branch;
        for _ in 0..MOST_HALVINGS {
            let middle = 0.5 * (low + high);
            if middle <= low || middle >= high {
                break;
            }
            if self.pressure(middle)? < pressure { low = middle } else { high = middle }
        }
        Ok(0.5 * (low + high))
    }
}

/// Steps by Newton in the pressure over k T: there the difference of both potentials has the slope of both volumes' difference. A step
/// that leaves the range in which the balance lies is halved.
pub fn saturation(set: &QuantumSet, temperature: f64) -> Result<Saturation, Without> {
    let isotherm = Isotherm { set, temperature };
    let (vapours, liquids) = isotherm.branches()?;
    let (mut low, mut high) = (isotherm.pressure(liquids.low)?.max(0.0), isotherm.pressure(vapours.high)?);
    let mut pressure = 0.5 * (low + high);
    for steps in 1..=MOST_STEPS {
        let (vapour, liquid) = (isotherm.density(vapours, pressure)?, isotherm.density(liquids, pressure)?);
        let left = isotherm.potential(liquid)? - isotherm.potential(vapour)?;
        let step = left / (1.0 / vapour - 1.0 / liquid);
        if step.abs() <= ENOUGH * pressure {
            let both = (isotherm.pressure(liquid)?, isotherm.pressure(vapour)?);
            let pressure_left = (both.0 - both.1) / pressure;
            return Ok(Saturation {
                pressure: PASCALS * temperature * pressure,
                vapour,
                liquid,
                pressure_left,
                potential_left: left,
                steps,
            });
        }
        // the liquid's potential lies above the vapour's below the balance
        if left > 0.0 {
            low = pressure
        } else {
            high = pressure
        }
        let next = pressure + step;
        pressure = if next > low && next < high { next } else { 0.5 * (low + high) };
    }
    Err(Without::Steps)
}
