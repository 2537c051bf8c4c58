//! Pressure and residual chemical potentials of a quantum mixture, from the slopes of its energies.
use crate::input::grid::State;
use crate::refused::{Refused, Stage};
use domthelv_sys::safe::{EnergiesSlopes, QuantumSet, StateSlopes};

/// Boltzmann's constant, exact in the SI, times the cubic ångström of a cubic metre: pascals for a molecule per cubic ångström and kelvin.
pub const PASCALS: f64 = 1.380649e7;

#[derive(Debug, Clone, PartialEq)]
pub struct Thermo {
    /// Over k T, per cubic ångström.
    pub reduced_pressure: f64,
    /// The residual chemical potential of each component, over k T.
    pub potentials: Vec<f64>,
}

impl Thermo {
    pub fn pascals(&self, s: &State) -> f64 {
        PASCALS * s.temperature * self.reduced_pressure
    }
    /// The compressibility factor.
    pub fn factor(&self, s: &State) -> f64 {
        self.reduced_pressure / s.densities.iter().sum::<f64>()
    }
}

fn value(e: &EnergiesSlopes) -> f64 {
    e.hard_sphere.value + e.dispersion.value + e.non_additive.value
}

fn slope(e: &EnergiesSlopes) -> f64 {
    e.hard_sphere.slope + e.dispersion.slope + e.non_additive.slope
}

/// The energies where one component's density has slope 1, and the fractions what follows from it.
fn by_density(set: &QuantumSet, s: &State, i: usize, wanted: bool) -> Result<EnergiesSlopes, Refused> {
    let total: f64 = s.densities.iter().sum();
    let one = |j: usize| if i == j { 1.0 } else { 0.0 };
    let densities: Vec<f64> = (0..s.densities.len()).map(one).collect();
    // of a single component the fraction stays 1
    let share = |j: usize| if s.densities.len() == 1 { 0.0 } else { (one(j) - s.fractions[j]) / total };
    let fractions: Vec<f64> = (0..s.densities.len()).map(share).collect();
    let slopes = StateSlopes { temperature: 0.0, fractions: &fractions, densities: &densities };
    set.energies_slopes(&s.lent(), &slopes, wanted).map_err(|r| Refused::at(Stage::Slopes, r))
}

/// With a, the energies' sum per volume over k T: a component's potential is a's slope by its density, and the pressure over k T is
/// the sum of the densities, plus that of each density times its potential, less a.
pub fn at(set: &QuantumSet, s: &State, wanted: bool) -> Result<Thermo, Refused> {
    let worked = (0..s.densities.len()).map(|i| by_density(set, s, i, wanted)).collect::<Result<Vec<_>, _>>()?;
    let potentials: Vec<f64> = worked.iter().map(slope).collect();
    let energy = worked.first().map(value).unwrap_or_default();
    let density: f64 = s.densities.iter().sum();
    let moved: f64 = s.densities.iter().zip(&potentials).map(|(d, mu)| d * mu).sum();
    Ok(Thermo { reduced_pressure: density + moved - energy, potentials })
}
