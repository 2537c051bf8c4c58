//! The two models: which numbers a component and a pair of each has, with units and limits as include/domthelv.h has them.
use crate::input::numbers::written;

#[derive(Debug, Clone, Copy, PartialEq, Eq)]
pub enum Model {
    Quantum,
    Mie,
}

/// A number of a component or of a pair.
#[derive(Debug, Clone, Copy, PartialEq)]
pub struct Parameter {
    pub key: &'static str,
    pub unit: &'static str,
    pub low: f64,
    pub high: f64,
    /// What is taken where a file does not say.
    pub default: Option<f64>,
}

const fn parameter(key: &'static str, unit: &'static str, low: f64, high: f64) -> Parameter {
    Parameter { key, unit, low, high, default: None }
}
const fn pair(key: &'static str) -> Parameter {
    Parameter { key, unit: "", low: -0.9, high: 0.9, default: Some(0.0) }
}

const SIGMA: Parameter = parameter("sigma", "Å", 0.5, 16.0);
const EPSILON_K: Parameter = parameter("epsilon_k", "K", 0.1, 5000.0);
const LR: Parameter = parameter("lr", "", 3.0, 64.0);
const LA: Parameter = parameter("la", "", 3.0, 64.0);
const ONE: Parameter = Parameter { default: Some(1.0), ..parameter("m", "", 1.0, 1.0) };
const MASS: Parameter = parameter("mass", "kg", 1e-27, 1e-23);
const ORDER: Parameter = parameter("order", "", 0.0, 2.0);

static QUANTUM: [Parameter; 7] = [ONE, SIGMA, EPSILON_K, LR, LA, MASS, ORDER];
static MIE: [Parameter; 5] = [parameter("m", "", 0.5, 64.0), SIGMA, EPSILON_K, LR, LA];
static QUANTUM_PAIR: [Parameter; 2] = [pair("k_ij"), pair("l_ij")];
static MIE_PAIR: [Parameter; 2] = [pair("k_ij"), pair("gamma_ij")];

/// The limits of a state and of a layer.
pub const TEMPERATURE: Parameter = parameter("temperature", "K", 1.0, 2000.0);
pub const FRACTION: Parameter = parameter("fraction", "", 0.0, 1.0);
pub const DENSITY: Parameter = parameter("density", "1/Å³", 0.0, 1.0);
/// The most cubic ångström of a layer; the least is above 0.
pub const MOST_VOLUME: f64 = 1e30;
/// The most layers of a tank.
pub const MOST_LAYERS: usize = 32;

impl Model {
    pub fn of(word: &str) -> Option<Model> {
        [Model::Quantum, Model::Mie].into_iter().find(|m| m.word() == word)
    }
    /// As a file says it.
    pub fn word(self) -> &'static str {
        match self {
            Model::Quantum => "quantum",
            Model::Mie => "mie",
        }
    }
    pub fn name(self) -> &'static str {
        match self {
            Model::Quantum => "SAFT-VRQ Mie",
            Model::Mie => "SAFT-VR Mie",
        }
    }
    /// The numbers of a component, in the order of the library's lists.
    pub fn parameters(self) -> &'static [Parameter] {
        match self {
            Model::Quantum => &QUANTUM,
            Model::Mie => &MIE,
        }
    }
    pub fn pair_parameters(self) -> &'static [Parameter; 2] {
        match self {
            Model::Quantum => &QUANTUM_PAIR,
            Model::Mie => &MIE_PAIR,
        }
    }
    /// Where a component's number of this name stands.
    pub fn place(self, key: &str) -> usize {
        self.parameters().iter().position(|p| p.key == key).unwrap_or_default()
    }
}

impl Parameter {
    pub fn holds(&self, x: f64) -> bool {
        self.low <= x && x <= self.high
    }
    /// A value with its unit.
    pub fn with_unit(&self, x: f64) -> String {
        with_unit(x, self.unit)
    }
    /// 'from A to B' with the unit.
    pub fn limit(&self) -> String {
        format!("from {} to {}", written(self.low), self.with_unit(self.high))
    }
}

pub fn with_unit(x: f64, unit: &str) -> String {
    if unit.is_empty() { written(x) } else { format!("{} {unit}", written(x)) }
}
