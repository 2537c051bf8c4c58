//! One state after another over one set: energies, their two ends, the total, and which searches were spent.
use crate::input::grid::State;
use crate::refused::{Refused, Stage};
use crate::set::Set;
use crate::thermo::{self, Thermo};
use domthelv_sys::Refusal;
use domthelv_sys::safe::{Ends, MieSet, QuantumSet, Table, Total};

/// The count of a search that made all its evaluations and did not leave.
pub const SPENT: u8 = 20;

/// A contribution.
#[derive(Debug, Clone, Copy, PartialEq)]
pub struct Part {
    pub key: &'static str,
    pub label: &'static str,
    pub value: f64,
    pub ends: Option<Ends>,
}

/// A pair's search that was spent.
#[derive(Debug, Clone, Copy, PartialEq, Eq)]
pub struct Spent {
    pub search: &'static str,
    pub i: usize,
    pub j: usize,
}

const HARD_SPHERE: (&str, &str) = ("hard_sphere", "hard sphere");
const DISPERSION: (&str, &str) = ("dispersion", "dispersion");
const NON_ADDITIVE: (&str, &str) = ("non_additive", "non-additive hard sphere");
const CHAIN: (&str, &str) = ("dispersion_chain", "dispersion and chain");

pub struct Worker {
    set: Set,
    wanted: bool,
    tables: Tables,
}

/// The table of the last temperature, which is kept for the next state.
#[derive(Default)]
struct Tables {
    held: Option<(f64, Result<Table, Refusal>)>,
}

impl Tables {
    fn at(&mut self, set: &QuantumSet, temperature: f64) -> Result<&Table, Refused> {
        if self.held.as_ref().is_none_or(|(held, _)| held.to_bits() != temperature.to_bits()) {
            self.held = None;
        }
        let (_, worked) = self.held.get_or_insert_with(|| (temperature, set.table(temperature)));
        worked.as_ref().map_err(|r| Refused::at(Stage::Table, *r))
    }
}

fn part((key, label): (&'static str, &'static str), value: f64, ends: Option<Ends>) -> Part {
    Part { key, label, value, ends }
}

impl Worker {
    pub fn new(set: Set, wanted: bool) -> Worker {
        Worker { set, wanted, tables: Tables::default() }
    }
    pub fn set(&self) -> &Set {
        &self.set
    }
    /// Keys and labels of the contributions that `parts` gives.
    pub fn labels(&self) -> Vec<(&'static str, &'static str)> {
        match (&self.set, self.wanted) {
            (Set::Quantum(_), true) => vec![HARD_SPHERE, DISPERSION, NON_ADDITIVE],
            (Set::Quantum(_), false) => vec![HARD_SPHERE, DISPERSION],
            (Set::Mie(_), true) => vec![CHAIN],
            (Set::Mie(_), false) => vec![DISPERSION],
        }
    }
    /// The contributions at a state, with their two ends where they are wanted.
    pub fn parts(&mut self, s: &State, ends: bool) -> Result<Vec<Part>, Refused> {
        match &self.set {
            Set::Mie(set) => mie_parts(set, s, self.wanted, ends),
            Set::Quantum(set) => quantum_parts(set, s, self.tables.at(set, s.temperature)?, self.wanted, ends),
        }
    }
    /// The sum of the contributions with its remainders; SAFT-VR Mie has no total here.
    pub fn total(&mut self, s: &State) -> Result<Option<Total>, Refused> {
        let Set::Quantum(set) = &self.set else { return Ok(None) };
        let table = self.tables.at(set, s.temperature)?;
        let total = set.total(&s.lent(), &table.values, self.wanted);
        total.map(Some).map_err(|r| Refused::at(Stage::Energies, r).packed(table, s))
    }
    /// Pressure and residual chemical potentials; SAFT-VR Mie has none here, and is not asked.
    pub fn thermo(&self, s: &State) -> Result<Thermo, Refused> {
        match &self.set {
            Set::Quantum(set) => thermo::at(set, s, self.wanted),
            Set::Mie(_) => Err(Refused::at(Stage::Slopes, Refusal::Length)),
        }
    }
    /// The searches that were spent at a temperature.
    pub fn spent(&mut self, temperature: f64) -> Vec<Spent> {
        let Set::Quantum(set) = &self.set else { return vec![] };
        self.tables.at(set, temperature).map(|table| spent(table, set.count)).unwrap_or_default()
    }
}

fn spent(table: &Table, count: usize) -> Vec<Spent> {
    let mut found = vec![];
    for i in 0..count {
        for j in i..count {
            let counts = [("sigma", table.sigma_count(i, j)), ("zero", table.zero_count(i, j)), ("depth", table.depth_count(i, j))];
            found.extend(counts.into_iter().filter(|(_, n)| *n == Ok(SPENT)).map(|(search, _)| Spent { search, i, j }));
        }
    }
    found
}

fn quantum_parts(set: &QuantumSet, s: &State, table: &Table, wanted: bool, ends: bool) -> Result<Vec<Part>, Refused> {
    let e = set.energies(&s.lent(), &table.values, wanted).map_err(|r| Refused::at(Stage::Energies, r).packed(table, s))?;
    let asked = if ends { Some(set.energies_ends(&s.lent(), &table.values, wanted)) } else { None };
    let both = asked.transpose().map_err(|r| Refused::at(Stage::Ends, r).packed(table, s))?;
    let mut parts =
        vec![part(HARD_SPHERE, e.hard_sphere, both.map(|b| b.hard_sphere)), part(DISPERSION, e.dispersion, both.map(|b| b.dispersion))];
    if wanted {
        parts.push(part(NON_ADDITIVE, e.non_additive, both.map(|b| b.non_additive)));
    }
    Ok(parts)
}

fn mie_parts(set: &MieSet, s: &State, wanted: bool, ends: bool) -> Result<Vec<Part>, Refused> {
    let mut diameters = vec![0.0; set.count];
    set.diameters(s.temperature, &mut diameters).map_err(|r| Refused::at(Stage::Diameters, r))?;
    let spheres = || set.lists.iter().copied().zip(diameters.iter().copied());
    let value = set.dispersion(&s.lent(), &diameters, wanted).map_err(|r| Refused::at(Stage::Energies, r).of_spheres(spheres(), s))?;
    let asked = if ends { Some(set.dispersion_ends(&s.lent(), &diameters, wanted)) } else { None };
    let both = asked.transpose().map_err(|r| Refused::at(Stage::Ends, r).of_spheres(spheres(), s))?;
    Ok(vec![part(if wanted { CHAIN } else { DISPERSION }, value, both)])
}
