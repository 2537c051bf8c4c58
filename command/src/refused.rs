//! A refusal as a sentence: its number, the place and the limit. The library refuses; what stands here only looks for the place.
use crate::input::grid::State;
use crate::input::mixture::{Given, Mixture};
use crate::input::numbers::written;
use crate::model::{DENSITY, FRACTION, Model, Parameter, TEMPERATURE};
use domthelv_sys::Refusal;
use domthelv_sys::safe::Table;

/// The call that refused.
#[derive(Debug, Clone, Copy, PartialEq, Eq)]
pub enum Stage {
    Parameters,
    Table,
    Diameters,
    Energies,
    Ends,
    Slopes,
}

impl Stage {
    fn said(self) -> &'static str {
        match self {
            Stage::Parameters => "in the parameters",
            Stage::Table => "in the temperature table",
            Stage::Diameters => "in the diameters",
            Stage::Energies => "in the energies",
            Stage::Ends => "in the two ends",
            Stage::Slopes => "in the energies with slopes",
        }
    }
}

/// What a state's call refused.
#[derive(Debug, Clone, PartialEq)]
pub struct Refused {
    pub stage: Stage,
    pub refusal: Refusal,
    /// The packing fraction of the hard spheres, where the table is known.
    packing: Option<f64>,
}

impl Refused {
    pub fn at(stage: Stage, refusal: Refusal) -> Refused {
        Refused { stage, refusal, packing: None }
    }
    /// With the packing fraction of hard spheres of a table's diameters.
    pub fn packed(self, table: &Table, s: &State) -> Refused {
        let diameters = (0..s.densities.len()).map(|i| table.hs_diameter(i, i).unwrap_or_default());
        self.of_spheres(diameters.map(|d| (1.0, d)), s)
    }
    /// With the packing fraction of so many segments of these diameters.
    pub fn of_spheres(self, spheres: impl Iterator<Item = (f64, f64)>, s: &State) -> Refused {
        let each = s.densities.iter().zip(spheres).map(|(density, (m, d))| density * m * d.powi(3) * std::f64::consts::FRAC_PI_6);
        Refused { packing: Some(each.sum()), ..self }
    }
    pub fn number(&self) -> u8 {
        self.refusal.number()
    }
    /// The sentence, for a state of these components whose temperature, densities and fractions were given at these places.
    pub fn sentence(&self, s: &State, names: &[String], places: &[String; 3]) -> String {
        let why = match self.refusal {
            Refusal::Limit => state_outside(s, names).map(|(which, said)| format!("{said} ({})", places[which])),
            Refusal::Domain if self.packing.is_some_and(|p| p >= 1.0) => {
                let packing = self.packing.unwrap_or_default();
                Some(format!("packing fraction {packing:.4} at density {}; the limit is below 1", densities(s)))
            }
            Refusal::NotFinite | Refusal::NoEnds | Refusal::Domain if s.densities.iter().all(|d| *d == 0.0) => {
                Some(format!("{} at density 0: {}; the limit is a density above 0", self.stage.said(), meaning(self.refusal)))
            }
            _ => None,
        };
        let general =
            || format!("{} at {} K, density {}: {}", self.stage.said(), written(s.temperature), densities(s), meaning(self.refusal));
        format!("refused ({}): {}", self.number(), why.unwrap_or_else(general))
    }
}

fn densities(s: &State) -> String {
    format!("{} 1/Å³", s.densities.iter().map(|d| written(*d)).collect::<Vec<_>>().join(", "))
}

/// The library's own words of a refusal, without its number.
pub fn meaning(refusal: Refusal) -> String {
    let said = refusal.to_string();
    said.split_once("): ").map_or(said.clone(), |(_, words)| words.into())
}

fn outside(what: String, p: &Parameter, x: f64) -> Option<String> {
    (!p.holds(x)).then(|| format!("{what} is {}; the limit is {}", p.with_unit(x), p.limit()))
}

/// The first number of a state that is outside its limit: whether temperature (0), density (1) or fraction (2), and what is said of it.
pub fn state_outside(s: &State, names: &[String]) -> Option<(usize, String)> {
    let each = |list: &[f64], p: &Parameter| list.iter().zip(names).find_map(|(x, name)| outside(format!("{} of {name}", p.key), p, *x));
    let temperature = outside("temperature".into(), &TEMPERATURE, s.temperature).map(|said| (0, said));
    temperature.or_else(|| Some((2, each(&s.fractions, &FRACTION)?))).or_else(|| Some((1, each(&s.densities, &DENSITY)?)))
}

/// Where a number stands: its line, or that of its component or pair.
fn place(m: &Mixture, given: &Given, line: usize) -> String {
    match if given.line == 0 { line } else { given.line } {
        0 => format!(" ({})", m.file),
        line => format!(" ({}, line {line})", m.file),
    }
}

/// The first number of a mixture that is outside its limit.
fn mixture_outside(m: &Mixture) -> Option<String> {
    for c in &m.components {
        // the quantum model's m and order have numbers of their own; lr and la are looked at together
        let apart: &[&str] = if m.model == Model::Quantum { &["m", "order", "lr", "la"] } else { &["lr", "la"] };
        for (p, given) in m.model.parameters().iter().zip(&c.values).filter(|(p, _)| !apart.contains(&p.key)) {
            if let Some(said) = outside(format!("{} of component {}", p.key, c.name), p, given.value) {
                return Some(said + &place(m, given, c.line));
            }
        }
        let (lr, la) = (c.values[m.model.place("lr")], c.values[m.model.place("la")]);
        if !(3.0 < la.value && la.value < lr.value && lr.value <= 64.0) {
            let said = format!(
                "lr of component {} is {} and la is {}; the limit is 3 < la < lr <= 64",
                c.name,
                written(lr.value),
                written(la.value)
            );
            return Some(said + &place(m, &la, c.line));
        }
    }
    m.pairs.iter().find_map(|pair| {
        let of = format!("of {} and {}", m.components[pair.i].name, m.components[pair.j].name);
        let both = m.model.pair_parameters().iter().zip(&pair.values);
        both.into_iter().find_map(|(p, given)| Some(outside(format!("{} {of}", p.key), p, given.value)? + &place(m, given, pair.line)))
    })
}

/// The component whose number of this key is not what is asked for.
fn component_of(m: &Mixture, key: &str, holds: impl Fn(f64) -> bool, limit: &str) -> Option<String> {
    let at = m.model.place(key);
    let c = m.components.iter().find(|c| !holds(c.values[at].value))?;
    let said = format!("{key} of component {} is {}; the limit is {limit}", c.name, written(c.values[at].value));
    Some(said + &place(m, &c.values[at], c.line))
}

/// The first pair of the walk, row by row, whose orders are 1 and 2.
fn mixed(m: &Mixture) -> Option<String> {
    let orders = m.list("order");
    let pairs = (0..orders.len()).flat_map(|i| (0..orders.len()).map(move |j| (i, j)));
    let (i, j) = pairs.into_iter().find(|(i, j)| orders[*i] * orders[*j] == 2.0)?;
    let (a, b) = (&m.components[i], &m.components[j]);
    let said = format!(
        "component {} has order {} and {} has order {}; the orders 1 and 2 may not meet in one mixture",
        a.name, orders[i], b.name, orders[j]
    );
    Some(said + &place(m, &b.values[m.model.place("order")], b.line))
}

/// A refusal of a mixture's parameters.
pub fn of_parameters(m: &Mixture, refusal: Refusal) -> String {
    let found = match refusal {
        Refusal::Length => Some(format!("{} components; the limit is 1 to {} ({})", m.components.len(), domthelv_sys::sizes::SIDE, m.file)),
        Refusal::Limit => mixture_outside(m),
        Refusal::SegmentNumber => component_of(m, "m", |x| x == 1.0, "exactly 1 in the quantum model"),
        Refusal::Order => component_of(m, "order", |x| x <= 2.0, "0, 1 or 2"),
        Refusal::MixedOrders => mixed(m),
        _ => None,
    };
    let general = || format!("{}: {} ({})", Stage::Parameters.said(), meaning(refusal), m.file);
    format!("refused ({}): {}", refusal.number(), found.unwrap_or_else(general))
}
