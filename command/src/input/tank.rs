//! The layers of a tank's file, from the bottom up.
use crate::input::grid::State;
use crate::input::lines::{Document, Entry, Section, shown};
use crate::input::mixture::Given;
use crate::input::numbers;
use crate::trouble::Trouble;

#[derive(Debug, Clone, PartialEq)]
pub struct Layer {
    pub line: usize,
    pub state: State,
    pub volume: Given,
    /// The lines of temperature, densities and fractions; 0 where none is given.
    pub lines: [usize; 3],
}

#[derive(Debug, Clone, PartialEq)]
pub struct Layers {
    pub layers: Vec<Layer>,
    pub non_additive: bool,
}

const KEYS: [&str; 5] = ["temperature", "density", "densities", "fractions", "volume"];

fn list(d: &Document, e: &Entry, count: usize) -> Result<Vec<f64>, Trouble> {
    let read = numbers::list(&e.value).map_err(|why| d.trouble(e.line, format!("{}: {why}", e.key)))?;
    match read.len() == count {
        true => Ok(read),
        false => Err(d.trouble(e.line, format!("{}: {} numbers for {count} components", e.key, read.len()))),
    }
}

fn single(d: &Document, s: &Section, key: &str) -> Result<Given, Trouble> {
    let Some(e) = s.get(key) else { return Err(d.trouble(s.line, format!("{key} of this layer is missing"))) };
    let value = numbers::number(&e.value).map_err(|why| d.trouble(e.line, format!("{key}: {why}")))?;
    Ok(Given { value, line: e.line })
}

/// Densities and fractions of a layer, with their lines.
type Held = (Vec<f64>, Vec<f64>, [usize; 2]);

fn held(d: &Document, s: &Section, count: usize) -> Result<Held, Trouble> {
    let fractions = s.get("fractions").map(|e| Ok((list(d, e, count)?, e.line))).transpose()?;
    if let Some(e) = s.get("densities") {
        let densities = list(d, e, count)?;
        let sum: f64 = densities.iter().sum();
        let (shares, at) = match fractions {
            Some(given) => given,
            None if sum > 0.0 => (densities.iter().map(|x| x / sum).collect(), 0),
            None => return Err(d.trouble(e.line, "densities: their sum is not above 0, so that fractions are to be given")),
        };
        return Ok((densities, shares, [e.line, at]));
    }
    let total = single(d, s, "density")?;
    let (shares, at) = match fractions {
        Some(given) => given,
        None if count == 1 => (vec![1.0], 0),
        None => return Err(d.trouble(s.line, "fractions of this layer are missing")),
    };
    Ok((shares.iter().map(|x| x * total.value).collect(), shares, [total.line, at]))
}

fn layer(d: &Document, s: &Section, count: usize) -> Result<Layer, Trouble> {
    if let Some(e) = s.stranger(&KEYS) {
        return Err(d.trouble(e.line, format!("{} is none of a layer's keys ({})", shown(&e.key), KEYS.join(", "))));
    }
    let (temperature, volume) = (single(d, s, "temperature")?, single(d, s, "volume")?);
    let (densities, fractions, [at, from]) = held(d, s, count)?;
    let state = State { temperature: temperature.value, fractions, densities };
    Ok(Layer { line: s.line, state, volume, lines: [temperature.line, at, from] })
}

/// The layers of a file; [tank] may say `non-additive = yes`.
pub fn layers(d: &Document, count: usize) -> Result<Layers, Trouble> {
    let mut non_additive = false;
    for s in d.of_kind("tank") {
        if let Some(e) = s.stranger(&["non-additive"]) {
            return Err(d.trouble(e.line, format!("{} is no key of [tank], which has non-additive alone", shown(&e.key))));
        }
        for e in &s.entries {
            non_additive = numbers::yes(&e.value).map_err(|why| d.trouble(e.line, format!("non-additive: {why}")))?;
        }
    }
    let layers = d.of_kind("layer").map(|s| layer(d, s, count)).collect::<Result<Vec<_>, _>>()?;
    Ok(Layers { layers, non_additive })
}
