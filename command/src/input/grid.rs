//! The states that are asked for: each temperature with each density.
use crate::input::lines::{Document, Section, shown};
use crate::input::numbers;
use crate::trouble::Trouble;

/// Keys of a state, in a file's section [state] or, with two dashes, on the command line.
pub const KEYS: [&str; 6] = ["temperature", "density", "densities", "fractions", "non-additive", "chain"];

/// A key's text, and where it was given.
#[derive(Debug, Clone, PartialEq)]
pub struct Said {
    pub key: String,
    pub value: String,
    pub place: String,
}

#[derive(Debug, Clone, PartialEq)]
pub enum Densities {
    /// Of the whole mixture, parted by the fractions.
    Total(Vec<f64>),
    /// One for each component: a single state for each temperature.
    Each(Vec<f64>),
}

#[derive(Debug, Clone, PartialEq)]
pub struct Grid {
    pub temperatures: Vec<f64>,
    pub densities: Densities,
    pub fractions: Vec<f64>,
    /// Whether the part that can be left out is wanted: non-additive hard spheres, or the chain.
    pub wanted: bool,
    /// Where the temperature, the densities and the fractions were given.
    pub places: [String; 3],
}

#[derive(Debug, Clone, PartialEq)]
pub struct State {
    pub temperature: f64,
    pub fractions: Vec<f64>,
    pub densities: Vec<f64>,
}

impl Grid {
    pub fn per_temperature(&self) -> usize {
        match &self.densities {
            Densities::Total(list) => list.len(),
            Densities::Each(_) => 1,
        }
    }
    pub fn len(&self) -> usize {
        self.temperatures.len().saturating_mul(self.per_temperature())
    }
    pub fn is_empty(&self) -> bool {
        self.len() == 0
    }
    /// The state of an index: densities first, then temperatures.
    pub fn state(&self, index: usize) -> State {
        let (t, d) = (index / self.per_temperature(), index % self.per_temperature());
        let densities = match &self.densities {
            Densities::Each(list) => list.clone(),
            Densities::Total(list) => self.fractions.iter().map(|x| x * list[d]).collect(),
        };
        State { temperature: self.temperatures[t], fractions: self.fractions.clone(), densities }
    }
}

/// What a section says, for `grid`.
pub fn said(d: &Document, s: &Section) -> Result<Vec<Said>, Trouble> {
    if let Some(e) = s.stranger(&KEYS) {
        return Err(d.trouble(e.line, format!("{} is none of a state's keys ({})", shown(&e.key), KEYS.join(", "))));
    }
    let place = |line: usize| format!("{}, line {line}", d.file);
    Ok(s.entries.iter().map(|e| Said { key: e.key.clone(), value: e.value.clone(), place: place(e.line) }).collect())
}

struct Asked<'a>(&'a [Said]);

impl Asked<'_> {
    /// The last that was said of a key: the command line comes after the file.
    fn get(&self, key: &str) -> Option<&Said> {
        self.0.iter().rev().find(|s| s.key == key)
    }
    fn read<T>(&self, key: &str, with: impl Fn(&str) -> Result<T, String>) -> Result<Option<(T, String)>, Trouble> {
        let Some(said) = self.get(key) else { return Ok(None) };
        match with(&said.value) {
            Ok(value) => Ok(Some((value, said.place.clone()))),
            Err(why) => Err(Trouble::words(format!("{}: {key}: {why}", said.place))),
        }
    }
}

fn some(read: impl Fn(&str) -> Result<Vec<f64>, String>) -> impl Fn(&str) -> Result<Vec<f64>, String> {
    move |text| read(text).and_then(|list| if list.is_empty() { Err("a number is wanted".into()) } else { Ok(list) })
}

fn as_many(list: &[f64], count: usize, key: &str, place: &str) -> Result<(), Trouble> {
    if list.len() == count {
        return Ok(());
    }
    Err(Trouble::words(format!("{place}: {key}: {} numbers for {count} components", list.len())))
}

/// Fractions from densities where they are not given: each density over their sum.
fn shares(densities: &[f64], place: &str) -> Result<Vec<f64>, Trouble> {
    let sum: f64 = densities.iter().sum();
    if sum > 0.0 {
        return Ok(densities.iter().map(|d| d / sum).collect());
    }
    Err(Trouble::words(format!("{place}: densities: their sum is {}, so that fractions are to be given", numbers::written(sum))))
}

fn missing(whence: &str, key: &str) -> Trouble {
    Trouble::words(format!("{whence}: {key} is missing: under [state], or as --{key}"))
}

/// The temperatures alone, and where they were given.
pub fn temperatures(said: &[Said], whence: &str) -> Result<(Vec<f64>, String), Trouble> {
    Asked(said).read("temperature", some(numbers::spread))?.ok_or_else(|| missing(whence, "temperature"))
}

/// The states that a file and the command line ask for, in this order, of a mixture of so many components.
pub fn grid(said: &[Said], count: usize, part: &str, whence: &str) -> Result<Grid, Trouble> {
    let asked = Asked(said);
    let (temperatures, at) = temperatures(said, whence)?;
    let fractions = asked.read("fractions", some(numbers::list))?;
    if let Some((list, place)) = &fractions {
        as_many(list, count, "fractions", place)?;
    }
    let (densities, place, shared) = match asked.read("densities", some(numbers::list))? {
        Some((list, place)) => {
            as_many(&list, count, "densities", &place)?;
            let shared = if fractions.is_none() { Some(shares(&list, &place)?) } else { None };
            (Densities::Each(list), place, shared)
        }
        None => {
            let (list, place) = asked.read("density", some(numbers::spread))?.ok_or_else(|| missing(whence, "density"))?;
            (Densities::Total(list), place, (count == 1).then(|| vec![1.0]))
        }
    };
    let (fractions, from) = match (fractions, shared) {
        (Some(given), _) => given,
        (None, Some(shared)) => (shared, place.clone()),
        (None, None) => return Err(missing(whence, "fractions")),
    };
    let wanted = asked.read(part, numbers::yes)?.is_some_and(|(wanted, _)| wanted);
    within(Grid { temperatures, densities, fractions, wanted, places: [at, place, from] })
}

/// A grid of no more states than can be worked.
fn within(grid: Grid) -> Result<Grid, Trouble> {
    let most = numbers::MOST_STATES;
    match grid.len() > most {
        true => Err(Trouble::words(format!("{}: {} states; the limit is {most}", grid.places[1], grid.len()))),
        false => Ok(grid),
    }
}
