//! The numbers behind a picture: for each temperature and contribution the points over density.
use crate::commands::energy::spent_cell;
use crate::commands::subject::Subject;
use crate::input::grid::{Grid, State};
use crate::output::sheet::Cell;
use crate::plot::axis::short;
use crate::refused::Refused;
use crate::trouble::Trouble;
use crate::worker::Worker;
use domthelv_sys::safe::Ends;

/// The most states and the most temperatures of one picture.
pub const MOST_POINTS: usize = 5000;
pub const MOST_ISOTHERMS: usize = 8;

#[derive(Debug, Clone, PartialEq)]
pub struct Point {
    pub x: f64,
    pub y: f64,
    /// A pressure has none.
    pub ends: Option<Ends>,
}

impl Point {
    /// The low end, or the value where there is none.
    pub fn low(&self) -> f64 {
        self.ends.map_or(self.y, |e| e.low)
    }
    pub fn high(&self) -> f64 {
        self.ends.map_or(self.y, |e| e.high)
    }
}

/// What the y-axis shows.
#[derive(Debug, Clone, Copy, PartialEq, Eq)]
pub enum Quantity {
    Energies,
    Pressure,
}

impl Quantity {
    /// Its name and its unit.
    pub fn named(self) -> (&'static str, &'static str) {
        match self {
            Quantity::Energies => ("energy A / (V k T)", "1/Å³"),
            Quantity::Pressure => ("pressure", "Pa"),
        }
    }
}

/// One contribution at one temperature; None where a state is refused.
#[derive(Debug, Clone, PartialEq)]
pub struct Series {
    pub temperature: usize,
    pub part: usize,
    pub name: String,
    pub points: Vec<Option<Point>>,
    /// Which searches were spent at this temperature, where some were.
    pub spent: Option<String>,
}

pub struct Data {
    pub quantity: Quantity,
    pub parts: Vec<&'static str>,
    pub temperatures: Vec<String>,
    pub series: Vec<Series>,
    pub states: usize,
    pub refused: usize,
    /// The first refused state's sentence.
    pub first: Option<String>,
}

impl Data {
    pub fn points(&self) -> impl Iterator<Item = &Point> {
        self.series.iter().flat_map(|s| s.points.iter().flatten())
    }
}

fn within(grid: &Grid) -> Result<(), Trouble> {
    if grid.len() > MOST_POINTS {
        return Err(Trouble::words(format!("{}: {} states; the limit of a picture is {MOST_POINTS}", grid.places[1], grid.len())));
    }
    if grid.temperatures.len() > MOST_ISOTHERMS {
        return Err(Trouble::words(format!(
            "{}: {} temperatures; the limit of a picture is {MOST_ISOTHERMS}",
            grid.places[0],
            grid.temperatures.len()
        )));
    }
    Ok(())
}

/// The series of a temperature, without points yet.
fn begun(worker: &mut Worker, subject: &Subject, at: usize, kelvin: f64, parts: &[&'static str]) -> Vec<Series> {
    let spent = match spent_cell(&worker.spent(kelvin), &subject.names) {
        Cell::Text(text) => Some(text),
        _ => None,
    };
    let series = |(part, label): (usize, &&str)| {
        let name = format!("{label}, {}", named(kelvin));
        Series { temperature: at, part, name, points: vec![], spent: spent.clone() }
    };
    parts.iter().enumerate().map(series).collect()
}

fn named(kelvin: f64) -> String {
    format!("{} K", short(kelvin))
}

/// What is drawn at a state: the contributions with their two ends, or the pressure.
fn heights(worker: &mut Worker, quantity: Quantity, s: &State) -> Result<Vec<Point>, Refused> {
    let x = s.densities.iter().sum();
    match quantity {
        Quantity::Energies => Ok(worker.parts(s, true)?.into_iter().map(|p| Point { x, y: p.value, ends: p.ends }).collect()),
        Quantity::Pressure => Ok(vec![Point { x, y: worker.thermo(s)?.pascals(s), ends: None }]),
    }
}

/// Works all states of a picture, with their two ends.
pub fn data(subject: &Subject, grid: &Grid, quantity: Quantity) -> Result<Data, Trouble> {
    within(grid)?;
    let mut worker = Worker::new(subject.set.clone(), grid.wanted);
    let parts: Vec<&'static str> = match quantity {
        Quantity::Energies => worker.labels().into_iter().map(|(_, label)| label).collect(),
        Quantity::Pressure => vec!["pressure"],
    };
    let temperatures = grid.temperatures.iter().map(|t| named(*t)).collect();
    let mut data = Data { quantity, parts: parts.clone(), temperatures, series: vec![], states: grid.len(), refused: 0, first: None };
    for (t, kelvin) in grid.temperatures.iter().enumerate() {
        let mut series = begun(&mut worker, subject, t, *kelvin, &parts);
        for at in 0..grid.per_temperature() {
            let state = grid.state(t * grid.per_temperature() + at);
            let worked = heights(&mut worker, quantity, &state);
            if let Err(refused) = &worked {
                data.refused += 1;
                data.first.get_or_insert_with(|| refused.sentence(&state, &subject.names, &grid.places));
            }
            let list = worked.unwrap_or_default();
            series.iter_mut().enumerate().for_each(|(k, s)| s.points.push(list.get(k).cloned()));
        }
        data.series.extend(series);
    }
    if data.refused < data.states {
        return Ok(data);
    }
    Err(Trouble::refused(format!("no picture: every state is refused, the first: {}", data.first.unwrap_or_default())))
}
