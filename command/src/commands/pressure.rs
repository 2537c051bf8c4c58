//! `pressure` and `saturation`: from the slopes of the quantum energies.
use crate::args::Args;
use crate::commands::energy::{format, stop_after};
use crate::commands::subject::{OPTIONS, Subject, subject};
use crate::input::grid::{Grid, State};
use crate::output::sheet::{Cell, Column, Ending, Head, column};
use crate::output::whole;
use crate::refused::Refused;
use crate::saturation::{self, Without};
use crate::set::Set;
use crate::sweep::{Sweep, Work};
use crate::thermo;
use crate::trouble::Trouble;
use domthelv_sys::safe::QuantumSet;

/// Fractions may differ from the densities' shares by so much.
const NEAR: f64 = 1e-9;

struct Pressure {
    set: QuantumSet,
    names: Vec<String>,
    wanted: bool,
}

impl Work for Pressure {
    fn columns(&self) -> Vec<Column> {
        let mut columns = vec![column("pressure", "pressure", "Pa"), column("compressibility", "compressibility factor", "")];
        columns.extend(
            self.names.iter().map(|n| column(format!("potential_{n}"), format!("residual chemical potential of {n} over k T"), "")),
        );
        columns
    }
    fn cells(&mut self, s: &State) -> Result<Vec<Cell>, Refused> {
        let worked = thermo::at(&self.set, s, self.wanted)?;
        let numbers = [&[worked.pascals(s), worked.factor(s)], &worked.potentials[..]].concat();
        Ok(numbers.into_iter().map(Cell::Number).collect())
    }
}

/// The quantum set of a subject; SAFT-VR Mie's energies lack the hard spheres, and give no pressure.
pub fn quantum(subject: &Subject, command: &str) -> Result<QuantumSet, Trouble> {
    match &subject.set {
        Set::Quantum(set) => Ok(set.clone()),
        Set::Mie(_) => Err(Trouble::words(format!(
            "{}: {command} is of the quantum model: the library has no hard-sphere part of SAFT-VR Mie",
            subject.mixture.file
        ))),
    }
}

/// That the fractions are the densities' shares: their slopes follow from the densities.
pub fn shared(grid: &Grid) -> Result<(), Trouble> {
    let s = grid.state(0);
    let total: f64 = s.densities.iter().sum();
    let off = |(x, d): (&f64, &f64)| (x - d / total).abs() > NEAR;
    if grid.is_empty() || total.is_nan() || total <= 0.0 || !s.fractions.iter().zip(&s.densities).any(off) {
        return Ok(());
    }
    Err(Trouble::words(format!("{}: for a pressure the fractions are each density over their sum", grid.places[2])))
}

pub fn run(args: &Args) -> Result<(), Trouble> {
    args.only("pressure", &[&OPTIONS[..], &["out", "stop-after"]].concat())?;
    let subject = subject(args, "pressure", 1)?;
    let set = quantum(&subject, "a pressure")?;
    let grid = subject.grid(args)?;
    shared(&grid)?;
    let sweep = Sweep {
        grid: &grid,
        names: &subject.names,
        subject: format!("{:?}", subject.set),
        format: format(args),
        out: args.path("out"),
        stop_after: stop_after(args)?,
    };
    sweep.run(subject.head("pressure"), &mut Pressure { set, names: subject.names.clone(), wanted: grid.wanted })
}

fn saturation_columns() -> Vec<Column> {
    vec![
        column("temperature", "temperature", "K"),
        column("pressure", "saturation pressure", "Pa"),
        column("vapour", "density of the vapour", "1/Å³"),
        column("liquid", "density of the liquid", "1/Å³"),
        column("liquid_mass", "density of the liquid", "kg/m³"),
        column("pressure_left", "pressures' relative difference", ""),
        column("potential_left", "potentials' difference over k T", ""),
        column("steps", "steps", ""),
        column("without", "no balance", ""),
    ]
}

fn saturation_cells(subject: &Subject, set: &QuantumSet, temperature: f64, place: &str) -> Vec<Cell> {
    let mass = subject.mixture.list("mass").first().copied().unwrap_or_default();
    let mut cells = vec![Cell::Number(temperature)];
    match saturation::saturation(set, temperature) {
        Ok(s) => {
            let numbers = [s.pressure, s.vapour, s.liquid, s.liquid * mass * 1e30, s.pressure_left, s.potential_left, s.steps as f64];
            cells.extend(numbers.map(Cell::Number));
            cells.push(Cell::Nothing);
        }
        Err(without) => {
            cells.extend(vec![Cell::Nothing; 7]);
            cells.push(Cell::Text(match without {
                Without::Refused(r, state) => r.sentence(&state, &subject.names, &[place.into(), place.into(), place.into()]),
                Without::OnePhase => "the pressure rises with the density throughout: there is one phase".into(),
                Without::Steps => "the steps did not end".into(),
            }));
        }
    }
    cells
}

pub fn run_saturation(args: &Args) -> Result<(), Trouble> {
    args.only("saturation", &["card", "fluid", "temperature", "json", "out"])?;
    let subject = subject(args, "saturation", 1)?;
    let set = quantum(&subject, "a saturation")?;
    if set.count != 1 {
        return Err(Trouble::words(format!("{}: {} components; a saturation is of one", subject.mixture.file, set.count)));
    }
    let (temperatures, place) = subject.temperatures(args)?;
    let head = Head { columns: saturation_columns(), rows: temperatures.len(), ..subject.head("saturation") };
    let rows: Vec<Vec<Cell>> = temperatures.iter().map(|t| saturation_cells(&subject, &set, *t, &place)).collect();
    let without = rows.iter().filter_map(|cells| if let Some(Cell::Text(why)) = cells.last() { Some(why) } else { None });
    let (refused, first) = (without.clone().count(), without.clone().next());
    let ending = Ending { worked: rows.len(), refused, stopped: false };
    let format = format(args);
    let middle: String = rows.iter().enumerate().map(|(at, cells)| format.row(&head, at, cells)).collect();
    let text = format.head(&head) + &middle + &format.tail(&ending, head.rows);
    match args.path("out") {
        Some(out) => whole::write(&out, text.as_bytes())?,
        None => whole::show(&text)?,
    }
    first
        .map_or(Ok(()), |why| Err(Trouble::refused(format!("{refused} of {} temperatures without a balance, the first: {why}", head.rows))))
}
