//! `tank`: each layer's energies, and the tank's with their two ends, in kelvin.
use crate::args::Args;
use crate::commands::energy::{format, spent_cell};
use crate::commands::subject::{Subject, of_mixture, read};
use crate::input::mixture::mixture;
use crate::input::tank::{Layer, Layers, layers};
use crate::model::{MOST_LAYERS, MOST_VOLUME, Model, with_unit};
use crate::output::sheet::{Cell, Column, Format, Head, column};
use crate::output::{json, table, whole};
use crate::refused::{self, Refused};
use crate::set::Set;
use crate::trouble::Trouble;
use crate::worker::{Part, Worker};
use domthelv_sys::Refusal;
use domthelv_sys::safe::{self, Energies, EnergiesEnds, QuantumSet};
use std::path::Path;

pub struct Tank {
    pub subject: Subject,
    pub layers: Layers,
}

/// What was worked of a tank.
pub struct Worked {
    pub energies: Energies,
    pub ends: EnergiesEnds,
    /// Each layer's contributions at its own state, with their two ends, per cubic ångström.
    pub parts: Vec<Vec<Part>>,
    pub spent: Vec<Cell>,
}

pub fn tank(path: &Path) -> Result<Tank, Trouble> {
    let d = read(path)?;
    let m = mixture(&d, &["layer", "tank"])?;
    if m.model != Model::Quantum {
        return Err(d.trouble(1, "a tank is worked in the quantum model: model = quantum"));
    }
    let layers = layers(&d, m.components.len())?;
    Ok(Tank { subject: of_mixture(m, vec![])?, layers })
}

/// The lists of all layers, as the library takes them.
struct Lists {
    temperatures: Vec<f64>,
    fractions: Vec<f64>,
    densities: Vec<f64>,
    volumes: Vec<f64>,
}

impl Tank {
    pub fn set(&self) -> Option<&QuantumSet> {
        if let Set::Quantum(set) = &self.subject.set { Some(set) } else { None }
    }
    fn lists(&self) -> Lists {
        let all = &self.layers.layers;
        Lists {
            temperatures: all.iter().map(|l| l.state.temperature).collect(),
            fractions: all.iter().flat_map(|l| l.state.fractions.clone()).collect(),
            densities: all.iter().flat_map(|l| l.state.densities.clone()).collect(),
            volumes: all.iter().map(|l| l.volume.value).collect(),
        }
    }
    fn worker(&self) -> Worker {
        Worker::new(self.subject.set.clone(), self.layers.non_additive)
    }
    pub fn work(&self) -> Result<Worked, Trouble> {
        let Some(set) = self.set() else { return Err(Trouble::words("a tank is worked in the quantum model")) };
        let l = self.lists();
        let lent = safe::Layers { temperatures: &l.temperatures, fractions: &l.fractions, densities: &l.densities, volumes: &l.volumes };
        let energies = set.tank(&lent, self.layers.non_additive).map_err(|r| self.refused(r))?;
        let ends = set.tank_ends(&lent, self.layers.non_additive).map_err(|r| self.refused(r))?;
        let mut worker = self.worker();
        let parts = self.layers.layers.iter().map(|l| worker.parts(&l.state, true).map_err(|r| self.of_layer(&r, l)));
        let parts = parts.collect::<Result<Vec<_>, _>>()?;
        let spent = self.layers.layers.iter().map(|l| spent_cell(&worker.spent(l.state.temperature), &self.subject.names)).collect();
        Ok(Worked { energies, ends, parts, spent })
    }
    fn of_layer(&self, r: &Refused, layer: &Layer) -> Trouble {
        let at = 1 + self.layers.layers.iter().position(|l| l.line == layer.line).unwrap_or_default();
        let place = |line: usize| format!("line {}", if line == 0 { layer.line } else { line });
        let said = r.sentence(&layer.state, &self.subject.names, &layer.lines.map(place));
        Trouble::refused(format!("{said} (layer {at} from the bottom, {}, line {})", self.subject.mixture.file, layer.line))
    }
    /// The sentence of the tank's refusal: the count of layers, or the first layer that is refused for itself.
    fn refused(&self, refusal: Refusal) -> Trouble {
        let (number, file) = (refusal.number(), &self.subject.mixture.file);
        if refusal == Refusal::Layers {
            let count = self.layers.layers.len();
            return Trouble::refused(format!("refused ({number}): {count} layers; the limit is 1 to {MOST_LAYERS} ({file})"));
        }
        let mut worker = self.worker();
        for (at, layer) in self.layers.layers.iter().enumerate() {
            let volume = layer.volume.value;
            if refusal == Refusal::Limit
                && refused::state_outside(&layer.state, &self.subject.names).is_none()
                && !(0.0 < volume && volume <= MOST_VOLUME)
            {
                let (given, limit) = (with_unit(volume, "Å³"), with_unit(MOST_VOLUME, "Å³"));
                let place = format!("layer {} from the bottom, {file}, line {}", at + 1, layer.volume.line);
                return Trouble::refused(format!("refused ({number}): volume is {given}; the limit is above 0, to {limit} ({place})"));
            }
            if let Err(r) = worker.parts(&layer.state, refusal == Refusal::NoEnds)
                && r.refusal == refusal
            {
                return self.of_layer(&r, layer);
            }
        }
        Trouble::refused(format!("refused ({number}): in the sums of the tank: {} ({file})", refused::meaning(refusal)))
    }
}

fn layer_columns(tank: &Tank, labels: &[(&str, &str)]) -> Vec<Column> {
    let mut columns = vec![column("layer", "layer", "")];
    columns.extend(crate::sweep::state_columns(&tank.subject.names));
    columns.push(column("volume", "volume", "Å³"));
    columns.extend(labels.iter().map(|(key, label)| column(*key, *label, "1/Å³")));
    columns.push(column("spent", "spent searches", ""));
    columns
}

fn layer_cells(at: usize, l: &Layer, parts: &[Part], spent: &Cell) -> Vec<Cell> {
    let fractions: &[f64] = if l.state.densities.len() > 1 { &l.state.fractions } else { &[] };
    let numbers = [&[(at + 1) as f64, l.state.temperature], &l.state.densities[..], fractions, &[l.volume.value]].concat();
    let mut cells: Vec<Cell> = numbers.into_iter().map(Cell::Number).collect();
    cells.extend(parts.iter().map(|p| Cell::Number(p.value)));
    cells.push(spent.clone());
    cells
}

/// The tank's contributions: value, low end, high end, width.
fn tank_rows(worked: &Worked, non_additive: bool) -> Vec<(&'static str, [f64; 4])> {
    let row = |x: f64, e: safe::Ends| [x, e.low, e.high, e.high - e.low];
    let (e, b) = (&worked.energies, &worked.ends);
    let mut rows = vec![("hard_sphere", row(e.hard_sphere, b.hard_sphere)), ("dispersion", row(e.dispersion, b.dispersion))];
    if non_additive {
        rows.push(("non_additive", row(e.non_additive, b.non_additive)));
    }
    rows
}

fn tank_columns() -> Vec<Column> {
    let mut columns = vec![column("part", "tank", "")];
    columns.extend(
        [("value", "energy"), ("low", "low end"), ("high", "high end"), ("width", "width")].map(|(key, label)| column(key, label, "K")),
    );
    columns
}

/// The whole report as a text.
fn report(tank: &Tank, worked: &Worked, format: Format) -> String {
    let labels = tank.worker().labels();
    let columns = layer_columns(tank, &labels);
    let layers = tank.layers.layers.iter().enumerate().map(|(at, l)| layer_cells(at, l, &worked.parts[at], &worked.spent[at]));
    let totals = tank_rows(worked, tank.layers.non_additive);
    let sums = totals.iter().map(|(key, row)| [&[Cell::Text(key.replace('_', " "))], &row.map(Cell::Number)[..]].concat());
    let head = Head { rows: tank.layers.layers.len() + 1, columns: columns.clone(), ..tank.subject.head("tank") };
    if format == Format::Json {
        let layers: Vec<String> = layers.map(|cells| format!("\n    {}", json::object(&columns, &cells))).collect();
        let sums: Vec<String> = sums.map(|cells| format!("\n    {}", json::object(&tank_columns(), &cells))).collect();
        return format!(
            "{}  \"layers\": [{}\n  ],\n  \"tank\": [{}\n  ],\n  \"tank_unit\": \"K\"\n}}\n",
            json::opening(&head),
            layers.join(","),
            sums.join(",")
        );
    }
    let mut out = table::head(&head);
    layers.for_each(|cells| out += &table::row(&columns, &cells));
    out += "\n";
    out += &table::titles(&tank_columns());
    sums.for_each(|cells| out += &table::row(&tank_columns(), &cells));
    out
}

pub fn run(args: &Args) -> Result<(), Trouble> {
    args.only("tank", &["json", "out"])?;
    let Some(path) = args.file("tank", 1)? else { return Err(Trouble::words("tank wants a file: see 'domthelv tank --help'")) };
    let tank = tank(&path)?;
    let text = report(&tank, &tank.work()?, format(args));
    match args.path("out") {
        Some(out) => whole::write(&out, text.as_bytes()),
        None => whole::show(&text),
    }
}
