//! `energy` and `ends`: the contributions at each state, with their total or with their two ends.
use crate::args::Args;
use crate::commands::subject::{OPTIONS, subject};
use crate::input::grid::State;
use crate::input::numbers;
use crate::output::sheet::{Cell, Column, Format, column};
use crate::refused::Refused;
use crate::set::Set;
use crate::sweep::{Sweep, Work};
use crate::trouble::Trouble;
use crate::worker::{Part, Spent, Worker};

const UNIT: &str = "1/Å³";

pub struct Energy {
    pub worker: Worker,
    pub names: Vec<String>,
    pub ends: bool,
    pub wanted: bool,
}

/// Spent searches in a few words: 'sigma of hydrogen and neon'.
pub fn spent_cell(spent: &[Spent], names: &[String]) -> Cell {
    if spent.is_empty() {
        return Cell::Nothing;
    }
    let each = spent.iter().map(|s| format!("{} of {} and {}", s.search, names[s.i], names[s.j]));
    Cell::Text(each.collect::<Vec<_>>().join("; "))
}

fn ends_columns((key, label): (&str, &str)) -> [Column; 4] {
    [
        column(key, label, UNIT),
        column(format!("{key}_low"), format!("{label}, low end"), UNIT),
        column(format!("{key}_high"), format!("{label}, high end"), UNIT),
        column(format!("{key}_width"), format!("{label}, width"), UNIT),
    ]
}

fn ends_cells(p: &Part) -> [Cell; 4] {
    let end = |x: Option<f64>| x.map_or(Cell::Nothing, Cell::Number);
    let (low, high) = (p.ends.map(|e| e.low), p.ends.map(|e| e.high));
    [Cell::Number(p.value), end(low), end(high), end(p.ends.map(|e| e.high - e.low))]
}

impl Energy {
    fn is_quantum(&self) -> bool {
        matches!(self.worker.set(), Set::Quantum(_))
    }
    /// The total with its remainders: together the contributions' exact sum.
    fn total_cells(&mut self, s: &State) -> Result<Vec<Cell>, Refused> {
        let Some(total) = self.worker.total(s)? else { return Ok(vec![]) };
        let mut cells = vec![Cell::Number(total.last.sum), Cell::Number(total.first.remainder)];
        if self.wanted {
            cells.push(Cell::Number(total.last.remainder));
        }
        Ok(cells)
    }
}

impl Work for Energy {
    fn columns(&self) -> Vec<Column> {
        let labels = self.worker.labels();
        if self.ends {
            let mut columns: Vec<Column> = labels.into_iter().flat_map(ends_columns).collect();
            if self.is_quantum() {
                columns.push(column("spent", "spent searches", ""));
            }
            return columns;
        }
        let mut columns: Vec<Column> = labels.into_iter().map(|(key, label)| column(key, label, UNIT)).collect();
        if self.is_quantum() {
            columns.push(column("residual", "residual (their sum)", UNIT));
            columns.push(column("remainder", "remainder of the sum", UNIT));
            if self.wanted {
                columns.push(column("remainder_2", "remainder of the second sum", UNIT));
            }
            columns.push(column("spent", "spent searches", ""));
        }
        columns
    }
    fn cells(&mut self, s: &State) -> Result<Vec<Cell>, Refused> {
        let parts = self.worker.parts(s, self.ends)?;
        let mut cells: Vec<Cell> = match self.ends {
            true => parts.iter().flat_map(ends_cells).collect(),
            false => parts.iter().map(|p| Cell::Number(p.value)).collect(),
        };
        if !self.ends {
            cells.extend(self.total_cells(s)?);
        }
        if self.is_quantum() {
            cells.push(spent_cell(&self.worker.spent(s.temperature), &self.names));
        }
        Ok(cells)
    }
}

pub fn format(args: &Args) -> Format {
    if args.has("json") { Format::Json } else { Format::Table }
}

pub fn stop_after(args: &Args) -> Result<Option<usize>, Trouble> {
    let Some(text) = args.text("stop-after")? else { return Ok(None) };
    numbers::whole(&text, numbers::MOST_STATES).map(Some).map_err(|why| Trouble::words(format!("--stop-after: {why}")))
}

pub fn run(args: &Args, command: &'static str, ends: bool) -> Result<(), Trouble> {
    args.only(command, &[&OPTIONS[..], &["out", "stop-after"]].concat())?;
    let subject = subject(args, command, 1)?;
    let grid = subject.grid(args)?;
    let head = subject.head(command);
    let sweep = Sweep {
        grid: &grid,
        names: &subject.names,
        subject: format!("{:?}", subject.set),
        format: format(args),
        out: args.path("out"),
        stop_after: stop_after(args)?,
    };
    let worker = Worker::new(subject.set.clone(), grid.wanted);
    sweep.run(head, &mut Energy { worker, names: subject.names.clone(), ends, wanted: grid.wanted })
}
