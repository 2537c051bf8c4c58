//! A work over all states of a grid: rows as they come, or into a file that is whole at the end.
use crate::input::grid::{Grid, State};
use crate::journal::{self, Journal};
use crate::output::sheet::{Cell, Column, Ending, Format, Head, column};
use crate::output::whole;
use crate::progress::Progress;
use crate::refused::Refused;
use crate::trouble::Trouble;
use std::path::PathBuf;

/// What is worked at each state.
pub trait Work {
    fn columns(&self) -> Vec<Column>;
    fn cells(&mut self, s: &State) -> Result<Vec<Cell>, Refused>;
}

pub struct Sweep<'a> {
    pub grid: &'a Grid,
    pub names: &'a [String],
    /// All that the rows hang on beside the grid: a file of other rows is not gone on with.
    pub subject: String,
    pub format: Format,
    pub out: Option<PathBuf>,
    /// At most so many states in this run.
    pub stop_after: Option<usize>,
}

/// The columns of a state.
pub fn state_columns(names: &[String]) -> Vec<Column> {
    let mut columns = vec![column("temperature", "temperature", "K")];
    columns.extend(names.iter().map(|n| column(format!("density_{n}"), format!("density of {n}"), "1/Å³")));
    if names.len() > 1 {
        columns.extend(names.iter().map(|n| column(format!("fraction_{n}"), format!("fraction of {n}"), "")));
    }
    columns
}

fn state_cells(s: &State) -> Vec<Cell> {
    let fractions: &[f64] = if s.densities.len() > 1 { &s.fractions } else { &[] };
    [&[s.temperature], &s.densities[..], fractions].concat().into_iter().map(Cell::Number).collect()
}

impl Sweep<'_> {
    /// The head of the rows: the state, what the work gives, and why a state was refused.
    pub fn head(&self, mut head: Head, work: &dyn Work) -> Head {
        head.columns = state_columns(self.names);
        head.columns.extend(work.columns());
        head.columns.push(column("refused", "refused", ""));
        head.rows = self.grid.len();
        head
    }
    fn row(&self, work: &mut dyn Work, index: usize, empty: usize) -> Vec<Cell> {
        let state = self.grid.state(index);
        let mut cells = state_cells(&state);
        match work.cells(&state) {
            Ok(worked) => {
                cells.extend(worked);
                cells.push(Cell::Nothing);
            }
            Err(refused) => {
                cells.extend(vec![Cell::Nothing; empty]);
                cells.push(Cell::Text(refused.sentence(&state, self.names, &self.grid.places)));
            }
        }
        cells
    }
    /// Works the states from a first one on, and hands each row on; says whether it was stopped.
    fn work(
        &self,
        work: &mut dyn Work,
        first: usize,
        mut take: impl FnMut(usize, Vec<Cell>) -> Result<(), Trouble>,
    ) -> Result<bool, Trouble> {
        let (total, empty) = (self.grid.len(), work.columns().len());
        let mut progress = Progress::new(total, first);
        for index in first..total {
            if progress.is_stopped() || self.stop_after.is_some_and(|most| index - first >= most) {
                progress.clear();
                return Ok(true);
            }
            take(index, self.row(work, index, empty))?;
            progress.show(index + 1);
        }
        progress.clear();
        Ok(false)
    }
    pub fn run(&self, head: Head, work: &mut dyn Work) -> Result<(), Trouble> {
        let head = self.head(head, work);
        match &self.out {
            None => self.to_screen(&head, work),
            Some(out) => self.to_file(&head, work, out.clone()),
        }
    }
    fn to_screen(&self, head: &Head, work: &mut dyn Work) -> Result<(), Trouble> {
        let mut ending = Ending::default();
        let mut first = None;
        whole::show(&self.format.head(head))?;
        ending.stopped = self.work(work, 0, |at, cells| {
            count(&mut ending, &mut first, &cells);
            if single_refused(head, self.format, &cells) { Ok(()) } else { whole::show(&self.format.row(head, at, &cells)) }
        })?;
        whole::show(&self.format.tail(&ending, head.rows))?;
        verdict(&ending, first, head.rows, String::new())
    }
    fn to_file(&self, head: &Head, work: &mut dyn Work, out: PathBuf) -> Result<(), Trouble> {
        whole::no_folder(&out)?;
        let keys: Vec<String> = head.columns.iter().map(|c| c.key.clone()).collect();
        let mark = journal::mark(&[crate::VERSION, &format!("{head:?}"), &format!("{:?}", self.grid), &self.subject]);
        let (mut journal, mut rows) = Journal::open(&whole::beside(&out, ".part"), mark, &keys)?;
        let begun = rows.len().min(head.rows);
        let stopped = self.work(work, begun, |_, cells| {
            journal.add(&cells)?;
            rows.push(cells);
            Ok(())
        })?;
        journal.flush()?;
        let (mut ending, mut first) = (Ending { stopped, ..Ending::default() }, None);
        rows.iter().for_each(|cells| count(&mut ending, &mut first, cells));
        if stopped {
            let kept = format!("; {} keeps them, and the same command goes on from there", journal.path.display());
            return verdict(&ending, first, head.rows, kept);
        }
        let text: String = rows.iter().enumerate().map(|(at, cells)| self.format.row(head, at, cells)).collect();
        whole::write(&out, (self.format.head(head) + &text + &self.format.tail(&ending, head.rows)).as_bytes())?;
        // the rows are in the whole file now
        let _ = std::fs::remove_file(&journal.path);
        verdict(&ending, first, head.rows, String::new())
    }
}

/// A single refused state's sentence goes to the standard error alone, where a table is written.
fn single_refused(head: &Head, format: Format, cells: &[Cell]) -> bool {
    head.rows == 1 && format == Format::Table && matches!(cells.last(), Some(Cell::Text(_)))
}

fn count(ending: &mut Ending, first: &mut Option<String>, cells: &[Cell]) {
    ending.worked += 1;
    if let Some(Cell::Text(sentence)) = cells.last() {
        ending.refused += 1;
        first.get_or_insert_with(|| sentence.clone());
    }
}

/// What a run's end is to whoever called it.
fn verdict(ending: &Ending, first: Option<String>, of: usize, kept: String) -> Result<(), Trouble> {
    if ending.stopped {
        return Err(Trouble::stopped(format!("stopped after {} of {of} states{kept}", ending.worked)));
    }
    match first {
        None => Ok(()),
        Some(sentence) if of == 1 => Err(Trouble::refused(sentence)),
        Some(sentence) => Err(Trouble::refused(format!("{} of {of} states refused, the first: {sentence}", ending.refused))),
    }
}
