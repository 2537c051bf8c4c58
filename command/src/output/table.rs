//! Rows as a table: across the page, or a single row down the page.
use crate::input::numbers::written;
use crate::output::sheet::{Cell, Column, Ending, Head};
use std::fmt::Write;

/// No f64 takes more characters.
const WIDTH: usize = 24;

pub fn shown(cell: &Cell) -> String {
    match cell {
        Cell::Number(x) => written(*x),
        Cell::Text(text) => text.clone(),
        Cell::Nothing => "-".into(),
    }
}

fn headed(c: &Column) -> String {
    if c.unit.is_empty() { c.label.clone() } else { format!("{} ({})", c.label, c.unit) }
}

fn width(c: &Column) -> usize {
    headed(c).chars().count().max(WIDTH)
}

/// Cells beside each other; the last has no blanks behind it.
fn line(columns: &[Column], cells: impl Iterator<Item = String>) -> String {
    let padded = columns.iter().zip(cells).map(|(c, text)| format!("{text:width$}", width = width(c)));
    let joined = padded.collect::<Vec<_>>().join("  ");
    format!("{}\n", joined.trim_end())
}

pub fn head(head: &Head) -> String {
    let mut out = format!("{}, {} ({})\n", head.fluid.join(" and "), head.model, head.file);
    if head.rows != 1 {
        out += &titles(&head.columns);
    }
    out
}

/// The line above the rows.
pub fn titles(columns: &[Column]) -> String {
    line(columns, columns.iter().map(headed))
}

pub fn row(columns: &[Column], cells: &[Cell]) -> String {
    line(columns, cells.iter().map(shown))
}

/// A row down the page; what is not there is left out.
pub fn down(columns: &[Column], cells: &[Cell]) -> String {
    let label = columns.iter().map(|c| c.label.chars().count()).max().unwrap_or_default();
    let mut out = String::new();
    for (c, cell) in columns.iter().zip(cells).filter(|(_, cell)| **cell != Cell::Nothing) {
        let (name, value) = (&c.label, format!("{} {}", shown(cell), c.unit));
        // writing to a string does not fail
        let _ = writeln!(out, "{name:label$}  {}", value.trim_end());
    }
    out
}

pub fn tail(ending: &Ending, of: usize) -> String {
    match ending {
        Ending { stopped: true, worked, .. } => format!("stopped after {worked} of {of} states\n"),
        Ending { refused, worked, .. } if *refused > 0 && of > 1 => format!("{refused} of {worked} states refused\n"),
        _ => String::new(),
    }
}
