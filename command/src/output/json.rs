//! Rows as JSON, piece by piece.
use crate::input::numbers::written;
use crate::output::sheet::{Cell, Column, Ending, Head};

/// A text between quotation marks.
pub fn text(s: &str) -> String {
    let mut out = String::from("\"");
    for c in s.chars() {
        match c {
            '"' => out.push_str("\\\""),
            '\\' => out.push_str("\\\\"),
            c if c.is_control() => out.push_str(&format!("\\u{:04x}", c as u32)),
            c => out.push(c),
        }
    }
    out + "\""
}

/// A number; JSON has no other than finite ones, and what is not finite is a text.
pub fn number(x: f64) -> String {
    if x.is_finite() { written(x) } else { text(&written(x)) }
}

fn value(cell: &Cell) -> String {
    match cell {
        Cell::Number(x) => number(*x),
        Cell::Text(s) => text(s),
        Cell::Nothing => "null".into(),
    }
}

pub fn list(items: impl Iterator<Item = String>) -> String {
    format!("[{}]", items.collect::<Vec<_>>().join(", "))
}

/// The members of an object on one line.
pub fn object(columns: &[Column], cells: &[Cell]) -> String {
    let members = columns.iter().zip(cells).map(|(c, cell)| format!("{}: {}", text(&c.key), value(cell)));
    format!("{{{}}}", members.collect::<Vec<_>>().join(", "))
}

pub fn units(columns: &[Column]) -> String {
    let members = columns.iter().filter(|c| !c.unit.is_empty()).map(|c| format!("{}: {}", text(&c.key), text(c.unit)));
    format!("{{{}}}", members.collect::<Vec<_>>().join(", "))
}

/// The members that all commands begin with.
pub fn opening(head: &Head) -> String {
    format!(
        "{{\n  \"command\": {},\n  \"model\": {},\n  \"fluid\": {},\n  \"file\": {},\n  \"units\": {},\n",
        text(head.command),
        text(head.model),
        list(head.fluid.iter().map(|f| text(f))),
        text(&head.file),
        units(&head.columns)
    )
}

pub fn head(head: &Head) -> String {
    opening(head) + "  \"rows\": ["
}

pub fn row(columns: &[Column], at: usize, cells: &[Cell]) -> String {
    format!("{}\n    {}", if at == 0 { "" } else { "," }, object(columns, cells))
}

pub fn tail(ending: &Ending, of: usize) -> String {
    let Ending { worked, refused, stopped } = ending;
    format!("\n  ],\n  \"states\": {of},\n  \"worked\": {worked},\n  \"refused\": {refused},\n  \"stopped\": {stopped}\n}}\n")
}
