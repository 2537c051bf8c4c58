//! Rows of cells under columns, and how they are written piece by piece: as a table or as JSON.
use crate::output::{json, table};

#[derive(Debug, Clone, PartialEq)]
pub struct Column {
    /// One word, for JSON.
    pub key: String,
    pub label: String,
    pub unit: &'static str,
}

#[derive(Debug, Clone, PartialEq)]
pub enum Cell {
    Number(f64),
    Text(String),
    Nothing,
}

#[derive(Debug, Clone, Copy, PartialEq, Eq)]
pub enum Format {
    Table,
    Json,
}

/// What stands above the rows.
#[derive(Debug, Clone, PartialEq)]
pub struct Head {
    pub command: &'static str,
    pub model: &'static str,
    pub fluid: Vec<String>,
    pub file: String,
    pub columns: Vec<Column>,
    /// How many rows are meant: a single one is written down the page.
    pub rows: usize,
}

/// How the rows ended.
#[derive(Debug, Clone, Copy, PartialEq, Eq, Default)]
pub struct Ending {
    pub worked: usize,
    pub refused: usize,
    pub stopped: bool,
}

pub fn column(key: impl Into<String>, label: impl Into<String>, unit: &'static str) -> Column {
    Column { key: key.into(), label: label.into(), unit }
}

impl Format {
    pub fn head(self, head: &Head) -> String {
        match self {
            Format::Table => table::head(head),
            Format::Json => json::head(head),
        }
    }
    /// A row; `at` is 0 for the first.
    pub fn row(self, head: &Head, at: usize, cells: &[Cell]) -> String {
        match self {
            Format::Table if head.rows == 1 => table::down(&head.columns, cells),
            Format::Table => table::row(&head.columns, cells),
            Format::Json => json::row(&head.columns, at, cells),
        }
    }
    pub fn tail(self, ending: &Ending, of: usize) -> String {
        match self {
            Format::Table => table::tail(ending, of),
            Format::Json => json::tail(ending, of),
        }
    }
}
