//! The rows of a run so far, in a file beside the wanted one: a run that was stopped goes on from there.
use crate::input::file::said;
use crate::input::numbers;
use crate::output::sheet::Cell;
use crate::trouble::Trouble;
use std::fs::{File, OpenOptions};
use std::io::{BufWriter, Read, Write};
use std::path::{Path, PathBuf};

/// So many rows are written at a time.
const TOGETHER: usize = 64;

pub struct Journal {
    pub path: PathBuf,
    file: BufWriter<File>,
    waiting: usize,
}

/// A number that tells runs apart: FNV-1a over all that the rows hang on.
pub fn mark(parts: &[&str]) -> u64 {
    let each = |h: u64, b: u8| (h ^ b as u64).wrapping_mul(0x100_0000_01b3);
    parts.iter().fold(0xcbf2_9ce4_8422_2325, |h, part| each(part.bytes().fold(h, each), 0))
}

fn as_text(cell: &Cell) -> String {
    match cell {
        Cell::Number(x) => numbers::written(*x),
        Cell::Nothing => "-".into(),
        Cell::Text(s) => format!("'{}", s.replace(['\t', '\n'], " ")),
    }
}

fn as_cell(text: &str) -> Option<Cell> {
    match text.strip_prefix('\'') {
        Some(s) => Some(Cell::Text(s.into())),
        None if text == "-" => Some(Cell::Nothing),
        None => numbers::number(text).ok().map(Cell::Number),
    }
}

/// The rows of a journal of this heading, and how many bytes they take; a torn last line is left out. None where the heading is another.
fn rows(text: &str, heading: &str) -> Option<(Vec<Vec<Cell>>, usize)> {
    let mut taken = heading.len();
    let mut held = vec![];
    for line in text.strip_prefix(heading)?.split_inclusive('\n').take_while(|line| line.ends_with('\n')) {
        held.push(line.trim_end_matches('\n').split('\t').map(as_cell).collect::<Option<Vec<_>>>()?);
        taken += line.len();
    }
    Some((held, taken))
}

impl Journal {
    /// Opens a journal, and gives the rows that it holds. One of another run is left alone, and is trouble.
    pub fn open(path: &Path, mark: u64, keys: &[String]) -> Result<(Journal, Vec<Vec<Cell>>), Trouble> {
        let failed = |e: std::io::Error| Trouble::file(path, said(&e));
        let heading = format!("domthelv rows so far {mark:016x}\n{}\n", keys.join("\t"));
        let mut file = OpenOptions::new().read(true).append(true).create(true).open(path).map_err(failed)?;
        let mut text = String::new();
        file.read_to_string(&mut text).map_err(failed)?;
        let (held, taken) = if heading.starts_with(&text) { (vec![], 0) } else { rows(&text, &heading).ok_or_else(|| another(path))? };
        file.set_len(taken as u64).map_err(failed)?;
        if taken == 0 {
            file.write_all(heading.as_bytes()).map_err(failed)?;
        }
        Ok((Journal { path: path.into(), file: BufWriter::new(file), waiting: 0 }, held))
    }
    pub fn add(&mut self, cells: &[Cell]) -> Result<(), Trouble> {
        let line = cells.iter().map(as_text).collect::<Vec<_>>().join("\t");
        writeln!(self.file, "{line}").map_err(|e| Trouble::file(&self.path, said(&e)))?;
        self.waiting += 1;
        if self.waiting == TOGETHER { self.flush() } else { Ok(()) }
    }
    pub fn flush(&mut self) -> Result<(), Trouble> {
        self.waiting = 0;
        self.file.flush().map_err(|e| Trouble::file(&self.path, said(&e)))
    }
}

fn another(path: &Path) -> Trouble {
    Trouble::file(path, "holds the rows of another run: finish that one, remove the file, or give another --out")
}
