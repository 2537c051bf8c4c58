//! `card`: shows what is on a fuel card, writes one of a file, and moves one to the other form.
use crate::args::Args;
use crate::card;
use crate::commands::subject::read as document;
use crate::input::file;
use crate::input::mixture::{Mixture, mixture};
use crate::output::json;
use crate::output::sheet::{Cell, Column, Head, column};
use crate::output::{table, whole};
use crate::trouble::Trouble;
use std::path::Path;

fn component_columns(m: &Mixture) -> Vec<Column> {
    let mut columns = vec![column("component", "component", "")];
    columns.extend(m.model.parameters().iter().map(|p| column(p.key, p.key, p.unit)));
    columns
}

fn pair_columns(m: &Mixture) -> Vec<Column> {
    let mut columns = vec![column("pair", "pair", "")];
    columns.extend(m.model.pair_parameters().iter().map(|p| column(p.key, p.key, p.unit)));
    columns
}

fn component_rows(m: &Mixture) -> Vec<Vec<Cell>> {
    let row = |c: &crate::input::mixture::Component| {
        let mut cells = vec![Cell::Text(c.name.clone())];
        cells.extend(c.values.iter().map(|v| Cell::Number(v.value)));
        cells
    };
    m.components.iter().map(row).collect()
}

fn pair_rows(m: &Mixture) -> Vec<Vec<Cell>> {
    let name = |p: &crate::input::mixture::Pair| format!("{} and {}", m.components[p.i].name, m.components[p.j].name);
    m.pairs.iter().map(|p| vec![Cell::Text(name(p)), Cell::Number(p.values[0].value), Cell::Number(p.values[1].value)]).collect()
}

fn as_json(m: &Mixture, bytes: usize) -> String {
    let list = |columns: &[Column], rows: Vec<Vec<Cell>>| {
        rows.iter().map(|cells| format!("\n    {}", json::object(columns, cells))).collect::<Vec<_>>().join(",")
    };
    let head = Head {
        command: "card read",
        model: m.model.name(),
        fluid: m.components.iter().map(|c| c.name.clone()).collect(),
        file: m.file.clone(),
        columns: component_columns(m),
        rows: m.components.len(),
    };
    let (components, pairs) = (list(&head.columns, component_rows(m)), list(&pair_columns(m), pair_rows(m)));
    format!("{}  \"bytes\": {bytes},\n  \"components\": [{components}\n  ],\n  \"pairs\": [{pairs}\n  ]\n}}\n", json::opening(&head))
}

fn as_table(m: &Mixture, bytes: usize) -> String {
    let mut out = format!("{}: {bytes} bytes, {}, components: {}\n", m.file, m.model.name(), m.components.len());
    out += &table::titles(&component_columns(m));
    component_rows(m).iter().for_each(|cells| out += &table::row(&component_columns(m), cells));
    if !m.pairs.is_empty() {
        out += &format!("\n{}", table::titles(&pair_columns(m)));
        pair_rows(m).iter().for_each(|cells| out += &table::row(&pair_columns(m), cells));
    }
    out
}

fn read(args: &Args, path: &Path) -> Result<(), Trouble> {
    args.only("card", &["json", "out"])?;
    let bytes = file::bytes(path, file::MOST_CARD)?;
    let (_, m) = card::read(&path.display().to_string(), &bytes)?;
    let text = if args.has("json") { as_json(&m, bytes.len()) } else { as_table(&m, bytes.len()) };
    match args.path("out") {
        Some(out) => whole::write(&out, text.as_bytes()),
        None => whole::show(&text),
    }
}

/// Writes a card, and says how long it is.
fn put(args: &Args, bytes: &[u8]) -> Result<(), Trouble> {
    let Some(out) = args.path("out") else { return Err(Trouble::words("a card is written to a file: give --out CARD")) };
    whole::write(&out, bytes)?;
    whole::show(&format!("the card is {}, {} bytes\n", out.display(), bytes.len()))
}

fn write(args: &Args, path: &Path) -> Result<(), Trouble> {
    args.only("card", &["out"])?;
    let m = mixture(&document(path)?, &["state", "layer", "tank"])?;
    put(args, card::written(&m)?.bytes())
}

fn moved(args: &Args, path: &Path) -> Result<(), Trouble> {
    args.only("card", &["to", "out"])?;
    let to_newer = match args.text("to")?.as_deref() {
        Some("newer") => true,
        Some("older") => false,
        _ => return Err(Trouble::words("card move wants --to newer or --to older")),
    };
    let bytes = file::bytes(path, file::MOST_CARD)?;
    put(args, card::moved(&path.display().to_string(), &bytes, to_newer)?.bytes())
}

pub fn run(args: &Args) -> Result<(), Trouble> {
    let kind = args.words.get(1).and_then(|w| w.to_str()).unwrap_or_default();
    let Some(path) = args.file("card", 2)? else { return Err(Trouble::words("card wants a file: see 'domthelv card --help'")) };
    match kind {
        "read" => read(args, &path),
        "write" => write(args, &path),
        "move" => moved(args, &path),
        _ => Err(Trouble::words("card wants read, write or move: see 'domthelv card --help'")),
    }
}
