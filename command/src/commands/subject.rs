//! What a command works on: a set from a text file, from named fluids or from a card, and what is said of its state.
use crate::args::Args;
use crate::card;
use crate::fluids;
use crate::input::file;
use crate::input::grid::{self, Grid, Said};
use crate::input::lines::{Document, document};
use crate::input::mixture::{Mixture, mixture};
use crate::model::Model;
use crate::output::sheet::Head;
use crate::refused;
use crate::set::Set;
use crate::trouble::Trouble;
use std::path::Path;

pub struct Subject {
    pub set: Set,
    pub mixture: Mixture,
    pub names: Vec<String>,
    /// What the file's section [state] says.
    pub said: Vec<Said>,
}

/// Options that say which fluid and which state.
pub const OPTIONS: [&str; 9] = ["card", "fluid", "temperature", "density", "densities", "fractions", "non-additive", "chain", "json"];

pub fn read(path: &Path) -> Result<Document, Trouble> {
    document(&path.display().to_string(), &file::text(path)?)
}

/// The set of a mixture, or the sentence of its refusal.
pub fn of_mixture(mixture: Mixture, said: Vec<Said>) -> Result<Subject, Trouble> {
    let set = Set::of(&mixture).map_err(|r| Trouble::refused(refused::of_parameters(&mixture, r)))?;
    let names = mixture.names().into_iter().map(str::to_string).collect();
    Ok(Subject { set, mixture, names, said })
}

fn of_file(path: &Path) -> Result<Subject, Trouble> {
    let d = read(path)?;
    let mut states = d.of_kind("state");
    let said = states.next().map_or(Ok(vec![]), |s| grid::said(&d, s))?;
    if let Some(second) = states.next() {
        return Err(d.trouble(second.line, "a second [state]: there is one a file"));
    }
    of_mixture(mixture(&d, &["state"])?, said)
}

fn of_card(path: &Path) -> Result<Subject, Trouble> {
    let bytes = file::bytes(path, file::MOST_CARD)?;
    let (set, mixture) = card::read(&path.display().to_string(), &bytes)?;
    let names = mixture.names().into_iter().map(str::to_string).collect();
    Ok(Subject { set, mixture, names, said: vec![] })
}

/// A mixture of named fluids of one model, no pair values.
fn of_names(list: &str) -> Result<Subject, Trouble> {
    let mut whole: Option<Mixture> = None;
    for name in list.split(',').map(str::trim) {
        let fluid = fluids::find(name)?;
        match &mut whole {
            None => whole = Some(fluid),
            Some(held) if held.model == fluid.model => {
                held.components.extend(fluid.components);
                held.file = "fluids/".into();
            }
            Some(_) => return Err(Trouble::words("--fluid: fluids of both models are in the list, and a mixture has one model")),
        }
    }
    let mixture = whole.ok_or_else(|| Trouble::words("--fluid wants a name"))?;
    match mixture.components.len() > domthelv_sys::sizes::SIDE {
        true => Err(Trouble::refused(refused::of_parameters(&mixture, domthelv_sys::Refusal::Length))),
        false => of_mixture(mixture, vec![]),
    }
}

/// The subject of a command: a file, `--card` or `--fluid`.
pub fn subject(args: &Args, command: &str, skip: usize) -> Result<Subject, Trouble> {
    match (args.file(command, skip)?, args.path("card"), args.text("fluid")?) {
        (Some(path), None, None) => of_file(&path),
        (None, Some(card), None) => of_card(&card),
        (None, None, Some(list)) => of_names(&list),
        _ => Err(Trouble::words(format!("{command} wants one of: a file, --card CARD, --fluid NAME. See 'domthelv {command} --help'"))),
    }
}

impl Subject {
    /// The part that can be left out, as a key.
    pub fn part(&self) -> &'static str {
        match self.set.model() {
            Model::Quantum => "non-additive",
            Model::Mie => "chain",
        }
    }
    /// The temperatures alone, and where they were given.
    pub fn temperatures(&self, args: &Args) -> Result<(Vec<f64>, String), Trouble> {
        let mut said = self.said.clone();
        if let Some(value) = args.text("temperature")? {
            said.push(Said { key: "temperature".into(), value, place: "--temperature".into() });
        }
        grid::temperatures(&said, &self.mixture.file)
    }
    /// The states of the file and, over them, of the command line.
    pub fn grid(&self, args: &Args) -> Result<Grid, Trouble> {
        let mut said = self.said.clone();
        for key in grid::KEYS {
            if let Some(value) = args.text(key)? {
                // a density given on the command line goes before either in the file
                said.retain(|s| !(key.starts_with("densit") && s.key.starts_with("densit")));
                said.push(Said { key: key.into(), value, place: format!("--{key}") });
            }
        }
        let other = if self.part() == "chain" { "non-additive" } else { "chain" };
        if let Some(s) = said.iter().find(|s| s.key == other) {
            return Err(Trouble::words(format!("{}: {other} is no part of {}", s.place, self.set.model().name())));
        }
        let density: Vec<&Said> = said.iter().filter(|s| s.key.starts_with("densit")).collect();
        if let [first, second, ..] = density[..] {
            return Err(Trouble::words(format!(
                "{}: {} beside {} ({}): one of both is wanted",
                second.place, second.key, first.key, first.place
            )));
        }
        grid::grid(&said, self.set.count(), self.part(), &self.mixture.file)
    }
    pub fn head(&self, command: &'static str) -> Head {
        let (model, fluid, file) = (self.set.model().name(), self.names.clone(), self.mixture.file.clone());
        Head { command, model, fluid, file, columns: vec![], rows: 1 }
    }
}
