//! The components and pairs of a text file.
use crate::fluids;
use crate::input::lines::{Document, Entry, Section, shown};
use crate::input::numbers;
use crate::model::{Model, Parameter};
use crate::trouble::Trouble;
use domthelv_sys::Refusal;
use domthelv_sys::sizes::SIDE;

/// A number with the line that gives it; 0 where none does.
#[derive(Debug, Clone, Copy, PartialEq)]
pub struct Given {
    pub value: f64,
    pub line: usize,
}

#[derive(Debug, Clone, PartialEq)]
pub struct Component {
    pub name: String,
    pub line: usize,
    /// In the order of `Model::parameters`.
    pub values: Vec<Given>,
}

#[derive(Debug, Clone, PartialEq)]
pub struct Pair {
    pub line: usize,
    pub i: usize,
    pub j: usize,
    pub values: [Given; 2],
}

#[derive(Debug, Clone, PartialEq)]
pub struct Mixture {
    pub file: String,
    pub model: Model,
    pub components: Vec<Component>,
    pub pairs: Vec<Pair>,
}

/// Keys that a file may have before its first heading.
pub const HEAD: [&str; 4] = ["model", "title", "source", "conditions"];

impl Mixture {
    pub fn names(&self) -> Vec<&str> {
        self.components.iter().map(|c| c.name.as_str()).collect()
    }
    /// The list of one of the components' numbers.
    pub fn list(&self, key: &str) -> Vec<f64> {
        let place = self.model.place(key);
        self.components.iter().map(|c| c.values[place].value).collect()
    }
    /// The list of one of the pairs' two numbers, the same at (i, j) and (j, i), +0 where no pair is given.
    pub fn pair_list(&self, which: usize) -> Vec<f64> {
        let n = self.components.len();
        let mut list = vec![0.0; n * n];
        for p in &self.pairs {
            list[n * p.i + p.j] = p.values[which].value;
            list[n * p.j + p.i] = p.values[which].value;
        }
        list
    }
}

fn model(d: &Document) -> Result<Model, Trouble> {
    let Some(entry) = d.head.get("model") else {
        return Err(d.trouble(1, "'model = quantum' or 'model = mie' is missing before the first heading"));
    };
    Model::of(&entry.value).ok_or_else(|| d.trouble(entry.line, format!("the model is quantum or mie, not {}", shown(&entry.value))))
}

/// An entry's number; an order is a whole one, which the library tests.
fn value(d: &Document, p: &Parameter, entry: &Entry) -> Result<Given, Trouble> {
    let read = if p.key == "order" { numbers::whole(&entry.value, 255).map(|n| n as f64) } else { numbers::number(&entry.value) };
    let value = read.map_err(|why| d.trouble(entry.line, format!("{}: {why}", p.key)))?;
    Ok(Given { value, line: entry.line })
}

/// A named fluid's component, where the section names one of this model.
fn named(d: &Document, model: Model, s: &Section) -> Result<Option<Component>, Trouble> {
    let Some(entry) = s.get("fluid") else { return Ok(None) };
    let fluid = fluids::find(&entry.value).map_err(|why| d.trouble(entry.line, why.sentence))?;
    if fluid.model != model {
        let (has, wanted) = (fluid.model.name(), model.name());
        return Err(d.trouble(entry.line, format!("{} is a fluid of {has}, and the file is of {wanted}", shown(&entry.value))));
    }
    Ok(fluid.components.into_iter().next())
}

fn component(d: &Document, model: Model, s: &Section) -> Result<Component, Trouble> {
    let [name] = &s.names[..] else { return Err(d.trouble(s.line, "a component has one name: [component NAME]")) };
    let mut keys: Vec<&str> = model.parameters().iter().map(|p| p.key).collect();
    keys.push("fluid");
    if let Some(e) = s.stranger(&keys) {
        return Err(d.trouble(e.line, format!("{} is none of a component's keys ({})", shown(&e.key), keys.join(", "))));
    }
    let known = named(d, model, s)?;
    let mut values = vec![];
    for (at, p) in model.parameters().iter().enumerate() {
        let default = known.as_ref().map(|k| k.values[at].value).or(p.default);
        values.push(match (s.get(p.key), default) {
            (Some(entry), _) => value(d, p, entry)?,
            (None, Some(value)) => Given { value, line: 0 },
            (None, None) => return Err(d.trouble(s.line, format!("{} of component {} is missing", p.key, shown(name)))),
        });
    }
    Ok(Component { name: name.clone(), line: s.line, values })
}

fn pair(d: &Document, m: &Mixture, s: &Section) -> Result<Pair, Trouble> {
    let [a, b] = &s.names[..] else { return Err(d.trouble(s.line, "a pair has two names: [pair NAME NAME]")) };
    let place = |name: &str| {
        let found = m.components.iter().position(|c| c.name == name);
        found.ok_or_else(|| d.trouble(s.line, format!("no component above is called {}", shown(name))))
    };
    let (i, j) = (place(a)?, place(b)?);
    if i == j {
        return Err(d.trouble(s.line, "a component makes no pair with itself"));
    }
    if let Some(old) = m.pairs.iter().find(|p| (p.i, p.j) == (i.min(j), i.max(j))) {
        return Err(d.trouble(s.line, format!("this pair stands already in line {}", old.line)));
    }
    let [first, second] = m.model.pair_parameters();
    if let Some(e) = s.stranger(&[first.key, second.key]) {
        return Err(d.trouble(e.line, format!("{} is none of a pair's keys ({}, {})", shown(&e.key), first.key, second.key)));
    }
    let read = |p: &Parameter| s.get(p.key).map_or(Ok(Given { value: 0.0, line: 0 }), |e| value(d, p, e));
    Ok(Pair { line: s.line, i: i.min(j), j: i.max(j), values: [read(first)?, read(second)?] })
}

/// The library refuses each count beyond the side with 1; no lists are made for it.
fn too_many(d: &Document, c: &Component) -> Trouble {
    let (name, number) = (shown(&c.name), Refusal::Length.number());
    Trouble::refused(format!(
        "refused ({number}): component {name} is one too many; the limit is 1 to {SIDE} components ({}, line {})",
        d.file, c.line
    ))
}

/// The mixture of a file, which may have sections of the other kinds named.
pub fn mixture(d: &Document, others: &[&str]) -> Result<Mixture, Trouble> {
    let model = model(d)?;
    if let Some(e) = d.head.stranger(&HEAD) {
        return Err(d.trouble(e.line, format!("{} stands before the first heading, where {} may stand", shown(&e.key), HEAD.join(", "))));
    }
    let mut m = Mixture { file: d.file.clone(), model, components: vec![], pairs: vec![] };
    for s in &d.sections {
        match s.kind.as_str() {
            "component" => {
                let new = component(d, model, s)?;
                if let Some(old) = m.components.iter().find(|c| c.name == new.name) {
                    return Err(d.trouble(s.line, format!("component {} stands already in line {}", shown(&new.name), old.line)));
                }
                if m.components.len() == SIDE {
                    return Err(too_many(d, &new));
                }
                m.components.push(new);
            }
            "pair" => {
                let new = pair(d, &m, s)?;
                m.pairs.push(new);
            }
            other if others.contains(&other) => {}
            other => return Err(d.trouble(s.line, format!("no section is called {} here", shown(other)))),
        }
    }
    Ok(m)
}
