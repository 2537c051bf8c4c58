//! `fluids`: the named fluids with their source and what they were fitted for.
use crate::args::Args;
use crate::fluids::{FLUIDS, file, find};
use crate::input::numbers::written;
use crate::output::json;
use crate::output::whole;
use crate::trouble::Trouble;

struct Entry {
    name: &'static str,
    model: &'static str,
    values: Vec<(&'static str, f64)>,
    source: String,
    conditions: String,
}

fn entry(name: &'static str) -> Result<Entry, Trouble> {
    let (d, m) = (file(name)?, find(name)?);
    let of = |key: &str| d.head.get(key).map(|e| e.value.clone()).unwrap_or_default();
    let values = m.components.iter().flat_map(|c| m.model.parameters().iter().zip(&c.values).map(|(p, v)| (p.key, v.value))).collect();
    Ok(Entry { name, model: m.model.name(), values, source: of("source"), conditions: of("conditions") })
}

fn as_text(e: &Entry) -> String {
    let values: Vec<String> = e.values.iter().map(|(key, x)| format!("{key} {}", written(*x))).collect();
    format!("{} ({}): {}\n  source: {}\n  fitted for: {}\n", e.name, e.model, values.join(", "), e.source, e.conditions)
}

fn as_json(e: &Entry) -> String {
    let values: String = e.values.iter().map(|(key, x)| format!("{}: {}, ", json::text(key), json::number(*x))).collect();
    let (name, model) = (json::text(e.name), json::text(e.model));
    format!(
        "  {{\"name\": {name}, \"model\": {model}, {values}\"source\": {}, \"conditions\": {}}}",
        json::text(&e.source),
        json::text(&e.conditions)
    )
}

pub fn run(args: &Args) -> Result<(), Trouble> {
    args.only("fluids", &["json"])?;
    let entries = FLUIDS.iter().map(|(name, _)| entry(name)).collect::<Result<Vec<_>, _>>()?;
    if args.has("json") {
        let rows: Vec<String> = entries.iter().map(as_json).collect();
        return whole::show(&format!("[\n{}\n]\n", rows.join(",\n")));
    }
    whole::show(&entries.iter().map(as_text).collect::<String>())
}
