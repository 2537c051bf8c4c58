//! `plot`: writes a picture and says where it is.
use crate::args::Args;
use crate::commands::pressure;
use crate::commands::subject::{OPTIONS, Subject, subject};
use crate::commands::tank;
use crate::input::grid::Grid;
use crate::input::lines::shown;
use crate::input::numbers;
use crate::output::whole;
use crate::plot;
use crate::plot::series::Quantity;
use crate::trouble::Trouble;
use std::path::PathBuf;

const KINDS: [&str; 3] = ["isotherm", "band", "tank"];

fn magnify(args: &Args) -> Result<Option<f64>, Trouble> {
    let Some(text) = args.text("magnify")? else { return Ok(None) };
    let times = numbers::number(&text).ok().filter(|x| x.is_finite() && *x > 0.0);
    times.map(Some).ok_or_else(|| Trouble::words("--magnify wants a number above 0"))
}

/// Words with a capital at their head.
fn headline(names: &[String]) -> String {
    let joined = names.join(" and ");
    let mut letters = joined.chars();
    letters.next().map(|c| c.to_uppercase().collect::<String>() + letters.as_str()).unwrap_or_default()
}

fn under(subject: &Subject, grid: &Grid) -> String {
    let fractions: Vec<String> = grid.fractions.iter().map(|x| plot::axis::short(*x)).collect();
    let mixed = if subject.names.len() > 1 { format!(", fractions {}", fractions.join(", ")) } else { String::new() };
    format!("{}{mixed}; {}", subject.set.model().name(), subject.mixture.file)
}

/// What is drawn over density: `--of energies`, which is meant where it is left out, or `--of pressure`.
fn quantity(args: &Args, kind: &str) -> Result<Quantity, Trouble> {
    match (args.text("of")?.as_deref(), kind) {
        (None | Some("energies"), _) => Ok(Quantity::Energies),
        (Some("pressure"), "isotherm") => Ok(Quantity::Pressure),
        (Some("pressure"), _) => Err(Trouble::words("--of pressure is for an isotherm: slopes have no two ends")),
        (Some(other), _) => Err(Trouble::words(format!("--of wants energies or pressure, not {}", shown(other)))),
    }
}

fn over_density(args: &Args, kind: &str) -> Result<(String, Option<Trouble>), Trouble> {
    args.only("plot", &[&OPTIONS[..8], &["out", "magnify", "of"]].concat())?;
    let subject = subject(args, "plot", 2)?;
    let grid = subject.grid(args)?;
    let quantity = quantity(args, kind)?;
    if quantity == Quantity::Pressure {
        pressure::quantum(&subject, "a pressure")?;
        pressure::shared(&grid)?;
    }
    let data = plot::series::data(&subject, &grid, quantity)?;
    let below = under(&subject, &grid);
    let some =
        data.first.clone().map(|first| Trouble::refused(format!("{} of {} states refused, the first: {first}", data.refused, data.states)));
    let picture = match kind {
        "band" => plot::band::draw((&format!("{}: the two ends beside each energy", headline(&subject.names)), &below), &data),
        _ => {
            let what = if quantity == Quantity::Pressure { "pressure" } else { "energies" };
            plot::isotherm::draw((&format!("{}: {what} over density", headline(&subject.names)), &below), &data, magnify(args)?)
        }
    };
    Ok((picture, some))
}

fn of_tank(args: &Args) -> Result<String, Trouble> {
    args.only("plot", &["out", "magnify"])?;
    let Some(path) = args.file("plot tank", 2)? else { return Err(Trouble::words("plot tank wants a file: see 'domthelv plot --help'")) };
    let held = tank::tank(&path)?;
    let worked = held.work()?;
    let title = format!("{}: a tank in {} layers", headline(&held.subject.names), held.layers.layers.len());
    let below = format!("{}; {}", held.subject.set.model().name(), held.subject.mixture.file);
    Ok(plot::tank::draw((&title, &below), &held, &worked, magnify(args)?))
}

pub fn run(args: &Args) -> Result<(), Trouble> {
    let kind = args.words.get(1).and_then(|w| w.to_str()).unwrap_or_default();
    let (picture, some) = match kind {
        "tank" => (of_tank(args)?, None),
        "isotherm" | "band" => over_density(args, kind)?,
        _ => return Err(Trouble::words(format!("plot wants one of {}: see 'domthelv plot --help'", KINDS.join(", ")))),
    };
    let out = args.path("out").unwrap_or_else(|| PathBuf::from(format!("{kind}.svg")));
    whole::write(&out, picture.as_bytes())?;
    whole::show(&format!("the picture is {}\n", out.display()))?;
    some.map_or(Ok(()), Err)
}
