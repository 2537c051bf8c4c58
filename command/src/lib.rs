//! The command `domthelv` over the proved library: what it reads, works, writes and draws.
pub mod args;
pub mod card;
pub mod commands;
pub mod fluids;
pub mod help;
pub mod input;
pub mod journal;
pub mod model;
pub mod output;
pub mod plot;
pub mod progress;
pub mod refused;
pub mod saturation;
pub mod set;
pub mod sweep;
pub mod thermo;
pub mod trouble;
pub mod worker;

use args::Args;
use std::ffi::OsString;
use std::io::Write;
use trouble::Trouble;

pub const VERSION: &str = env!("CARGO_PKG_VERSION");

fn command(args: &Args) -> Result<(), Trouble> {
    let name = args.words.first().map(|w| w.to_string_lossy().into_owned()).unwrap_or_default();
    if args.has("help") || name.is_empty() || name == "help" {
        let of = if name == "help" { args.words.get(1).map(|w| w.to_string_lossy().into_owned()).unwrap_or_default() } else { name };
        return output::whole::show(&help::of(&of));
    }
    match name.as_str() {
        "energy" => commands::energy::run(args, "energy", false),
        "ends" => commands::energy::run(args, "ends", true),
        "pressure" => commands::pressure::run(args),
        "saturation" => commands::pressure::run_saturation(args),
        "tank" => commands::tank::run(args),
        "card" => commands::card::run(args),
        "plot" => commands::plot::run(args),
        "fluids" => commands::fluids::run(args),
        "version" => output::whole::show(&format!("domthelv {VERSION}\n")),
        other => Err(Trouble::words(format!("no command is called {}: see 'domthelv --help'", input::lines::shown(other)))),
    }
}

/// Works the words of the command line, tells trouble on the standard error, and gives the status.
pub fn run(words: Vec<OsString>) -> u8 {
    match Args::read(words).and_then(|args| command(&args)) {
        Ok(()) => trouble::DONE,
        Err(trouble) => {
            if !trouble.sentence.is_empty() {
                // where nothing can be told, the status still says it
                let _ = writeln!(std::io::stderr(), "domthelv: {trouble}");
            }
            trouble.status
        }
    }
}
