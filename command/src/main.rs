//! The command `domthelv`: takes its words, and tells by its status how it went.
use std::process::ExitCode;

fn main() -> ExitCode {
    ExitCode::from(domthelv_command::run(std::env::args_os().skip(1).collect()))
}
