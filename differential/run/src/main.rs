//! The port beside the Rust, bit for bit. Options: --count N (cases), --seed S, --only CASE, --fuzz N (cases), --exact N (cases),
//! --desk N (desks), --spread, --vectors FOLDER, --ends-vectors FOLDER.
#[cfg(feature = "unproved")]
extern crate unproved;

#[rustfmt::skip] // calls of many arguments
mod calls;
mod cards;
mod compare;
mod desk;
mod elementary;
mod ends_vectors;
mod exact;
mod fuzz;
mod lent;
mod oracle;
mod orders;
mod port;
mod random;
mod selfcheck;
#[allow(dead_code)]
#[path = "../../../domthelv-sys/src/sizes.rs"]
mod sizes;
mod slopes;
mod spread;
mod states;
mod tally;
mod tank;
mod vectors;

use std::time::Instant;
use tally::Tally;

fn option(name: &str) -> Option<u64> {
    let words: Vec<String> = std::env::args().collect();
    let at = words.iter().position(|w| w == name)?;
    Some(words.get(at + 1).and_then(|w| w.parse().ok()).unwrap_or_else(|| panic!("{name} wants a number")))
}

fn main() {
    let (count, seed) = (option("--count").unwrap_or(10000), option("--seed").unwrap_or(1));
    if std::env::args().any(|w| w == "--spread") {
        return spread::run(count, seed);
    }
    if let Some(at) = std::env::args().position(|w| w == "--vectors") {
        return vectors::write(&std::env::args().nth(at + 1).expect("--vectors wants a folder"));
    }
    if let Some(at) = std::env::args().position(|w| w == "--ends-vectors") {
        return ends_vectors::write(&std::env::args().nth(at + 1).expect("--ends-vectors wants a folder"));
    }
    let lacking: Vec<&str> = port::ALL.iter().filter(|f| !f.1).map(|f| f.0).collect();
    if !lacking.is_empty() {
        println!("not in the library yet: {}", lacking.join(", "));
    }
    let mut tally = Tally::default();
    let mut part = |name: &str, f: &mut dyn FnMut(&mut Tally)| {
        let start = Instant::now();
        f(&mut tally);
        println!("{name}: {:.1} s", start.elapsed().as_secs_f64());
    };
    part("oracle on itself", &mut |t| {
        selfcheck::known_values(t);
        selfcheck::payloads(t);
        selfcheck::texts(count / 4, seed, t);
        selfcheck::slopes(count / 4, seed, t);
    });
    part("elementary functions", &mut |t| elementary::run(50 * count, seed, t));
    part("operations", &mut |t| compare::run(count, seed, option("--only"), t));
    part("order lists", &mut |t| orders::run(seed, t));
    part("slopes", &mut |t| slopes::run(count / 2, seed, t));
    part("tanks", &mut |t| tank::run(count / 4, seed, t));
    part("fuel cards", &mut |t| cards::run(count / 2, seed, t));
    part("desks", &mut |t| desk::run(option("--desk").unwrap_or(count / 100), seed, t));
    part("exact run", &mut |t| exact::run(option("--exact").unwrap_or(count / 100), seed, t));
    part("arbitrary bits", &mut |t| fuzz::run(option("--fuzz").unwrap_or(count / 4), seed, t));
    tally.print("answers met");
    println!("{} passed, {} failed", tally.passed, tally.failed);
    std::process::exit((tally.failed > 0) as i32);
}
