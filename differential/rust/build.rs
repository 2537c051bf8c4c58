//! Lays the Rust files of docs/src out as one crate: unchanged for the package `plain`, with renamed calls for `renamed`,
//! and for `ended` also with floats that carry two ends in the place of f64.
#[allow(dead_code)]
#[path = "../ends/src/fraction.rs"]
mod fraction;

use fraction::Fraction;
use std::{env, fs, path::Path};

/// Methods that f64 has itself, so that no trait can take their place; renamed, they reach the stand-in's trait.
/// `re` is among them because a search tests what it gives, and the run wants to see that.
const RENAMED: [&str; 9] = ["powf", "powi", "sqrt", "exp", "exp_m1", "ln", "ln_1p", "tanh", "re"];

/// Each file of docs/src, and its place here: two are taken in by a file of the glue that adds what stands beside them.
const FILES: [(&str, &str); 7] = [
    ("saftvrqmie/parameters.rs", "saftvrqmie/feos_parameters.rs"),
    ("saftvrqmie/eos/mod.rs", "saftvrqmie/eos/feos_mod.rs"),
    ("saftvrqmie/eos/hard_sphere.rs", "saftvrqmie/eos/hard_sphere.rs"),
    ("saftvrqmie/eos/non_additive_hs.rs", "saftvrqmie/eos/non_additive_hs.rs"),
    ("saftvrqmie/eos/dispersion.rs", "saftvrqmie/eos/dispersion.rs"),
    ("saftvrmie/parameters.rs", "saftvrmie/feos_parameters.rs"),
    ("saftvrmie/eos/dispersion.rs", "saftvrmie/eos/dispersion.rs"),
];

/// The glue: modules that docs/src lacks, and drivers over the private parts.
const GLUE: [(&str, &str); 8] = [
    ("crate.rs", "crate.rs"),
    ("hard_sphere.rs", "hard_sphere.rs"),
    ("saftvrqmie.rs", "saftvrqmie/mod.rs"),
    ("saftvrqmie_parameters.rs", "saftvrqmie/parameters.rs"),
    ("saftvrqmie_eos.rs", "saftvrqmie/eos/mod.rs"),
    ("saftvrmie.rs", "saftvrmie/mod.rs"),
    ("saftvrmie_parameters.rs", "saftvrmie/parameters.rs"),
    ("saftvrmie_eos.rs", "saftvrmie/eos/mod.rs"),
];

/// Each float literal, with a minus that stands right before it, as a point.
fn points(text: &str) -> String {
    let (mut out, mut rest, mut before) = (String::new(), text, ' ');
    while let Some(c) = rest.chars().next() {
        let skip = if rest.starts_with("//") {
            rest.find('\n').unwrap_or(rest.len())
        } else if c == '"' {
            rest[1..].find('"').map_or(rest.len(), |k| k + 2)
        } else {
            0
        };
        let digits = rest.strip_prefix('-').unwrap_or(rest);
        let token = !before.is_alphanumeric() && before != '_' && before != '.' && digits.starts_with(|c: char| c.is_ascii_digit());
        let float = if token && skip == 0 { float_length(digits) } else { 0 };
        let take = if float > 0 { rest.len() - digits.len() + float } else { skip.max(c.len_utf8()) };
        let (word, after) = rest.split_at(take);
        out.push_str(&if float > 0 { format!("f64::k({word})") } else { word.into() });
        before = word.chars().last().unwrap();
        rest = after;
    }
    out
}

/// The length of a float literal at the start of a text, 0 if a whole number, a range or nothing stands there.
fn float_length(text: &str) -> usize {
    let digits = |t: &str| t.len() - t.trim_start_matches(|c: char| c.is_ascii_digit()).len();
    let mut n = digits(text);
    let fraction = text[n..].starts_with('.') && !text[n + 1..].starts_with(|c: char| c == '.' || c.is_alphabetic());
    if fraction {
        n += 1 + digits(&text[n + 1..]);
    }
    if text[n..].starts_with('e') {
        let sign = text[n + 1..].starts_with('-') as usize;
        return n + 1 + sign + digits(&text[n + 1 + sign..]);
    }
    if fraction { n } else { 0 }
}

/// The tables of the quadrature rules, whose decimals are no points where they are no floats.
const RULES: [&str; 3] = ["const X_K21:", "const W_K21:", "const GLQ10:"];

/// A point of a rule's table with the greatest float not above its decimal and the least not below it.
fn with_neighbours(point: &str) -> String {
    let (v, q): (f64, _) = (point.parse().unwrap(), Fraction::decimal(point));
    let low = if Fraction::of(v).at_most(&q) { v } else { v.next_down() };
    let high = if q.at_most(&Fraction::of(v)) { v } else { v.next_up() };
    format!("f64::between({v:?}, {low:?}, {high:?})")
}

/// The points of each rule's table.
fn rules(mut text: String) -> String {
    for name in RULES {
        let Some(start) = text.find(name) else { continue };
        let end = start + text[start..].find("\n];").unwrap();
        let parts: Vec<&str> = text[start..end].split("f64::k(").collect();
        let table: Vec<String> = parts[1..].iter().map(|p| p.split_once(')').unwrap()).map(|(p, rest)| with_neighbours(p) + rest).collect();
        assert!(table.len() > 19, "{name} has {} points", table.len());
        text = format!("{}{}{}{}", &text[..start], parts[0], table.concat(), &text[end..]);
    }
    text
}

/// What two ends ask of the text beside points: the prefactor worked from its expression, and the radii given, not searched.
const ENDED: [(&str, &str); 6] = [
    ("std::f64::consts", "ends::consts"),
    ("q as f64", "f64::of(q)"),
    (
        "const D_QM_PREFACTOR: f64 = PLANCK * PLANCK / (TAU * TAU) / f64::k(12.0) * f64::k(1e20) / KB;",
        "fn d_qm_prefactor() -> f64 { PLANCK * PLANCK / (TAU * TAU) / f64::k(12.0) * f64::k(1e20) / KB }",
    ),
    ("* D_QM_PREFACTOR", "* d_qm_prefactor()"),
    ("let r0 = self.zero_integrand(i, j, temperature, sigma_eff);", "let r0 = D::from(ends::r0());"),
    ("let r0 = lower_integratal_limit(la, lr, c_eps_t);", "let r0 = D::from(ends::r0());"),
];

fn with_ends(text: &str, module: bool) -> String {
    let mut text = rules(points(text));
    for (old, new) in ENDED {
        text = text.replace(old, new);
    }
    if !module {
        return text;
    }
    // the import goes below what has to stand first in a file
    let first = text.lines().take_while(|l| l.starts_with("#![") || l.starts_with("//!")).count();
    let mut lines: Vec<&str> = text.lines().collect();
    lines.insert(first, "use ends::F as f64;");
    lines.join("\n") + "\n"
}

fn main() {
    let here = env::var("CARGO_MANIFEST_DIR").unwrap();
    let package = env::var("CARGO_PKG_NAME").unwrap();
    let rust = Path::new(&here).join("../../../docs/src/crates/feos/src");
    let glue = Path::new(&here).join("../glue");
    let out = Path::new(&env::var("OUT_DIR").unwrap()).join("crate");
    for folder in ["saftvrqmie/eos", "saftvrmie/eos"] {
        fs::create_dir_all(out.join(folder)).unwrap();
    }
    for (from, to) in FILES {
        let mut text = fs::read_to_string(rust.join(from)).unwrap();
        if package != "plain" {
            for name in RENAMED {
                text = text.replace(&format!(".{name}("), &format!(".port_{name}("));
            }
        }
        if package == "ended" {
            text = with_ends(&text, !to.contains("feos_"));
        }
        if from == "saftvrqmie/eos/dispersion.rs" {
            // the file ends in an attribute whose item, the tests, was cut off
            text.push_str("\nmod tests {}\n");
        }
        fs::write(out.join(to), text).unwrap();
        println!("cargo::rerun-if-changed={}", rust.join(from).display());
    }
    for (from, to) in GLUE {
        let text = fs::read_to_string(glue.join(from)).unwrap();
        let text = if package == "ended" && (text.contains("f64") || text.contains("include!")) { with_ends(&text, true) } else { text };
        fs::write(out.join(to), text).unwrap();
        println!("cargo::rerun-if-changed={}", glue.join(from).display());
    }
}
