//! Pressure, chemical potential and saturation follow from the library's slopes.
mod common;
use common::{by_ticks, domthelv, elements, folder, json, number, spot, text_of};
use domthelv_command::thermo::PASCALS;
use std::fs;

const FILE: &str = "command/examples/hydrogen.txt";

fn rows(words: &[&str]) -> Vec<common::Json> {
    let done = domthelv(&[words, &["--json"]].concat());
    assert_eq!(done.status, 0, "{}", done.err);
    json(&done.out).get("rows").list().to_vec()
}

fn of(words: &[&str], key: &str) -> f64 {
    rows(words)[0].get(key).number()
}

#[test]
fn a_pressure_is_that_of_the_energies_differences() {
    let (h, d) = (1e-6, 0.019);
    let energy = |d: f64| of(&["energy", FILE, "--density", &d.to_string()], "residual");
    let slope = (energy(d * (1.0 + h)) - energy(d * (1.0 - h))) / (2.0 * h * d);
    let wanted = PASCALS * 25.0 * (d + d * slope - energy(d));
    let given = of(&["pressure", FILE], "pressure");
    assert!((given - wanted).abs() < 1e-5 * PASCALS * 25.0 * d, "{given} {wanted}");
    assert!((of(&["pressure", FILE], "potential_hydrogen") - slope).abs() < 1e-7);
}

#[test]
fn a_thin_gas_is_ideal() {
    assert!((of(&["pressure", FILE, "--density", "1e-8"], "compressibility") - 1.0).abs() < 1e-4);
}

#[test]
fn the_potentials_of_a_mixture_give_its_pressure() {
    let file = "command/examples/neon-hydrogen.txt";
    let row = &rows(&["pressure", file])[0];
    let energy = &rows(&["energy", file])[0];
    let moved = 0.01 * (row.get("potential_neon").number() + row.get("potential_hydrogen").number());
    let wanted = PASCALS * 30.0 * (0.02 + moved - energy.get("residual").number());
    assert!((row.get("pressure").number() - wanted).abs() < 1e-9 * wanted.abs());
    // the same mixture, twice: both densities a little higher
    let at = |f: f64| {
        let densities = format!("{0} {0}", 0.01 * f);
        of(&["energy", file, "--densities", &densities], "residual")
    };
    let slope = (at(1.0 + 1e-6) - at(1.0 - 1e-6)) / 2e-6;
    assert!((moved - slope).abs() < 1e-7, "{moved} {slope}");
}

#[test]
fn vapour_and_liquid_are_in_balance_from_18_to_28_kelvin() {
    let rows = rows(&["saturation", FILE, "--temperature", "18 to 28 in 11"]);
    for (row, next) in rows.iter().zip(&rows[1..]) {
        assert!(row.get("pressure").number() < next.get("pressure").number());
        assert!(row.get("vapour").number() < next.get("vapour").number() && row.get("liquid").number() > next.get("liquid").number());
    }
    for row in &rows {
        assert!(row.get("pressure_left").number().abs() < 1e-10 && row.get("potential_left").number().abs() < 1e-11, "{row:?}");
        let at = |key: &str| {
            let (t, d) = (row.get("temperature").number().to_string(), row.get(key).number().to_string());
            of(&["pressure", FILE, "--temperature", &t, "--density", &d], "pressure")
        };
        let p = row.get("pressure").number();
        assert!((at("vapour") / p - 1.0).abs() < 1e-10 && (at("liquid") / p - 1.0).abs() < 1e-10);
    }
}

#[test]
fn what_has_no_balance_or_no_pressure_is_told() {
    let done = domthelv(&["saturation", FILE, "--temperature", "60"]);
    assert!(done.status == 1 && done.err.contains("one phase"), "{}", done.err);
    let done = domthelv(&["pressure", "--fluid", "methane", "--temperature", "150", "--density", "0.01"]);
    assert!(done.status == 2 && done.err.contains("no hard-sphere part"), "{}", done.err);
    let done = domthelv(&["saturation", "command/examples/neon-hydrogen.txt"]);
    assert!(done.status == 2 && done.err.contains("2 components"), "{}", done.err);
    let done = domthelv(&["pressure", "command/examples/neon-hydrogen.txt", "--fractions", "0.3 0.7"]);
    assert!(done.status == 2 && done.err.contains("each density over their sum"), "{}", done.err);
    let done = domthelv(&["pressure", FILE, "--temperature", "0.5"]);
    assert!(done.status == 1 && done.err.contains("refused (2): temperature is 0.5 K"), "{}", done.err);
    assert_eq!(domthelv(&["plot", "band", FILE, "--of", "pressure"]).status, 2);
}

#[test]
fn the_marks_of_a_pressures_picture_are_the_pressures() {
    let out = folder("pressure").join("picture.svg");
    let words = ["command/examples/isotherm.txt", "--temperature", "20 25"];
    assert_eq!(domthelv(&[&["plot", "isotherm"], &words[..], &["--of", "pressure", "--out", text_of(&out)]].concat()).status, 0);
    let svg = fs::read_to_string(&out).unwrap();
    let marks: Vec<_> = elements(&svg, "mark").into_iter().filter(|m| m.contains_key("data-x")).collect();
    let rows = rows(&[&["pressure"], &words[..]].concat());
    let y = by_ticks(&svg, "y");
    assert_eq!(marks.len(), rows.len());
    for (mark, row) in marks.iter().zip(rows) {
        assert_eq!((number(mark, "data-x"), number(mark, "data-y")), (row.get("density_hydrogen").number(), row.get("pressure").number()));
        assert!((spot(mark).1 - y(number(mark, "data-y"))).abs() < 0.011 && !mark.contains_key("data-low"));
    }
    assert!(elements(&svg, "magnified").is_empty() && svg.contains("Slopes have no two ends"));
}

#[test]
fn the_page_of_validation_has_these_numbers() {
    let page = fs::read_to_string(common::root().join("docs/VALIDATION.md")).unwrap();
    for row in rows(&["saturation", FILE, "--temperature", "18 to 28 in 11"]) {
        let start = format!("| {} |", row.get("temperature").number());
        let line = page.lines().find(|line| line.starts_with(&start)).unwrap_or_else(|| panic!("no line of {start}"));
        let cells: Vec<f64> = line.split('|').filter_map(|cell| cell.trim().replace(',', "").parse().ok()).collect();
        for (cell, (key, unit)) in cells[1..5].iter().zip([("pressure", 0.01), ("vapour", 1e-9), ("liquid", 1e-9), ("liquid_mass", 1e-4)]) {
            assert!((cell - row.get(key).number()).abs() < 0.6 * unit, "{line}: {key}");
        }
    }
}
