//! The marks of the pictures stand for the library's numbers, and stand where the ticks say.
mod common;
use common::{by_ticks, domthelv, elements, folder, json, number, spot, text_of};
use std::fs;

fn picture(name: &str, words: &[&str]) -> String {
    let out = folder(name).join("picture.svg");
    let done = domthelv(&[words, &["--out", text_of(&out)]].concat());
    assert_eq!((done.status, done.err.as_str()), (0, ""));
    assert!(done.out.contains(text_of(&out)));
    let svg = fs::read_to_string(&out).unwrap();
    assert!(svg.starts_with("<?xml") && svg.ends_with("</svg>\n") && !svg.contains("NaN") && !svg.contains("inf"));
    svg
}

fn near(a: f64, b: f64) -> bool {
    (a - b).abs() < 0.011
}

#[test]
fn an_isotherms_marks_are_the_energies_and_their_ends() {
    let svg = picture("isotherm", &["plot", "isotherm", "command/examples/isotherm.txt"]);
    let rows = json(&domthelv(&["ends", "command/examples/isotherm.txt", "--json"]).out);
    let marks: Vec<_> = elements(&svg, "mark").into_iter().filter(|m| m.contains_key("data-x")).collect();
    let (x, y) = (by_ticks(&svg, "x"), by_ticks(&svg, "y"));
    assert_eq!(marks.len(), 2 * rows.get("rows").list().len());
    for row in rows.get("rows").list() {
        for (key, label) in [("hard_sphere", "hard sphere"), ("dispersion", "dispersion")] {
            let series = format!("{label}, {} K", row.get("temperature").number());
            let density = row.get("density_hydrogen").number();
            let found: Vec<_> = marks.iter().filter(|m| m["data-series"] == series && number(m, "data-x") == density).collect();
            let [mark] = found[..] else { panic!("{series} at {density}: {} marks", found.len()) };
            assert_eq!(number(mark, "data-y"), row.get(key).number());
            assert_eq!(number(mark, "data-low"), row.get(&format!("{key}_low")).number());
            assert_eq!(number(mark, "data-high"), row.get(&format!("{key}_high")).number());
            let at = spot(mark);
            assert!(near(at.0, x(density)) && near(at.1, y(row.get(key).number())), "{mark:?}");
        }
    }
}

/// The corners of a polygon.
fn corners(area: &std::collections::HashMap<String, String>) -> Vec<(f64, f64)> {
    let of = |pair: &str| pair.split_once(',').map(|(x, y)| (x.parse().unwrap(), y.parse().unwrap())).unwrap();
    area["points"].split(' ').map(of).collect()
}

#[test]
fn the_magnified_band_is_as_wide_as_its_label_says() {
    let svg = picture("magnified", &["plot", "isotherm", "command/examples/isotherm.txt", "--temperature", "25"]);
    let times: Vec<f64> = elements(&svg, "magnification").iter().map(|m| number(m, "data-times")).collect();
    let marks: Vec<_> = elements(&svg, "mark").into_iter().filter(|m| m.contains_key("data-x")).collect();
    let y = by_ticks(&svg, "y");
    let areas = elements(&svg, "magnified");
    for (part, times) in times.iter().enumerate() {
        let series: Vec<_> = marks[30 * part..30 * (part + 1)].iter().collect();
        let band = corners(&areas[part]);
        assert_eq!(band.len(), 60);
        for (k, mark) in series.iter().enumerate() {
            let (value, low, high) = (number(mark, "data-y"), number(mark, "data-low"), number(mark, "data-high"));
            assert!(low <= value && value <= high);
            assert!(near(band[k].1, y(value + times * (high - value))) && near(band[59 - k].1, y(value + times * (low - value))));
        }
    }
    assert!(svg.contains("times its width"));
    let asked = picture("asked", &["plot", "isotherm", "command/examples/hydrogen.txt", "--magnify", "1000"]);
    assert!(elements(&asked, "magnification").iter().all(|m| number(m, "data-times") == 1000.0));
}

#[test]
fn the_bands_marks_are_the_ends_less_the_energy() {
    let svg = picture("band", &["plot", "band", "command/examples/isotherm.txt"]);
    for panel in svg.split("<g class=\"panel\"").skip(1).map(|p| p.split("</g>").next().unwrap()) {
        let y = by_ticks(panel, "y");
        let marks = elements(panel, "mark");
        assert_eq!(marks.len(), 180);
        for mark in marks {
            let end = if mark["data-end"] == "low" { number(&mark, "data-low") } else { number(&mark, "data-high") };
            assert!(near(spot(&mark).1, y(end - number(&mark, "data-y"))));
        }
    }
}

#[test]
fn a_tanks_marks_are_its_layers_energies() {
    let svg = picture("tank", &["plot", "tank", "command/examples/tank.txt"]);
    let tank = json(&domthelv(&["tank", "command/examples/tank.txt", "--json"]).out);
    let x = by_ticks(&svg, "x");
    let marks: Vec<_> = elements(&svg, "mark").into_iter().filter(|m| m.contains_key("data-layer")).collect();
    assert_eq!(marks.len(), 6);
    for mark in marks {
        let layer = &tank.get("layers").list()[number(&mark, "data-layer") as usize - 1];
        let value = layer.get(&mark["data-series"].replace(' ', "_")).number();
        assert!(number(&mark, "data-x") == value && near(spot(&mark).0, x(value)));
    }
}

#[test]
fn spent_searches_are_marked_and_others_are_not() {
    let svg = picture("spent", &["plot", "isotherm", "command/examples/spent.txt"]);
    let marks: Vec<_> = elements(&svg, "mark").into_iter().filter(|m| m.contains_key("data-x")).collect();
    assert!(marks.iter().all(|m| m["data-spent"].starts_with("sigma of made-up")));
    // one cross for each mark, and one in the legend
    assert_eq!(elements(&svg, "spent").len(), marks.len() + 1);
    assert!(elements(&picture("found", &["plot", "band", "command/examples/hydrogen.txt"]), "spent").is_empty());
}

#[test]
fn refused_states_leave_a_gap_and_are_told() {
    let out = folder("gap").join("picture.svg");
    let done =
        domthelv(&["plot", "isotherm", "command/examples/hydrogen.txt", "--density", "0.01 0.02 0.9 0.03 0.04", "--out", text_of(&out)]);
    assert!(done.status == 1 && done.err.contains("1 of 5 states refused, the first: refused (6)"), "{}", done.err);
    let svg = fs::read_to_string(&out).unwrap();
    assert!(svg.contains("1 of 5 states") && elements(&svg, "curve").len() == 4 + 2);
}

#[test]
fn a_picture_of_too_many_states_is_not_drawn() {
    let done = domthelv(&["plot", "isotherm", "command/examples/hydrogen.txt", "--density", "0.001 to 0.02 in 5001"]);
    assert!(done.status == 2 && done.err.contains("5001 states; the limit of a picture is 5000"));
    let done = domthelv(&["plot", "isotherm", "command/examples/hydrogen.txt", "--temperature", "20 to 30 in 9"]);
    assert!(done.status == 2 && done.err.contains("9 temperatures; the limit of a picture is 8"));
}

#[test]
fn names_of_a_file_cannot_break_the_picture() {
    let room = folder("names");
    let path = room.join("file.txt");
    let text = fs::read_to_string(common::root().join("command/examples/hydrogen.txt")).unwrap();
    fs::write(&path, text.replace("[component hydrogen]", "[component <b>&\"x]")).unwrap();
    let out = room.join("picture.svg");
    assert_eq!(domthelv(&["plot", "isotherm", text_of(&path), "--out", text_of(&out)]).status, 0);
    let svg = fs::read_to_string(&out).unwrap();
    assert!(svg.contains("&lt;b&gt;&amp;&quot;x") && !svg.contains("<b>"));
}
