//! Files that cannot be taken: each is told with its line and the reason, nothing panics, and nothing is written.
mod common;
use common::{domthelv, folder, text_of};
use std::fs;

const GOOD: &str = "model = quantum\n[component hydrogen]\nsigma = 3.0243\nepsilon_k = 26.706\nlr = 9\nla = 6\nmass = 3.3474472e-27\norder = 1\n[state]\ntemperature = 25\ndensity = 0.019\n";

/// What the command says of a file with one text in the place of another.
fn said(name: &str, from: &str, to: &str, command: &str) -> (i32, String) {
    let path = folder(name).join("file.txt");
    assert!(GOOD.contains(from), "{from}");
    fs::write(&path, GOOD.replacen(from, to, 1)).unwrap();
    let done = domthelv(&[command, text_of(&path)]);
    (done.status, done.err)
}

#[test]
fn the_good_file_is_good() {
    assert_eq!(said("good", "model", "model", "energy").0, 0);
    assert_eq!(said("carriage", "\n", "\r\n", "energy").0, 0);
}

#[test]
fn each_mistake_names_its_line_and_reason() {
    let mistakes = [
        ("model = quantum", "", "line 1", "model = quantum"),
        ("model = quantum", "model = classical", "line 1", "'classical'"),
        ("model = quantum", "modell = quantum", "line 1", "model"),
        ("[component hydrogen]", "[component]", "line 2", "one name"),
        ("[component hydrogen]", "[component a b]", "line 2", "one name"),
        ("[component hydrogen]", "[]", "line 2", "heading"),
        ("[component hydrogen]", "[komponente hydrogen]", "line 2", "'komponente'"),
        ("sigma = 3.0243\n", "", "line 2", "sigma of component 'hydrogen' is missing"),
        ("sigma = 3.0243", "sigma = 3,0243 Å", "line 3", "is not a number"),
        ("sigma = 3.0243", "sigma", "line 3", "neither a [heading] nor"),
        ("sigma = 3.0243", "sigma =", "line 3", "has no value"),
        ("sigma = 3.0243", "sigmas = 3.0243", "line 3", "'sigmas' is none of"),
        ("lr = 9", "sigma = 3", "line 5", "stands already in line 3"),
        ("order = 1", "order = 1.5", "line 8", "whole number"),
        ("order = 1", "order = -1", "line 8", "whole number"),
        ("order = 1", "order = 256", "line 8", "whole number"),
        ("[state]", "[pair hydrogen neon]\nk_ij = 0\n[state]", "line 9", "'neon'"),
        ("[state]", "[pair hydrogen hydrogen]\nk_ij = 0\n[state]", "line 9", "itself"),
        ("[state]", "[component hydrogen]\nfluid = methane\n[state]", "line 10", "SAFT-VR Mie"),
        ("[state]", "[component h]\nfluid = water\n[state]", "line 10", "'water'"),
        ("temperature = 25", "temperature = warm", "line 10", "'warm'"),
        ("temperature = 25", "temperature = 20 to 25 in 1", "line 10", "2 or more"),
        ("temperature = 25", "temperature = ,", "line 10", "number is wanted"),
        ("temperature = 25", "pressure = 25", "line 10", "'pressure'"),
        ("density = 0.019", "densities = 0.019 0.02", "line 11", "2 numbers for 1 components"),
        ("density = 0.019", "density = 0.01 to 0.02 in 2000000", "line 11", "whole number"),
        ("density = 0.019", "density = 0.019\ndensities = 0.019", "line 12", "one of both"),
        ("density = 0.019", "density = 0.019\nnon-additive = perhaps", "line 12", "neither yes nor no"),
        ("density = 0.019", "density = 0.019\nchain = yes", "line 12", "no part of SAFT-VRQ Mie"),
        ("density = 0.019", "density = 0.019\n[state]", "line 12", "second [state]"),
    ];
    for (at, (from, to, line, reason)) in mistakes.into_iter().enumerate() {
        let (status, err) = said(&format!("mistake{at}"), from, to, "energy");
        assert!(status == 2 && err.contains(&format!("file.txt, {line}:")) && err.contains(reason), "{from} -> {to}: {status}, {err}");
    }
}

#[test]
fn what_is_missing_from_the_state_is_named() {
    for (from, key) in [("temperature = 25\n", "temperature"), ("density = 0.019\n", "density")] {
        let (status, err) = said("missing", from, "", "energy");
        assert!(status == 2 && err.contains("file.txt") && err.contains(&format!("{key} is missing")), "{err}");
    }
}

#[test]
fn numbers_outside_are_refused_with_number_place_and_limit() {
    let outside = [
        ("sigma = 3.0243", "sigma = 17", "refused (2): sigma of component hydrogen is 17 Å; the limit is from 0.5 to 16 Å", "line 3"),
        ("sigma = 3.0243", "sigma = nan", "refused (2): sigma of component hydrogen is NaN Å", "line 3"),
        ("epsilon_k = 26.706", "epsilon_k = inf", "refused (2): epsilon_k of component hydrogen is inf K", "line 4"),
        ("la = 6", "la = 9", "refused (2): lr of component hydrogen is 9 and la is 9; the limit is 3 < la < lr <= 64", "line 6"),
        (
            "mass = 3.3474472e-27",
            "mass = 2.016",
            "refused (2): mass of component hydrogen is 2.016 kg; the limit is from 1e-27 to 1e-23 kg",
            "line 7",
        ),
        ("order = 1", "order = 3", "refused (4): order of component hydrogen is 3; the limit is 0, 1 or 2", "line 8"),
        ("order = 1", "m = 2\norder = 1", "refused (3): m of component hydrogen is 2; the limit is exactly 1", "line 8"),
        ("temperature = 25", "temperature = 0.5", "refused (2): temperature is 0.5 K; the limit is from 1 to 2000 K", "line 10"),
        (
            "density = 0.019",
            "density = -0.019",
            "refused (2): density of hydrogen is -0.019 1/Å³; the limit is from 0 to 1 1/Å³",
            "line 11",
        ),
        (
            "density = 0.019",
            "density = 0.019\nfractions = 1.5",
            "refused (2): fraction of hydrogen is 1.5; the limit is from 0 to 1",
            "line 12",
        ),
        ("density = 0.019", "density = 0.9", "refused (6): packing fraction", "below 1"),
        ("density = 0.019", "density = 0\nnon-additive = yes", "refused (7): in the energies at density 0", "above 0"),
    ];
    for (at, (from, to, sentence, place)) in outside.into_iter().enumerate() {
        let (status, err) = said(&format!("outside{at}"), from, to, "energy");
        assert!(status == 1 && err.contains(sentence) && err.contains(place), "{from} -> {to}: {status}, {err}");
    }
}

#[test]
fn orders_one_and_two_are_refused_with_both_names() {
    let second = "[component other]\nsigma = 3\nepsilon_k = 30\nlr = 12\nla = 6\nmass = 1e-26\norder = 2\n[state]";
    let (status, err) = said("orders", "[state]", second, "energy");
    assert!(status == 2 || status == 1, "{err}");
    let with = format!("{second}\nfractions = 0.5 0.5");
    let (status, err) = said("orders", "[state]", &with, "energy");
    assert!(
        status == 1 && err.contains("refused (5): component hydrogen has order 1 and other has order 2") && err.contains("line 15"),
        "{err}"
    );
}

#[test]
fn too_many_components_are_refused_at_the_first_too_many() {
    let more: String =
        (0..13).map(|k| format!("[component x{k}]\nsigma = 3\nepsilon_k = 30\nlr = 12\nla = 6\nmass = 1e-26\norder = 1\n")).collect();
    let (status, err) = said("many", "[state]", &format!("{more}[state]"), "energy");
    assert!(
        status == 1
            && err.contains("refused (1): component 'x11' is one too many; the limit is 1 to 12 components")
            && err.contains("line 86"),
        "{err}"
    );
    let none = folder("none").join("file.txt");
    fs::write(&none, "model = quantum\n[state]\ntemperature = 25\ndensity = 0.01\n").unwrap();
    let done = domthelv(&["energy", text_of(&none)]);
    assert!(done.status == 1 && done.err.contains("refused (1): 0 components; the limit is 1 to 12"), "{}", done.err);
}

#[test]
fn files_that_are_no_text_are_told() {
    let room = folder("no_text");
    let path = room.join("bytes.txt");
    fs::write(&path, b"model = quantum\n\n[component \xff]\n").unwrap();
    let done = domthelv(&["energy", text_of(&path)]);
    assert!(done.status == 2 && done.err.contains("bytes.txt, line 3: is not UTF-8 text"), "{}", done.err);
    fs::write(&path, vec![b'#'; (1 << 20) + 1]).unwrap();
    let done = domthelv(&["energy", text_of(&path)]);
    assert!(done.status == 2 && done.err.contains("longer than 1048576 bytes"), "{}", done.err);
    let done = domthelv(&["energy", text_of(&room)]);
    assert!(done.status == 2 && done.err.contains("is a folder"), "{}", done.err);
    let done = domthelv(&["energy", text_of(&room.join("nowhere"))]);
    assert!(done.status == 2 && done.err.contains("no such file"), "{}", done.err);
    let done = domthelv(&["energy", "/dev/zero"]);
    assert!(done.status == 2 && done.err.contains("longer than"), "{}", done.err);
    fs::write(&path, "").unwrap();
    let done = domthelv(&["energy", text_of(&path)]);
    assert!(done.status == 2 && done.err.contains("line 1"), "{}", done.err);
}

#[test]
fn a_tanks_mistakes_name_layer_line_and_limit() {
    let room = folder("tanks");
    let path = room.join("tank.txt");
    let tank = fs::read_to_string(common::root().join("command/examples/tank.txt")).unwrap();
    let of = |text: &str| {
        fs::write(&path, text).unwrap();
        let done = domthelv(&["tank", text_of(&path)]);
        (done.status, done.err)
    };
    let cases = [
        (
            "temperature = 22",
            "temperature = 2200",
            1,
            "refused (2): temperature is 2200 K; the limit is from 1 to 2000 K (line 19) (layer 2 from the bottom",
        ),
        (
            "volume = 2.5e29\n\n[layer]                 # the top",
            "volume = 0\n[layer]",
            1,
            "refused (2): volume is 0 Å³; the limit is above 0, to 1e30 Å³ (layer 2 from the bottom",
        ),
        ("density = 0.0205", "density = 0.5", 1, "refused (6): packing fraction"),
        ("density = 0.0205", "", 2, "line 18: density of this layer is missing"),
        ("volume = 2.5e29 ", "volumen = 2.5e29 ", 2, "line 16: 'volumen' is none of"),
        ("model = quantum", "model = mie", 2, "line 10"),
    ];
    for (from, to, status, sentence) in cases {
        assert!(tank.contains(from), "{from}");
        let (given, err) = of(&tank.replacen(from, to, 1));
        assert!(given == status && err.contains(sentence), "{from} -> {to}: {given} {err}");
    }
    let layer = "[layer]\ntemperature = 20\ndensity = 0.02\nvolume = 1e29\n";
    let fluid = tank.split("[layer]").next().unwrap();
    let (status, err) = of(&(fluid.to_string() + &layer.repeat(33)));
    assert!(status == 1 && err.contains("refused (14): 33 layers; the limit is 1 to 32"), "{err}");
    let (status, err) = of(fluid);
    assert!(status == 1 && err.contains("refused (14): 0 layers"), "{err}");
}

#[test]
fn words_that_cannot_be_taken_are_told() {
    let cases: [&[&str]; 12] = [
        &["energie"],
        &["energy"],
        &["energy", "a", "b"],
        &["energy", "a", "--fluid", "methane"],
        &["energy", "--temperature"],
        &["energy", "--colour", "red"],
        &["energy", "--json=yes", "x"],
        &["energy", "--fluid", "methane", "--temperature", "150", "--temperature", "160"],
        &["energy", "--fluid", "methane,", "--temperature", "150", "--density", "0.01"],
        &["tank"],
        &["plot"],
        &["card", "eat", "x"],
    ];
    for words in cases {
        let done = domthelv(words);
        assert!(done.status == 2 && done.err.starts_with("domthelv: ") && done.out.is_empty(), "{words:?}: {} {}", done.status, done.err);
    }
}

#[test]
fn help_has_an_example_of_each_command() {
    for command in ["energy", "ends", "pressure", "saturation", "tank", "card", "plot", "fluids"] {
        let done = domthelv(&[command, "--help"]);
        assert!(done.status == 0 && done.out.contains("Example\n  domthelv ") && done.out.contains(command));
        assert!(domthelv(&["--help"]).out.contains(&format!("domthelv {command}")));
    }
}
