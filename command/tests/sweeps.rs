//! Long runs: stopped and gone on with, they give the same file; files are whole or not there.
mod common;
use common::{domthelv, folder, json, text_of};
use std::fs;
use std::process::{Command, Stdio};

const FILE: &str = "command/examples/hydrogen.txt";

fn words<'a>(out: &'a str, density: &'a str) -> Vec<&'a str> {
    vec!["ends", FILE, "--temperature", "20 to 30 in 3", "--density", density, "--out", out]
}

#[test]
fn a_run_that_was_stopped_goes_on_and_gives_the_same_file() {
    let room = folder("stopped");
    let (whole, parts) = (room.join("whole.txt"), room.join("parts.txt"));
    let density = "0.001 to 0.02 in 40";
    assert_eq!(domthelv(&words(text_of(&whole), density)).status, 0);
    let stopped = domthelv(&[words(text_of(&parts), density), vec!["--stop-after", "50"]].concat());
    assert!(
        stopped.status == 3 && stopped.err.contains("stopped after 50 of 120 states") && stopped.err.contains("parts.txt.part"),
        "{}",
        stopped.err
    );
    assert!(!parts.exists());
    let kept = fs::read_to_string(room.join("parts.txt.part")).unwrap();
    assert_eq!(kept.lines().count(), 52);
    // a torn last line, as a power cut leaves it, is worked again
    fs::write(room.join("parts.txt.part"), &kept[..kept.len() - 10]).unwrap();
    assert_eq!(domthelv(&words(text_of(&parts), density)).status, 0);
    let (a, b) = (fs::read_to_string(&whole).unwrap(), fs::read_to_string(&parts).unwrap());
    assert_eq!(a, b);
    assert_eq!(fs::read_dir(&room).unwrap().count(), 2);
}

#[test]
fn a_run_that_was_killed_keeps_its_rows() {
    let room = folder("killed");
    let (out, part) = (room.join("rows.json"), room.join("rows.json.part"));
    let words = [words(text_of(&out), "0.001 to 0.02 in 1000"), vec!["--json"]].concat();
    let mut child =
        Command::new(env!("CARGO_BIN_EXE_domthelv")).args(&words).current_dir(common::root()).stderr(Stdio::null()).spawn().unwrap();
    while fs::metadata(&part).map_or(0, |m| m.len()) < 20_000 {
        std::thread::sleep(std::time::Duration::from_millis(5));
    }
    child.kill().unwrap();
    child.wait().unwrap();
    assert!(!out.exists(), "the run was over before it was killed");
    let rows = fs::read_to_string(&part).unwrap().lines().count();
    assert!(rows > 50, "{rows}");
    let done = domthelv(&words);
    assert_eq!((done.status, done.err.as_str()), (0, ""));
    assert_eq!(json(&fs::read_to_string(&out).unwrap()).get("rows").list().len(), 3000);
}

#[test]
fn the_rows_of_another_run_are_left_alone() {
    let room = folder("another");
    let out = room.join("rows.txt");
    let first = [words(text_of(&out), "0.001 to 0.02 in 40"), vec!["--stop-after", "5"]].concat();
    assert_eq!(domthelv(&first).status, 3);
    let held = fs::read(room.join("rows.txt.part")).unwrap();
    let done = domthelv(&words(text_of(&out), "0.001 to 0.03 in 40"));
    assert!(done.status == 2 && done.err.contains("rows of another run"), "{}", done.err);
    assert_eq!(fs::read(room.join("rows.txt.part")).unwrap(), held);
}

#[test]
fn a_stopped_run_on_the_screen_is_json_too() {
    let done = domthelv(&["energy", "command/examples/isotherm.txt", "--stop-after", "7", "--json"]);
    let document = json(&done.out);
    assert_eq!((done.status, document.get("rows").list().len(), document.get("worked").number()), (3, 7, 7.0));
    assert_eq!(document.get("stopped"), &common::Json::Bool(true));
}

#[test]
fn refused_states_do_not_end_a_run() {
    let done = domthelv(&["energy", FILE, "--density", "0.01 0.9 0.02", "--json"]);
    let document = json(&done.out);
    let rows = document.get("rows").list();
    assert!(done.status == 1 && done.err.contains("1 of 3 states refused, the first: refused (6)"), "{}", done.err);
    assert!(rows[1].get("hard_sphere") == &common::Json::Null && rows[2].get("hard_sphere").number() > 0.0);
}

#[test]
fn a_file_that_cannot_be_written_leaves_nothing_behind() {
    let room = folder("writing");
    let (folder_there, missing) = (room.join("there"), room.join("missing/rows.txt"));
    fs::create_dir(&folder_there).unwrap();
    for (out, reason) in [(&folder_there, "is a folder"), (&missing, "no such file or folder")] {
        for words in [
            vec!["ends", FILE, "--out", text_of(out)],
            vec!["plot", "isotherm", FILE, "--out", text_of(out)],
            vec!["tank", "command/examples/tank.txt", "--out", text_of(out)],
        ] {
            let done = domthelv(&words);
            assert!(done.status == 2 && done.err.contains(reason), "{words:?}: {}", done.err);
        }
    }
    let kept = room.join("kept.svg");
    fs::write(&kept, "as it was").unwrap();
    assert_eq!(domthelv(&["plot", "isotherm", FILE, "--density", "0.9", "--out", text_of(&kept)]).status, 1);
    assert_eq!(fs::read_to_string(&kept).unwrap(), "as it was");
    let names: Vec<_> = fs::read_dir(&room).unwrap().map(|f| f.unwrap().file_name()).collect();
    assert_eq!(names.len(), 2, "{names:?}");
    assert_eq!(fs::read_dir(&folder_there).unwrap().count(), 0);
}
