//! What the tests share: the command run on its words, a folder of their own, marks read out of a picture, and JSON.
#![allow(dead_code)]
use std::collections::HashMap;
use std::path::{Path, PathBuf};
use std::process::Command;

pub struct Done {
    pub status: i32,
    pub out: String,
    pub err: String,
}

/// The repository's folder, where the tests run the command.
pub fn root() -> PathBuf {
    Path::new(env!("CARGO_MANIFEST_DIR")).parent().unwrap().into()
}

/// Runs the command; it never panics and is never ended by a signal.
pub fn domthelv(words: &[&str]) -> Done {
    let done = Command::new(env!("CARGO_BIN_EXE_domthelv")).args(words).current_dir(root()).output().unwrap();
    let err = String::from_utf8_lossy(&done.stderr).into_owned();
    assert!(!err.contains("panicked"), "{words:?}: {err}");
    Done { status: done.status.code().expect("ended by a signal"), out: String::from_utf8(done.stdout).unwrap(), err }
}

/// An empty folder of a test's own.
pub fn folder(name: &str) -> PathBuf {
    let path = Path::new(env!("CARGO_TARGET_TMPDIR")).join(name);
    let _ = std::fs::remove_dir_all(&path);
    std::fs::create_dir_all(&path).unwrap();
    path
}

pub fn text_of(path: &Path) -> &str {
    path.to_str().unwrap()
}

/// The attributes of each element of a class.
pub fn elements(svg: &str, class: &str) -> Vec<HashMap<String, String>> {
    let wanted = format!("class=\"{class}\"");
    let of = |tag: &str| {
        let mut rest = tag;
        let mut held = HashMap::new();
        while let Some((before, after)) = rest.split_once("=\"") {
            let (value, more) = after.split_once('"').unwrap();
            held.insert(before.split_whitespace().last().unwrap().to_string(), value.to_string());
            rest = more;
        }
        held
    };
    svg.split('<').filter_map(|t| t.split_once('>')).map(|(tag, _)| tag).filter(|tag| tag.contains(&wanted)).map(of).collect()
}

pub fn number(held: &HashMap<String, String>, key: &str) -> f64 {
    held.get(key).unwrap_or_else(|| panic!("no {key} in {held:?}")).parse().unwrap()
}

/// The pixels of a mark.
pub fn spot(mark: &HashMap<String, String>) -> (f64, f64) {
    let inner = mark["transform"].strip_prefix("translate(").unwrap().strip_suffix(')').unwrap();
    let (x, y) = inner.split_once(' ').unwrap();
    (x.parse().unwrap(), y.parse().unwrap())
}

/// Where a number stands, by the first and the last tick of an axis.
pub fn by_ticks(svg: &str, axis: &str) -> impl Fn(f64) -> f64 {
    let ticks = elements(svg, &format!("tick-{axis}"));
    let of = |t: &HashMap<String, String>| (number(t, "data-value"), number(t, "data-pixel"));
    let ((a, pa), (b, pb)) = (of(&ticks[0]), of(ticks.last().unwrap()));
    move |x| pa + (x - a) / (b - a) * (pb - pa)
}

#[derive(Debug, Clone, PartialEq)]
pub enum Json {
    Null,
    Bool(bool),
    Number(f64),
    Text(String),
    List(Vec<Json>),
    Object(Vec<(String, Json)>),
}

impl Json {
    pub fn get(&self, key: &str) -> &Json {
        let Json::Object(members) = self else { panic!("no object: {self:?}") };
        &members.iter().find(|(k, _)| k == key).unwrap_or_else(|| panic!("no {key}")).1
    }
    pub fn list(&self) -> &[Json] {
        let Json::List(items) = self else { panic!("no list: {self:?}") };
        items
    }
    pub fn number(&self) -> f64 {
        let Json::Number(x) = self else { panic!("no number: {self:?}") };
        *x
    }
}

/// Reads JSON; what is none panics.
pub fn json(text: &str) -> Json {
    let mut rest = text;
    let value = value(&mut rest);
    assert!(rest.trim().is_empty(), "more after the value: {rest}");
    value
}

fn taken(rest: &mut &str, mark: char) -> bool {
    *rest = rest.trim_start();
    let found = rest.starts_with(mark);
    if found {
        *rest = &rest[mark.len_utf8()..];
    }
    found
}

fn string(rest: &mut &str) -> String {
    let mut out = String::new();
    let mut chars = rest.char_indices();
    while let Some((at, c)) = chars.next() {
        match c {
            '"' => {
                *rest = &rest[at + 1..];
                return out;
            }
            '\\' => out.push(chars.next().unwrap().1),
            c => {
                assert!(!c.is_control());
                out.push(c);
            }
        }
    }
    panic!("a text without an end")
}

fn value(rest: &mut &str) -> Json {
    if taken(rest, '{') {
        let mut members = vec![];
        while !taken(rest, '}') {
            assert!(members.is_empty() || taken(rest, ','));
            assert!(taken(rest, '"'));
            let key = string(rest);
            assert!(taken(rest, ':'));
            members.push((key, value(rest)));
        }
        return Json::Object(members);
    }
    if taken(rest, '[') {
        let mut items = vec![];
        while !taken(rest, ']') {
            assert!(items.is_empty() || taken(rest, ','));
            items.push(value(rest));
        }
        return Json::List(items);
    }
    if taken(rest, '"') {
        return Json::Text(string(rest));
    }
    let end = rest.find([',', ']', '}', '\n', ' ']).unwrap_or(rest.len());
    let (word, more) = rest.split_at(end);
    *rest = more;
    match word {
        "null" => Json::Null,
        "true" => Json::Bool(true),
        "false" => Json::Bool(false),
        word => Json::Number(word.parse().unwrap_or_else(|_| panic!("no JSON: {word}"))),
    }
}
