//! Makes one Rust crate of the Rattle crates that `domthelv_c` needs: clauses, attributes and ghost items taken out, types copied freely,
//! and each exported function wrapped so that a slice crosses as a pointer and a length.
use std::{env, fs, path::Path};

/// The text without clauses (`requires {..}`, `ensures name {..}`), attributes, ghost items, and the bound `Drop`, which every type of Rust meets.
fn without_contracts(text: &str) -> String {
    let mut out = String::new();
    let mut rest = text;
    while !rest.is_empty() {
        let line = rest.split_inclusive('\n').next().unwrap();
        let word = line.trim_start();
        if word.starts_with("ghost use ") {
            rest = &rest[rest.find(";\n").unwrap() + 2..];
        } else if word.starts_with("ghost ") || word.starts_with("pub ghost ") {
            rest = after_brackets(rest, '{', '}').trim_start_matches([';', ',', ' ', '\n']);
        } else if word.trim_end() == "+ Drop" {
            rest = &rest[line.len()..];
        } else if ["requires", "ensures"].iter().any(|w| word.strip_prefix(w).is_some_and(|w| w.starts_with([' ', '*']))) {
            rest = after_brackets(rest, '{', '}');
        } else if word.starts_with("#[") || word.starts_with("#![") {
            rest = after_brackets(rest, '[', ']');
        } else {
            out.push_str(&line.replace(" + Drop", ""));
            rest = &rest[line.len()..];
        }
    }
    out
}

fn after_brackets(text: &str, open: char, close: char) -> &str {
    let mut depth = 0;
    for (at, c) in text.char_indices() {
        depth += (c == open) as i32 - (c == close) as i32;
        if c == close && depth == 0 {
            return text[at + 1..].trim_start_matches([' ', '\n']);
        }
    }
    panic!("a clause or an attribute without an end")
}

/// The text of a source file without contracts, with each module that it declares in the place of its declaration, and behind it the C functions of what it exports.
fn with_modules(folder: &Path, file: &str) -> String {
    let source = folder.join(file);
    println!("cargo::rerun-if-changed={}", source.display());
    // a crate without code has none to read
    let text = without_contracts(&fs::read_to_string(&source).unwrap_or_default());
    let mut out = String::new();
    for line in text.lines() {
        match line.strip_suffix(';').and_then(|l| l.split_once("mod ")) {
            Some((seen, module)) if seen.is_empty() || seen == "pub " => {
                out += &format!("{seen}mod {module} {{\n{}}}\n", with_modules(folder, &format!("{module}.rt")));
            }
            _ => {
                out += &line.replace(EXPORTED, "pub fn ");
                out += "\n";
            }
        }
    }
    out + &text.split(EXPORTED).skip(1).map(wrapper).collect::<String>()
}

const EXPORTED: &str = "pub extern \"C\" fn ";

/// Imports from other crates as modules of this one; structs and enums as values.
fn as_module(name: &str, uses: &[&str], text: &str) -> String {
    let mut out = format!("pub mod {name} {{\n");
    let own: Vec<&str> = text.lines().filter_map(|l| l.trim_start_matches("pub ").strip_prefix("mod ")?.strip_suffix(" {")).collect();
    let others: String = uses.iter().map(|other| format!("use crate::{other};\n")).collect();
    out += &others;
    for line in text.lines() {
        let item = line.strip_prefix("pub ").unwrap_or(line);
        if let Some(path) = item.strip_prefix("use ") {
            let seen = &line[..line.len() - item.len()];
            let first = path.split([':', ';']).next().unwrap();
            let path = match path.strip_prefix("crate::") {
                Some(rest) => format!("crate::{name}::{rest}"),
                None if first == "std" => path.into(),
                None if own.contains(&first) => format!("crate::{name}::{path}"),
                None => format!("crate::{path}"),
            };
            out += &format!("{seen}use {path}\n");
            continue;
        }
        if item.starts_with("struct ") || item.starts_with("enum ") {
            out += "#[derive(Clone, Copy)]\n";
        }
        out += line;
        out += "\n";
        if item.starts_with("mod ") {
            out += &others;
        }
    }
    out + "}\n"
}

/// The C function of a signature `name(a: T, ..) -> R`, beside the function.
fn wrapper(signature: &str) -> String {
    let (name, rest) = signature.split_once('(').unwrap();
    let (list, result) = rest.split_once(") ->").unwrap();
    let (mut taken, mut passed) = (vec![], vec![]);
    for parameter in list.split(',').map(str::trim).filter(|p| !p.is_empty()) {
        let (a, t) = parameter.split_once(": ").unwrap();
        let (make, pointer) = if t.starts_with("&mut") { ("from_raw_parts_mut", "*mut") } else { ("from_raw_parts", "*const") };
        if let Some((_, element)) = t.split_once('[') {
            taken.push(format!("{a}: {pointer} {}, {a}_len: usize", element.trim_end_matches(']')));
            passed.push(format!("unsafe {{ std::slice::{make}({a}, {a}_len) }}"));
        } else {
            taken.push(format!("{a}: {t}"));
            passed.push(a.into());
        }
    }
    let result = result.split('{').next().unwrap().split_whitespace().next().unwrap();
    let (taken, passed) = (taken.join(", "), passed.join(", "));
    format!("#[unsafe(export_name = \"{name}\")]\npub extern \"C\" fn {name}_of_c({taken}) -> {result} {{ {name}({passed}) }}\n")
}

fn main() {
    let here = env::var("CARGO_MANIFEST_DIR").unwrap();
    let root = Path::new(&here).ancestors().find(|p| p.join("crates.txt").exists()).unwrap();
    let listed = fs::read_to_string(root.join("crates.txt")).unwrap();
    let uses = |name: &str| -> Vec<&str> {
        let line = listed.lines().find(|l| l.split([':', ' ']).next() == Some(name)).expect(name);
        line.split_once(':').unwrap().1.split_whitespace().collect()
    };
    let mut wanted = vec!["domthelv_c"];
    let mut next = 0;
    while next < wanted.len() {
        for other in uses(wanted[next]) {
            if !wanted.contains(&other) {
                wanted.push(other);
            }
        }
        next += 1;
    }
    let mut out = String::new();
    for name in &wanted {
        let text = with_modules(&root.join("crates").join(name).join("src"), "lib.rt");
        out += &as_module(name, &uses(name), &text);
    }
    println!("cargo::rerun-if-changed={}", root.join("crates.txt").display());
    fs::write(Path::new(&env::var("OUT_DIR").unwrap()).join("sources.rs"), out).unwrap();
}
