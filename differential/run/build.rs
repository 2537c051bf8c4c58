//! Finds the port's static library and says by cfg which functions of the C boundary it has.
use std::{env, fs, path::Path};

/// The names in an archive's index: after its header, how many, where each stands, and then the names.
fn symbols(archive: &[u8]) -> Vec<&[u8]> {
    let index = &archive[8 + 60..];
    let n = u32::from_be_bytes(index[..4].try_into().unwrap()) as usize;
    index[4 + 4 * n..].split(|b| *b == 0).take(n).collect()
}

fn main() {
    let here = env::var("CARGO_MANIFEST_DIR").unwrap();
    let root = Path::new(&here).ancestors().find(|p| p.join("crates.txt").exists()).expect("no crates.txt above this package");
    let folder = root.join("target/staticlib");
    let library = folder.join("libdomthelv.a");
    let declared = root.join("differential/run/src/port.rs");
    let sources = root.join("crates/domthelv_c/src");
    let unproved = env::var("CARGO_FEATURE_UNPROVED").is_ok();
    let has: Box<dyn Fn(&str) -> bool> = if unproved {
        let text: String = fs::read_dir(&sources).unwrap().map(|file| fs::read_to_string(file.unwrap().path()).unwrap()).collect();
        Box::new(move |name| text.contains(&format!(" fn {name}(")))
    } else {
        let archive = fs::read(&library).expect("no target/staticlib/libdomthelv.a: run tools/library first");
        Box::new(move |name| symbols(&archive).contains(&name.as_bytes()))
    };
    let text = fs::read_to_string(&declared).unwrap();
    for name in text.split(|c: char| !(c.is_ascii_alphanumeric() || c == '_')).filter(|w| w.starts_with("domthelv_")) {
        println!("cargo::rustc-check-cfg=cfg({name})");
        if has(name) {
            println!("cargo::rustc-cfg={name}");
        }
    }
    println!("cargo::rustc-link-search=native={}", folder.display());
    println!("cargo::rerun-if-changed={}", if unproved { sources.display() } else { library.display() });
    println!("cargo::rerun-if-changed={}", declared.display());
}
