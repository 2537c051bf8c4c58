//! Links libdomthelv.a: from DOMTHELV_LIB_DIR, or from target/staticlib of the repository (tools/library), or from lib/ of an archive.
use std::{env, path::PathBuf};

fn main() {
    let folder = match env::var_os("DOMTHELV_LIB_DIR") {
        Some(folder) => PathBuf::from(folder),
        None => {
            let own = PathBuf::from(env::var_os("CARGO_MANIFEST_DIR").unwrap());
            // an unpacked archive has this package in rust/domthelv-sys
            if own.join("../../lib/libdomthelv.a").exists() { own.join("../../lib") } else { own.join("../target/staticlib") }
        }
    };
    let library = folder.join("libdomthelv.a");
    println!("cargo::rerun-if-env-changed=DOMTHELV_LIB_DIR");
    println!("cargo::rerun-if-changed={}", library.display());
    if !library.exists() {
        println!("cargo::error=no {}: run tools/library, or set DOMTHELV_LIB_DIR", library.display());
    }
    println!("cargo::rustc-link-search=native={}", folder.display());
    println!("cargo::rustc-link-lib=static=domthelv");
}
