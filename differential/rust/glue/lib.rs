//! The Rust files of docs/src as a crate, laid out by ../build.rs.
#![allow(dead_code, unused_imports, unused_macros, unexpected_cfgs, unfulfilled_lint_expectations, clippy::all)]

/// A search says by println! that it was spent; here it says nothing.
macro_rules! println {
    ($($t:tt)*) => {{
        let _ = format_args!($($t)*);
    }};
}

#[path = "../../../domthelv-sys/src/sizes.rs"]
pub mod sizes;

include!(concat!(env!("OUT_DIR"), "/crate/crate.rs"));
