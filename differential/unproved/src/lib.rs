//! The port's sources compiled as Rust, contracts left out: nothing is proved of this, and the backend is another.
//! For the edit loop (tools/differential --unproved), never for the verdict.
#![allow(warnings)]
include!(concat!(env!("OUT_DIR"), "/sources.rs"));
