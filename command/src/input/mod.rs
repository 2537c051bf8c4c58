//! What the command reads: text files of fluids, states and tanks, and the bytes of cards.
pub mod file;
pub mod grid;
pub mod lines;
pub mod mixture;
pub mod numbers;
pub mod tank;
