//! The commands, one a file.
pub mod card;
pub mod energy;
pub mod fluids;
pub mod plot;
pub mod pressure;
pub mod subject;
pub mod tank;
