//! Pictures as SVG: what is drawn from, how, and the command `plot`.
pub mod axis;
pub mod band;
pub mod chart;
pub mod isotherm;
pub mod legend;
pub mod series;
pub mod svg;
pub mod tank;
