//! How many components, how long each list, and where each sheet of a set or table starts: crates/sizes for Rust.

/// The side of a sheet: the most components. A sheet holds a number for each pair.
pub const SIDE: usize = 12;
pub const SHEET: usize = SIDE * SIDE;
/// The six sheets of a set, in one array.
pub const SHEETS: usize = 6 * SHEET;
/// The four sheets of the temperature table.
pub const TABLE: usize = 4 * SHEET;
/// The three sheets of the searches' counts.
pub const COUNTS: usize = 3 * SHEET;
/// The five component lists of a set of SAFT-VR Mie, one behind the other.
pub const LISTS: usize = 5 * SIDE;
/// The places of a desk, and the lengths of its two lists.
pub const DESK_PLACES: usize = 16;
pub const DESK_FLOATS: usize = DESK_PLACES * (SHEETS + TABLE + 3 * SIDE + 1);
pub const DESK_BYTES: usize = DESK_PLACES * (SHEET + 4) + 1;

/// The longest fuel card, bytes: eight components of the quantum model.
pub const CARD: usize = 771;
/// The longest newer card: twelve components of the quantum model, no pair's number spared.
pub const NEWER_CARD: usize = 1557;

/// Entry (i, j) of the sheet that starts at `sheet`.
#[inline]
pub const fn at(sheet: usize, i: usize, j: usize) -> usize {
    sheet + SIDE * i + j
}

/// Where each sheet of a quantum set starts.
pub mod quantum_set {
    use super::SHEET;

    pub const SIGMA_IJ: usize = 0;
    pub const EPSILON_K_IJ: usize = SHEET;
    pub const C_IJ: usize = 2 * SHEET;
    pub const LAMBDA_R_IJ: usize = 3 * SHEET;
    pub const LAMBDA_A_IJ: usize = 4 * SHEET;
    pub const MASS_IJ: usize = 5 * SHEET;
}

/// Where each sheet of a set of SAFT-VR Mie starts.
pub mod mie_set {
    use super::SHEET;

    pub const SIGMA_IJ: usize = 0;
    pub const EPSILON_K_IJ: usize = SHEET;
    pub const LR_IJ: usize = 2 * SHEET;
    pub const LA_IJ: usize = 3 * SHEET;
    pub const C_IJ: usize = 4 * SHEET;
    pub const ALPHA_IJ: usize = 5 * SHEET;
}

/// Where each sheet of the temperature table starts.
pub mod table {
    use super::SHEET;

    pub const SIGMA_EFF: usize = 0;
    pub const HS_DIAMETER: usize = SHEET;
    pub const EPSILON_K_EFF: usize = 2 * SHEET;
    pub const QUANTUM_D: usize = 3 * SHEET;
}

/// Where each sheet of the counts starts: the searches for sigma_eff, for the integrand's zero and for the depth.
pub mod counts {
    use super::SHEET;

    pub const SIGMA: usize = 0;
    pub const ZERO: usize = SHEET;
    pub const DEPTH: usize = 2 * SHEET;
}
