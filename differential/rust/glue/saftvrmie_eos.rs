//! feos' saftvrmie/eos/mod.rs is not in docs/src. Properties::new is for this module alone, so the driver stands here.
pub(crate) mod dispersion;
use crate::hard_sphere::HardSphereProperties;
use crate::saftvrmie::parameters::*;
use crate::sizes::{SHEET, SHEETS, SIDE, at, mie_set};
use dispersion::*;
use feos_core::StateHD;
use nalgebra::{DMatrix, DVector};

/// Component lists of `count` places, pair lists of their square.
pub struct Lists<'a> {
    pub m: &'a [f64],
    pub sigma: &'a [f64],
    pub epsilon_k: &'a [f64],
    pub lr: &'a [f64],
    pub la: &'a [f64],
    pub k_ij: &'a [f64],
    pub gamma_ij: &'a [f64],
}

pub fn parameters(l: &Lists) -> SaftVRMiePars {
    let n = l.m.len();
    let records = (0..n)
        .map(|i| SaftVRMieRecord { m: l.m[i], sigma: l.sigma[i], epsilon_k: l.epsilon_k[i], lr: l.lr[i], la: l.la[i] })
        .collect();
    let pairs = (0..n * n).map(|e| SaftVRMieBinaryRecord { k_ij: l.k_ij[e], gamma_ij: l.gamma_ij[e] }).collect();
    SaftVRMiePars::new(&SaftVRMieParameters::from_lists(records, vec![1.0; n], pairs))
}

/// The six sheets in the order of the Rust's fields.
pub fn flat(p: &SaftVRMiePars) -> [f64; SHEETS] {
    let (mut sheets, n) = ([0.0; SHEETS], p.m.len());
    let fields = [&p.sigma_ij, &p.epsilon_k_ij, &p.lr_ij, &p.la_ij, &p.c_ij, &p.alpha_ij];
    for (s, field) in fields.into_iter().enumerate() {
        for i in 0..n {
            for j in 0..n {
                sheets[at(SHEET * s, i, j)] = field[(i, j)];
            }
        }
    }
    sheets
}

/// A set filled by hand; `lists` is m, sigma, epsilon_k, lr, la in SIDE places each.
pub fn set(count: usize, lists: &[f64], sheets: &[f64]) -> SaftVRMiePars {
    let list = |k: usize| DVector::from(lists[SIDE * k..][..count].to_vec());
    let sheet = |start: usize| DMatrix::from_fn(count, count, |i, j| sheets[at(start, i, j)]);
    SaftVRMiePars {
        m: list(0),
        sigma: list(1),
        epsilon_k: list(2),
        lr: list(3),
        la: list(4),
        sigma_ij: sheet(mie_set::SIGMA_IJ),
        epsilon_k_ij: sheet(mie_set::EPSILON_K_IJ),
        lr_ij: sheet(mie_set::LR_IJ),
        la_ij: sheet(mie_set::LA_IJ),
        c_ij: sheet(mie_set::C_IJ),
        alpha_ij: sheet(mie_set::ALPHA_IJ),
    }
}

pub fn diameters(p: &SaftVRMiePars, temperature: f64) -> Vec<f64> {
    p.hs_diameter(temperature).iter().copied().collect()
}

pub fn state(temperature: f64, x: &[f64], rho: &[f64]) -> StateHD<f64> {
    StateHD { temperature, partial_density: vector(rho), molefracs: vector(x) }
}

pub fn vector(list: &[f64]) -> DVector<f64> {
    DVector::from(list.to_vec())
}

/// Dispersion, with or without the chain.
pub fn contribution(p: &SaftVRMiePars, diameters: &DVector<f64>, state: &StateHD<f64>, chain: bool) -> f64 {
    let q = Properties::new(p, state, diameters);
    if chain {
        helmholtz_energy_density_disp_chain(p, &q, state)
    } else {
        helmholtz_energy_density_disp(p, &q, state)
    }
}

/// The same from flat lists.
pub fn dispersion(p: &SaftVRMiePars, diameters: &[f64], temperature: f64, x: &[f64], rho: &[f64], chain: bool) -> f64 {
    contribution(p, &vector(diameters), &state(temperature, x, rho), chain)
}
