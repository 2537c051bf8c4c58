// The file of docs/src, and a way to its private search.
include!("feos_parameters.rs");

/// A pair's reduced r0, as hs_diameter_ij works it.
pub fn r0(p: &SaftVRMiePars, i: usize, j: usize, temperature: f64) -> f64 {
    let c_eps_t = (1.0 / temperature) * p.c_ij[(i, j)] * p.epsilon_k_ij[(i, j)];
    lower_integratal_limit(p.la_ij[(i, j)], p.lr_ij[(i, j)], c_eps_t)
}
