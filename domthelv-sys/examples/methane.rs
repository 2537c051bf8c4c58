//! Methane at 150 K by SAFT-VR Mie: diameter, and dispersion with its two ends, vapour and liquid. `cargo run --example methane`
use domthelv_sys::Refusal;
use domthelv_sys::safe::{MieComponents, State, mie_parameters};

fn main() -> Result<(), Refusal> {
    // Lafitte et al. 2013, as feos has them in the tests of saftvrmie/parameters.rs
    let methane =
        MieComponents { m: &[1.0], sigma: &[3.7412], epsilon_k: &[153.36], lr: &[12.65], la: &[6.0], k_ij: &[0.0], gamma_ij: &[0.0] };
    let (temperature, mut diameters) = (150.0, [0.0]);
    let set = mie_parameters(&methane)?;
    set.diameters(temperature, &mut diameters)?;
    println!("methane at {temperature} K, hard-sphere diameter {:.6} ångström, C of its potential {:.6}", diameters[0], set.c_ij(0, 0)?);
    // densities for the look of it: molecules per cubic ångström, no phase was worked
    for density in [0.0005, 0.0135] {
        let state = State { temperature, fractions: &[1.0], densities: &[density] };
        let value = set.dispersion(&state, &diameters, false)?;
        let ends = set.dispersion_ends(&state, &diameters, false)?;
        println!("dispersion at {density} per cubic ångström {value:.16e}, from {:.16e} to {:.16e}", ends.low, ends.high);
    }
    Ok(())
}
