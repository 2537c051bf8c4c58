//! Liquid hydrogen at 25 K: hard-sphere and dispersion energy with their two ends. `cargo run --example hydrogen`
use domthelv_sys::safe::{Ends, QuantumComponents, Refusal, State, quantum_parameters};

fn print(name: &str, value: f64, ends: Ends) {
    println!("{name:<12} {value:>24.17}  from {:.17} to {:.17}  width {:.1e}", ends.low, ends.high, ends.high - ends.low);
}

fn main() -> Result<(), Refusal> {
    // those of the worked case 'hydrogen', of first Feynman-Hibbs order after Aasen et al. 2019; no table of the literature was held to them
    let hydrogen = QuantumComponents {
        m: &[1.0],
        sigma: &[3.0243],
        epsilon_k: &[26.706],
        lr: &[9.0],
        la: &[6.0],
        mass: &[3.3474472e-27],
        order: &[1],
        k_ij: &[0.0],
        l_ij: &[0.0],
    };
    let state = State { temperature: 25.0, fractions: &[1.0], densities: &[0.019] };
    let set = quantum_parameters(&hydrogen)?;
    let table = set.table(state.temperature)?;
    let energies = set.energies(&state, &table.values, false)?;
    let ends = set.energies_ends(&state, &table.values, false)?;
    let radii = set.radii(0, 0, state.temperature)?;
    let diameter = set.diameter_ends(0, 0, state.temperature, radii.sigma[0], radii.zero[0])?;
    println!("hydrogen at {} K, {} molecules per cubic ångström", state.temperature, state.densities[0]);
    print("diameter", table.hs_diameter(0, 0)?, diameter);
    print("hard sphere", energies.hard_sphere, ends.hard_sphere);
    print("dispersion", energies.dispersion, ends.dispersion);
    Ok(())
}
