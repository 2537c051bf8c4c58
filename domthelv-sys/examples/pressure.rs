//! Pressure, chemical potential and internal energy of liquid hydrogen at 25 K from the slopes of the energies, beside difference
//! quotients of the energies. `cargo run --example pressure`
use domthelv_sys::safe::{QuantumComponents, QuantumSet, Refusal, State, StateSlopes, quantum_parameters};

/// Hard sphere and dispersion.
fn energy(set: &QuantumSet, temperature: f64, density: f64) -> Result<f64, Refusal> {
    let table = set.table(temperature)?;
    let state = State { temperature, fractions: &[1.0], densities: &[density] };
    let e = set.energies(&state, &table.values, false)?;
    Ok(e.hard_sphere + e.dispersion)
}

/// The same and its slope, for a slope of the temperature and one of the density.
fn with_slope(set: &QuantumSet, t: [f64; 2], rho: [f64; 2]) -> Result<[f64; 2], Refusal> {
    let state = State { temperature: t[0], fractions: &[1.0], densities: &[rho[0]] };
    let slopes = StateSlopes { temperature: t[1], fractions: &[0.0], densities: &[rho[1]] };
    let e = set.energies_slopes(&state, &slopes, false)?;
    Ok([e.hard_sphere.value + e.dispersion.value, e.hard_sphere.slope + e.dispersion.slope])
}

fn main() -> Result<(), Refusal> {
    // those of the worked case 'hydrogen'; no phase was worked
    let hydrogen = QuantumComponents {
        m: &[1.0],
        sigma: &[3.0243],
        epsilon_k: &[26.706],
        lr: &[9.0],
        la: &[6.0],
        mass: &[3.3474472e-27],
        order: &[1],
        k_ij: &[0.0],
        l_ij: &[0.0],
    };
    let set = quantum_parameters(&hydrogen)?;
    let (t, rho, h) = (25.0, 0.02, 1e-5);
    // k T per cubic angstrom, in bar
    let bar = 1.380649e-23 * t * 1e30 / 1e5;
    let [a, by_density] = with_slope(&set, [t, 0.0], [rho, 1.0])?;
    let [_, by_temperature] = with_slope(&set, [t, 1.0], [rho, 0.0])?;
    let quotient = (energy(&set, t, rho * (1.0 + h))? - energy(&set, t, rho * (1.0 - h))?) / (2.0 * h * rho);
    let other = (energy(&set, t * (1.0 + h), rho)? - energy(&set, t * (1.0 - h), rho)?) / (2.0 * h * t);
    println!("hydrogen at {t} K, {rho} molecules per cubic angstrom: by slopes, and by difference quotients");
    println!("pressure            {:12.6} bar, {:12.6}", bar * (rho + rho * by_density - a), bar * (rho + rho * quotient - a));
    println!("chemical potential  {by_density:12.8} kT,  {quotient:12.8}");
    println!("internal energy     {:12.8} kT,  {:12.8}", -t * by_temperature / rho, -t * other / rho);
    Ok(())
}
