// The file of docs/src as it is; the driver is its child and so sees the private table.
include!("feos_mod.rs");

pub mod driver {
    //! Ways in with flat lists: sheets as crate::sizes has them.
    use super::dispersion::Dispersion;
    use super::hard_sphere::HardSphere;
    use super::non_additive_hs::NonAddHardSphere;
    use super::*;
    use crate::saftvrqmie::parameters::*;
    use crate::sizes::{self, SHEET, SHEETS, TABLE, at};
    use feos_core::StateHD;
    use nalgebra::{DMatrix, DVector};
    use num_dual::{Dual, DualNum};

    /// Component lists of `count` places, pair lists of their square.
    pub struct Lists<'a> {
        pub m: &'a [f64],
        pub sigma: &'a [f64],
        pub epsilon_k: &'a [f64],
        pub lr: &'a [f64],
        pub la: &'a [f64],
        pub mass: &'a [f64],
        pub order: &'a [u8],
        pub k_ij: &'a [f64],
        pub l_ij: &'a [f64],
    }

    /// The Rust's parameters, or the number of the refusal that its text stands for.
    pub fn parameters(l: &Lists) -> Result<SaftVRQMiePars, u8> {
        let n = l.m.len();
        let records = (0..n)
            .map(|i| SaftVRQMieRecord {
                m: l.m[i],
                sigma: l.sigma[i],
                epsilon_k: l.epsilon_k[i],
                lr: l.lr[i],
                la: l.la[i],
                fh: l.order[i] as usize,
            })
            .collect();
        let pairs = (0..n * n).map(|e| SaftVRQMieBinaryRecord { k_ij: l.k_ij[e], l_ij: l.l_ij[e] }).collect();
        let all = SaftVRQMieParameters::from_lists(records, l.mass.to_vec(), pairs);
        SaftVRQMiePars::new(&all).map_err(|FeosError::IncompatibleParameters(text)| match &text[..7] {
            "Segment" => 3,
            "failed " => 4,
            "cannot " => 5,
            _ => panic!("{text}"),
        })
    }

    /// The six sheets in the order of the Rust's fields, and the orders.
    pub fn flat(p: &SaftVRQMiePars) -> ([f64; SHEETS], [u8; SHEET]) {
        let (mut sheets, mut orders, n) = ([0.0; SHEETS], [0; SHEET], p.m.len());
        let fields = [&p.sigma_ij, &p.epsilon_k_ij, &p.c_ij, &p.lambda_r_ij, &p.lambda_a_ij, &p.mass_ij];
        for i in 0..n {
            for j in 0..n {
                for (s, field) in fields.iter().enumerate() {
                    sheets[at(SHEET * s, i, j)] = field[(i, j)];
                }
                orders[at(0, i, j)] = p.fh_ij[(i, j)] as u8;
            }
        }
        (sheets, orders)
    }

    /// A set filled by hand. The Rust's sigma and epsilon_k of components are read for their length alone.
    pub fn set(count: usize, m: &[f64], sheets: &[f64], orders: &[u8]) -> SaftVRQMiePars {
        let sheet = |start: usize| DMatrix::from_fn(count, count, |i, j| sheets[at(start, i, j)]);
        SaftVRQMiePars {
            m: DVector::from(m[..count].to_vec()),
            sigma: DVector::from(vec![f64::NAN; count]),
            epsilon_k: DVector::from(vec![f64::NAN; count]),
            sigma_ij: sheet(sizes::quantum_set::SIGMA_IJ),
            epsilon_k_ij: sheet(sizes::quantum_set::EPSILON_K_IJ),
            c_ij: sheet(sizes::quantum_set::C_IJ),
            lambda_r_ij: sheet(sizes::quantum_set::LAMBDA_R_IJ),
            lambda_a_ij: sheet(sizes::quantum_set::LAMBDA_A_IJ),
            mass_ij: sheet(sizes::quantum_set::MASS_IJ),
            fh_ij: DMatrix::from_fn(count, count, |i, j| FeynmanHibbsOrder::try_from(orders[at(0, i, j)] as usize).unwrap()),
        }
    }

    /// sigma_eff, hs_diameter, epsilon_k_eff, quantum_d.
    pub fn table(p: &SaftVRQMiePars, temperature: f64) -> [f64; TABLE] {
        flat_table(p.m.len(), &Table(TemperatureDependentProperties::new(p, temperature)), 0.0)
    }

    /// A table in the Rust's own form.
    pub struct Table<D = f64>(TemperatureDependentProperties<D>);

    /// Its sheets, `zero` where unused.
    pub fn flat_table<D: Copy>(n: usize, table: &Table<D>, zero: D) -> [D; TABLE] {
        let (mut flat, t) = ([zero; TABLE], &table.0);
        let fields = [&t.sigma_eff_ij, &t.hs_diameter_ij, &t.epsilon_k_eff_ij, &t.quantum_d_ij];
        for (s, field) in fields.into_iter().enumerate() {
            for i in 0..n {
                for j in 0..n {
                    flat[at(SHEET * s, i, j)] = field[(i, j)];
                }
            }
        }
        flat
    }

    /// The table with slopes, at a temperature with a slope.
    pub fn table_slopes(p: &SaftVRQMiePars, temperature: Dual<f64>) -> Table<Dual<f64>> {
        Table(TemperatureDependentProperties::new(p, temperature))
    }

    /// A table filled by hand.
    pub fn properties(n: usize, table: &[f64]) -> Table {
        let sheet = |start: usize| DMatrix::from_fn(n, n, |i, j| table[at(start, i, j)]);
        Table(TemperatureDependentProperties {
            sigma_eff_ij: sheet(sizes::table::SIGMA_EFF),
            hs_diameter_ij: sheet(sizes::table::HS_DIAMETER),
            epsilon_k_eff_ij: sheet(sizes::table::EPSILON_K_EFF),
            quantum_d_ij: sheet(sizes::table::QUANTUM_D),
        })
    }

    pub fn state<D: Clone>(temperature: D, x: &[D], rho: &[D]) -> StateHD<D> {
        StateHD { temperature, partial_density: DVector::from(rho.to_vec()), molefracs: DVector::from(x.to_vec()) }
    }

    /// Hard sphere, dispersion, non-additive (+0 where not wanted).
    pub fn contributions<D: DualNum<Primitive = f64> + Copy>(p: &SaftVRQMiePars, table: &Table<D>, state: &StateHD<D>, non_additive: bool) -> [D; 3] {
        let third = if non_additive { NonAddHardSphere.helmholtz_energy_density(p, state, &table.0) } else { D::from(0.0) };
        [HardSphere.helmholtz_energy_density(p, state, &table.0), Dispersion.helmholtz_energy_density(p, state, &table.0), third]
    }

    /// The same from flat lists.
    pub fn energies(p: &SaftVRQMiePars, table: &[f64], temperature: f64, x: &[f64], rho: &[f64], non_additive: bool) -> [f64; 3] {
        contributions(p, &properties(p.m.len(), table), &state(temperature, x, rho), non_additive)
    }
}
