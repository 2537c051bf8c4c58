//! Entries of sets and tables by name: `table.hs_diameter(i, j)`. An index outside is refused, as the boundary refuses it.
use crate::safe::{MieSet, QuantumSet, Refusal, Table};
use crate::sizes::{SIDE, at, counts, mie_set, quantum_set, table};

/// A pair's entry of a sheet where both indexes are below a count that is itself within the side.
#[inline]
fn pair<T: Copy>(list: &[T], sheet: usize, count: usize, i: usize, j: usize) -> Result<T, Refusal> {
    if i < count && j < count && count <= SIDE { list.get(at(sheet, i, j)).copied().ok_or(Refusal::Length) } else { Err(Refusal::Length) }
}

macro_rules! entries {
    ($type:ident, $list:ident, $count:expr, $of:ty; $($(#[$doc:meta])* $name:ident $sheet:expr;)*) => {
        impl $type {$(
            $(#[$doc])*
            #[inline]
            pub fn $name(&self, i: usize, j: usize) -> Result<$of, Refusal> {
                pair(&self.$list, $sheet, $count(self), i, j)
            }
        )*}
    };
}

entries! { QuantumSet, sheets, |s: &QuantumSet| s.count, f64;
    sigma_ij quantum_set::SIGMA_IJ;
    epsilon_k_ij quantum_set::EPSILON_K_IJ;
    c_ij quantum_set::C_IJ;
    lambda_r_ij quantum_set::LAMBDA_R_IJ;
    lambda_a_ij quantum_set::LAMBDA_A_IJ;
    mass_ij quantum_set::MASS_IJ;
}
entries! { QuantumSet, orders, |s: &QuantumSet| s.count, u8;
    order 0;
}
entries! { MieSet, sheets, |s: &MieSet| s.count, f64;
    sigma_ij mie_set::SIGMA_IJ;
    epsilon_k_ij mie_set::EPSILON_K_IJ;
    lr_ij mie_set::LR_IJ;
    la_ij mie_set::LA_IJ;
    c_ij mie_set::C_IJ;
    alpha_ij mie_set::ALPHA_IJ;
}
// a table has no count of its own: beyond its set's count stand +0
entries! { Table, values, |_: &Table| SIDE, f64;
    sigma_eff table::SIGMA_EFF;
    /// The pair's hard-sphere diameter.
    hs_diameter table::HS_DIAMETER;
    epsilon_k_eff table::EPSILON_K_EFF;
    quantum_d table::QUANTUM_D;
}
entries! { Table, counts, |_: &Table| SIDE, u8;
    /// Evaluations of the search for sigma, 20 where it was spent.
    sigma_count counts::SIGMA;
    /// Evaluations of the search for the integrand's zero.
    zero_count counts::ZERO;
    /// Evaluations of the search for the depth.
    depth_count counts::DEPTH;
}

impl MieSet {
    /// A component's entry of the list of so many before it.
    #[inline]
    fn component(&self, before: usize, i: usize) -> Result<f64, Refusal> {
        if i < self.count && i < SIDE { self.lists.get(SIDE * before + i).copied().ok_or(Refusal::Length) } else { Err(Refusal::Length) }
    }
    #[inline]
    pub fn m(&self, i: usize) -> Result<f64, Refusal> {
        self.component(0, i)
    }
    #[inline]
    pub fn sigma(&self, i: usize) -> Result<f64, Refusal> {
        self.component(1, i)
    }
    #[inline]
    pub fn epsilon_k(&self, i: usize) -> Result<f64, Refusal> {
        self.component(2, i)
    }
    #[inline]
    pub fn lr(&self, i: usize) -> Result<f64, Refusal> {
        self.component(3, i)
    }
    #[inline]
    pub fn la(&self, i: usize) -> Result<f64, Refusal> {
        self.component(4, i)
    }
}

#[cfg(test)]
mod tests {
    use super::*;
    use crate::safe::{MieComponents, QuantumComponents, State, mie_parameters, mie_stage, quantum_parameters, quantum_stage};

    const ZERO: [f64; 4] = [0.0; 4];
    const RIGHT: QuantumComponents = QuantumComponents {
        m: &[1.0, 1.0],
        sigma: &[3.0243, 2.7778],
        epsilon_k: &[26.706, 37.501],
        lr: &[9.0, 13.0],
        la: &[6.0, 6.0],
        mass: &[3.3474472e-27, 3.35092e-26],
        order: &[1, 1],
        k_ij: &ZERO,
        l_ij: &ZERO,
    };
    const MIE: MieComponents = MieComponents {
        m: &[1.4373, 1.0],
        sigma: &[3.7257, 3.7412],
        epsilon_k: &[206.12, 153.36],
        lr: &[12.4, 12.65],
        la: &[6.0, 6.0],
        k_ij: &ZERO,
        gamma_ij: &ZERO,
    };

    #[test]
    fn entries_are_those_of_the_lists() {
        let set = quantum_parameters(&RIGHT).unwrap();
        let t = set.table(30.0).unwrap();
        assert_eq!(t.hs_diameter(0, 1).unwrap(), t.values[at(table::HS_DIAMETER, 0, 1)]);
        assert_eq!(t.quantum_d(1, 1).unwrap(), t.values[at(table::QUANTUM_D, 1, 1)]);
        assert_eq!(t.depth_count(1, 0).unwrap(), t.counts[at(counts::DEPTH, 1, 0)]);
        assert_eq!(
            (set.sigma_ij(1, 1), set.lambda_r_ij(0, 0), set.mass_ij(0, 0), set.order(0, 1)),
            (Ok(2.7778), Ok(9.0), Ok(3.3474472e-27), Ok(1))
        );
        assert_eq!(set.radii(0, 1, 30.0).unwrap().sigma[0], t.sigma_eff(0, 1).unwrap());
        let mie = mie_parameters(&MIE).unwrap();
        assert_eq!(
            (mie.m(0), mie.sigma(1), mie.epsilon_k(0), mie.lr(1), mie.la(0)),
            (Ok(1.4373), Ok(3.7412), Ok(206.12), Ok(12.65), Ok(6.0))
        );
        assert_eq!((mie.sigma_ij(0, 0), mie.lr_ij(1, 1), mie.la_ij(1, 1)), (Ok(3.7257), Ok(12.65), Ok(6.0)));
    }

    #[test]
    fn an_index_outside_is_refused_and_nothing_panics() {
        let mut set = quantum_parameters(&RIGHT).unwrap();
        let mut mie = mie_parameters(&MIE).unwrap();
        let t = set.table(30.0).unwrap();
        for k in [12, 13, 144, usize::MAX, usize::MAX - 11] {
            assert_eq!(
                (t.hs_diameter(k, 0), t.hs_diameter(0, k), t.sigma_count(k, k)),
                (Err(Refusal::Length), Err(Refusal::Length), Err(Refusal::Length))
            );
        }
        // a count that was spoiled by hand among them
        for count in [2, 0, 13, usize::MAX] {
            (set.count, mie.count) = (count, count);
            for k in [2, 11, 12, 13, 864, usize::MAX, usize::MAX / 12] {
                assert_eq!(
                    (set.c_ij(k, 0), set.mass_ij(0, k), set.order(k, k)),
                    (Err(Refusal::Length), Err(Refusal::Length), Err(Refusal::Length))
                );
                assert_eq!((mie.alpha_ij(k, 0), mie.c_ij(0, k)), (Err(Refusal::Length), Err(Refusal::Length)));
                assert!(k < count && k < SIDE || mie.la(k) == Err(Refusal::Length));
                assert_eq!((set.radii(k, 0, 30.0).is_err(), mie.radius(0, k, 200.0).is_err()), (true, true));
            }
        }
    }

    #[test]
    fn a_list_of_any_wrong_length_is_refused() {
        let long = [0.5; 150];
        let bytes = [1u8; 150];
        let set = quantum_parameters(&RIGHT).unwrap();
        let mie = mie_parameters(&MIE).unwrap();
        let t = set.table(30.0).unwrap();
        let state = State { temperature: 30.0, fractions: &[0.5, 0.5], densities: &[0.01, 0.01] };
        for n in 0..=150 {
            let l = &long[..n];
            let spoiled = [
                QuantumComponents { m: l, ..RIGHT },
                QuantumComponents { sigma: l, ..RIGHT },
                QuantumComponents { epsilon_k: l, ..RIGHT },
                QuantumComponents { lr: l, ..RIGHT },
                QuantumComponents { la: l, ..RIGHT },
                QuantumComponents { mass: l, ..RIGHT },
                QuantumComponents { order: &bytes[..n], ..RIGHT },
                QuantumComponents { k_ij: l, ..RIGHT },
                QuantumComponents { l_ij: l, ..RIGHT },
            ];
            for (k, c) in spoiled.iter().enumerate() {
                if n != if k < 7 { 2 } else { 4 } {
                    assert_eq!(quantum_parameters(c).map(|_| ()), Err(Refusal::Length), "list {k} of length {n}");
                    assert_eq!(quantum_stage(c, &state, true), Err(Refusal::Length));
                }
            }
            let spoiled = [
                MieComponents { la: l, ..MIE },
                MieComponents { m: l, ..MIE },
                MieComponents { gamma_ij: l, ..MIE },
                MieComponents { k_ij: l, ..MIE },
            ];
            for (k, c) in spoiled.iter().enumerate() {
                if n != if k < 2 { 2 } else { 4 } {
                    assert_eq!(mie_parameters(c).map(|_| ()), Err(Refusal::Length));
                    assert_eq!(mie_stage(c, &state, true), Err(Refusal::Length));
                }
            }
            if n != 2 {
                for s in [State { fractions: l, ..state }, State { densities: l, ..state }] {
                    assert_eq!(set.energies(&s, &t.values, true), Err(Refusal::Length));
                    assert_eq!(set.total(&s, &t.values, true), Err(Refusal::Length));
                    assert_eq!(set.energies_ends(&s, &t.values, true), Err(Refusal::Length));
                    assert_eq!(mie.dispersion(&s, &[3.6, 3.6], true), Err(Refusal::Length));
                }
                assert_eq!(mie.dispersion(&state, l, true), Err(Refusal::Length));
                assert_eq!(mie.dispersion_ends(&state, l, true), Err(Refusal::Length));
                let mut out = long;
                assert_eq!(mie.diameters(200.0, &mut out[..n]), Err(Refusal::Length));
                assert_eq!(out, long);
            }
            assert_eq!(set.energies(&state, l, true), Err(Refusal::Length));
            assert_eq!(set.total(&state, l, true), Err(Refusal::Length));
        }
    }
}
