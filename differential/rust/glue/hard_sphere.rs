//! Stand-in for feos' crate::hard_sphere: the trait that saftvrmie/parameters.rs implements.
use nalgebra::DVector;
use num_dual::DualNum;

pub enum MonomerShape<'a, D> {
    Spherical(usize),
    NonSpherical(&'a DVector<f64>),
    Heterosegmented([DVector<D>; 4], &'a DVector<usize>),
}

pub trait HardSphereProperties {
    fn monomer_shape<N: DualNum<Primitive = f64>>(&self, temperature: N) -> MonomerShape<'_, N>;
    fn hs_diameter<D: DualNum<Primitive = f64> + Copy>(&self, temperature: D) -> DVector<D>;
}
