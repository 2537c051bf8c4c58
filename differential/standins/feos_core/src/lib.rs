//! Stand-in for feos_core: only what the files of docs/src name; parameters are lists already.
#[cfg(feature = "ended")]
use ends::F as f64;
use nalgebra::DVector;
use num_dual::DualNum;

#[derive(Debug)]
pub enum FeosError {
    IncompatibleParameters(String),
}
pub type FeosResult<T> = Result<T, FeosError>;

pub struct StateHD<D> {
    pub temperature: D,
    pub partial_density: DVector<D>,
    pub molefracs: DVector<D>,
}

pub trait ReferenceSystem {}
pub trait Subset {
    fn subset(&self, component_list: &[usize]) -> Self;
}
pub trait Molarweight {
    fn molar_weight(&self) -> quantity::MolarWeight<DVector<f64>>;
}
pub trait ResidualDyn {
    fn components(&self) -> usize;
    fn compute_max_density<D: DualNum<Primitive = f64> + Copy>(&self, molefracs: &DVector<D>) -> D;
    fn for_each_contribution<D: DualNum<Primitive = f64> + Copy>(&self, state: &StateHD<D>, f: impl FnMut(&'static str, D));
}

pub mod parameter {
    use super::FeosResult;
    #[cfg(feature = "ended")]
    use ends::F as f64;
    use nalgebra::{DMatrix, DVector};
    use quantity::MolarWeight;

    #[derive(Clone, Default)]
    pub struct Identifier;

    #[derive(Clone)]
    pub struct AssociationRecord<A>(Option<A>);
    impl<A> AssociationRecord<A> {
        pub fn new(parameters: Option<A>, _na: f64, _nb: f64, _nc: f64) -> Self {
            Self(parameters)
        }
    }

    #[derive(Clone)]
    pub struct PureRecord<P, A> {
        pub molarweight: f64,
        pub model_record: P,
        pub association: Vec<AssociationRecord<A>>,
    }
    impl<P, A> PureRecord<P, A> {
        pub fn new(_: Identifier, molarweight: f64, model_record: P) -> Self {
            Self { molarweight, model_record, association: vec![] }
        }
        pub fn with_association(_: Identifier, molarweight: f64, model_record: P, association: Vec<AssociationRecord<A>>) -> Self {
            Self { molarweight, model_record, association }
        }
    }

    pub trait CombiningRule<P> {
        fn combining_rule(pure_i: &P, pure_j: &P, parameters_i: &Self, parameters_j: &Self) -> Self;
    }

    #[derive(Clone)]
    pub struct Parameters<P, B, A> {
        pub pure: Vec<PureRecord<P, A>>,
        pub binary: Vec<B>,
        pub molar_weight: MolarWeight<DVector<f64>>,
    }

    impl<P: Clone, B: Clone, A: Clone> Parameters<P, B, A> {
        /// Masses in kilograms; pair records row by row.
        pub fn from_lists(records: Vec<P>, mass: Vec<f64>, binary: Vec<B>) -> Self {
            let molar_weight = MolarWeight(DVector::from(mass.clone()));
            let pure = records.into_iter().zip(mass).map(|(r, m)| PureRecord::new(Identifier, m, r)).collect();
            Self { pure, binary, molar_weight }
        }
        pub fn new_pure(p: PureRecord<P, A>) -> FeosResult<Self>
        where
            B: Default,
        {
            Ok(Self::from_lists(vec![p.model_record], vec![p.molarweight], vec![B::default()]))
        }
        pub fn collate<T, const N: usize>(&self, f: impl Fn(&P) -> [T; N]) -> [DVector<T>; N] {
            std::array::from_fn(|k| DVector::from_fn(self.pure.len(), |i, _| f(&self.pure[i].model_record).into_iter().nth(k).unwrap()))
        }
        pub fn collate_binary<T, const N: usize>(&self, f: impl Fn(&B) -> [T; N]) -> [DMatrix<T>; N] {
            let n = self.pure.len();
            std::array::from_fn(|k| DMatrix::from_fn(n, n, |i, j| f(&self.binary[i * n + j]).into_iter().nth(k).unwrap()))
        }
        pub fn subset(&self, _: &[usize]) -> Self {
            self.clone()
        }
    }
}
