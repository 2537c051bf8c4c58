//! Stand-in for nalgebra's DMatrix and DVector: column by column, sums from zero in that order, quotients entry by entry.
use num_traits::Zero;
use std::ops::{Add, Div, Index, IndexMut, Mul};

#[derive(Clone, Debug)]
pub struct DMatrix<T> {
    rows: usize,
    columns: usize,
    data: Vec<T>,
}

impl<T> DMatrix<T> {
    /// Visits (0,0), (1,0), .. as nalgebra does.
    #[inline]
    pub fn from_fn(rows: usize, columns: usize, mut f: impl FnMut(usize, usize) -> T) -> Self {
        let mut data = Vec::with_capacity(rows * columns);
        for j in 0..columns {
            for i in 0..rows {
                data.push(f(i, j));
            }
        }
        Self { rows, columns, data }
    }
    pub fn shape(&self) -> (usize, usize) {
        (self.rows, self.columns)
    }
}

impl<T: Clone> DMatrix<T> {
    pub fn from_element(rows: usize, columns: usize, x: T) -> Self {
        Self { rows, columns, data: vec![x; rows * columns] }
    }
    pub fn zeros(rows: usize, columns: usize) -> Self
    where
        T: Zero,
    {
        Self::from_element(rows, columns, T::zero())
    }
    pub fn map<U>(&self, f: impl FnMut(T) -> U) -> DMatrix<U> {
        DMatrix { rows: self.rows, columns: self.columns, data: self.data.iter().cloned().map(f).collect() }
    }
    #[inline]
    pub fn sum(&self) -> T
    where
        T: Zero,
    {
        self.data.iter().cloned().fold(T::zero(), |a, b| a + b)
    }
}

impl<T> Index<(usize, usize)> for DMatrix<T> {
    type Output = T;
    #[inline]
    fn index(&self, (i, j): (usize, usize)) -> &T {
        assert!(i < self.rows && j < self.columns);
        &self.data[j * self.rows + i]
    }
}
impl<T> IndexMut<(usize, usize)> for DMatrix<T> {
    #[inline]
    fn index_mut(&mut self, (i, j): (usize, usize)) -> &mut T {
        assert!(i < self.rows && j < self.columns);
        &mut self.data[j * self.rows + i]
    }
}

#[derive(Clone, Debug)]
pub struct DVector<T> {
    data: Vec<T>,
}

impl<T> DVector<T> {
    #[inline]
    pub fn from_fn(n: usize, mut f: impl FnMut(usize, usize) -> T) -> Self {
        Self { data: (0..n).map(|i| f(i, 0)).collect() }
    }
    pub fn len(&self) -> usize {
        self.data.len()
    }
    pub fn iter(&self) -> std::slice::Iter<'_, T> {
        self.data.iter()
    }
}

impl<T: Clone> DVector<T> {
    pub fn map<U>(&self, f: impl FnMut(T) -> U) -> DVector<U> {
        DVector { data: self.data.iter().cloned().map(f).collect() }
    }
    #[inline]
    pub fn sum(&self) -> T
    where
        T: Zero,
    {
        self.data.iter().cloned().fold(T::zero(), |a, b| a + b)
    }
    pub fn component_mul(&self, other: &DVector<T>) -> DVector<T>
    where
        T: Mul<Output = T>,
    {
        assert_eq!(self.len(), other.len());
        DVector { data: self.data.iter().cloned().zip(other.data.iter().cloned()).map(|(a, b)| a * b).collect() }
    }
    /// Only compute_max_density calls it, and that is not ported.
    pub fn dot(&self, other: &DVector<T>) -> T
    where
        T: Zero + Add<Output = T> + Mul<Output = T>,
    {
        self.component_mul(other).sum()
    }
}

impl<T> From<Vec<T>> for DVector<T> {
    fn from(data: Vec<T>) -> Self {
        Self { data }
    }
}
impl<T> Index<usize> for DVector<T> {
    type Output = T;
    #[inline]
    fn index(&self, i: usize) -> &T {
        &self.data[i]
    }
}
impl<T> IndexMut<usize> for DVector<T> {
    #[inline]
    fn index_mut(&mut self, i: usize) -> &mut T {
        &mut self.data[i]
    }
}
impl<T: Clone + Div<Output = T>> Div<T> for DVector<T> {
    type Output = DVector<T>;
    fn div(self, divisor: T) -> DVector<T> {
        DVector { data: self.data.into_iter().map(|x| x / divisor.clone()).collect() }
    }
}
