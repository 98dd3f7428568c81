#![no_std]
//! Stand-in for the one ndarray type that reducer.rs names.
use core::ops::{Index, IndexMut};

pub struct ArrayViewMut1<'a, A>(&'a mut [A]);

impl<'a, A> From<&'a mut [A]> for ArrayViewMut1<'a, A> {
    fn from(slice: &'a mut [A]) -> Self {
        ArrayViewMut1(slice)
    }
}

impl<A> Index<[usize; 1]> for ArrayViewMut1<'_, A> {
    type Output = A;
    fn index(&self, i: [usize; 1]) -> &A {
        &self.0[i[0]]
    }
}

impl<A> IndexMut<[usize; 1]> for ArrayViewMut1<'_, A> {
    fn index_mut(&mut self, i: [usize; 1]) -> &mut A {
        &mut self.0[i[0]]
    }
}
