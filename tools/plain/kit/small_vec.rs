//! Stands for the kit's `smallvec`. It differs in that its values are copied and have one that is there from the start.

use crate::alloc::{AllocFailed, Global};
use crate::vec::Vec;

/// Values of which the first `N` stand in place, and all of them in a list once there are more.
pub enum SmallVec<T, const N: usize> {
    Few { values: [T; N], count: usize },
    Many(Vec<T>),
}

impl<T: Copy + Default, const N: usize> SmallVec<T, N> {
    #[inline]
    pub fn new(_: Global) -> Self {
        let values = [T::default(); N];
        SmallVec::Few { values, count: 0 }
    }

    #[inline]
    pub fn push(&mut self, value: T) -> Result<(), AllocFailed<T>> {
        match self {
            SmallVec::Few { values, count } if *count < N => {
                values[*count] = value;
                *count += 1;
                Ok(())
            }
            SmallVec::Few { values, .. } => {
                let Ok(mut list) = Vec::with_capacity(Global, 2 * N) else {
                    return Err(AllocFailed(value));
                };
                list.0.extend_from_slice(values);
                list.0.push(value);
                *self = SmallVec::Many(list);
                Ok(())
            }
            SmallVec::Many(list) => list.push(value),
        }
    }

    #[inline]
    pub fn as_slice(&self) -> &[T] {
        match self {
            SmallVec::Few { values, count } => &values[..*count],
            SmallVec::Many(list) => &list.0,
        }
    }
}
