//! Stands for the kit's `arrayvec`. It differs in that its values are copied, so that none has to be dropped.

use std::mem::MaybeUninit;
use std::slice;

/// At most `N` values, in place.
pub struct ArrayVec<T, const N: usize> {
    values: [MaybeUninit<T>; N],
    count: usize,
}

#[derive(Debug)]
pub struct CapacityError;

impl<T: Copy, const N: usize> ArrayVec<T, N> {
    #[inline]
    pub fn new() -> Self {
        let values = [const { MaybeUninit::uninit() }; N];
        ArrayVec { values, count: 0 }
    }

    /// Puts a value at the end. It panics where there is no room.
    #[inline]
    pub fn push(&mut self, value: T) {
        self.values[self.count] = MaybeUninit::new(value);
        self.count += 1;
    }

    pub fn try_extend_from_slice(&mut self, values: &[T]) -> Result<(), CapacityError> {
        if values.len() > N - self.count {
            return Err(CapacityError);
        }
        for value in values {
            self.push(*value);
        }
        Ok(())
    }

    #[inline]
    pub fn as_slice(&self) -> &[T] {
        // SAFETY: the first `count` values have been written.
        unsafe { slice::from_raw_parts(self.values.as_ptr().cast(), self.count) }
    }

    pub fn is_full(&self) -> bool {
        self.count == N
    }
}

/// A text of at most `N` bytes, in place.
pub struct ArrayString<const N: usize> {
    bytes: ArrayVec<u8, N>,
}

impl<const N: usize> ArrayString<N> {
    pub fn new() -> Self {
        ArrayString { bytes: ArrayVec::new() }
    }

    /// Puts a text at the end. It panics where there is no room.
    pub fn push_str(&mut self, text: &str) {
        self.bytes.try_extend_from_slice(text.as_bytes()).unwrap();
    }

    pub fn as_bytes(&self) -> &[u8] {
        self.bytes.as_slice()
    }
}
