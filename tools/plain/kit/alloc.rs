//! Stands for the kit's allocator. It differs in that it is a word alone: all memory is that of Rust's own allocator.

#[derive(Clone, Copy)]
pub struct Global;

/// There is no memory.
pub struct AllocError;

/// There is no memory for a value, which is given back.
pub struct AllocFailed<T>(pub T);

impl<T> From<AllocFailed<T>> for AllocError {
    fn from(_: AllocFailed<T>) -> Self {
        AllocError
    }
}

/// The kit asks of a type that its values can be dropped. Here all can.
pub trait Drop {}

impl<T: ?Sized> Drop for T {}
