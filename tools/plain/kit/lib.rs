//! Stands for the parts of the kit that the crates use, in plain Rust. In each part, what the crates do not use is left out.

pub mod alloc;
pub mod array_vec;
pub mod collections;
pub mod digest;
pub mod host;
pub mod index_map;
pub mod small_vec;
pub mod text;
pub mod vec;

/// What each file of the crates sees without naming it. Each name here hides one of Rust's own.
pub mod prelude {
    pub use crate::alloc::Drop;
    pub use crate::host::{AllocGlobal, HostRuntime};
    pub use crate::text::FromStr as _;
    pub use crate::vec::{Collect as _, Vec};
}

/// `prove!(condition)`: a fact for the prover, which costs nothing where a program runs.
#[macro_export]
macro_rules! prove_in {
    ($condition:expr) => {
        let _ = $condition;
    };
}
