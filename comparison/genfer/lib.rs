//! Genfer's four files beside stand-ins for what they lean on.
//! `ppl`, `support`, `semantics` and `semantics::support` are genfer's own, unchanged;
//! `number`, `interval`, `semantics::gf` and the crate `num-traits` are made here, as small as compiles.

pub mod interval;
pub mod number;
pub mod ppl;
pub mod semantics;
pub mod support;

// Lets genfer's files find the crate `num-traits` here.
extern crate self as num_traits;
pub use number::{One, Zero};
