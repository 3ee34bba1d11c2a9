//! The bench: its own program for paper 01, generators of inputs, and the comparison of two programs.

pub mod compare;
pub mod gen;
pub mod own;
#[cfg(feature = "product")]
pub mod product;
