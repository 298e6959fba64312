//! What the Rust crate uses of `either`, so that its build asks no registry.
#![no_std]

/// One of two.
pub enum Either<L, R> {
    /// The first.
    Left(L),
    /// The second.
    Right(R),
}
