//! What the Rust crate uses of `cfg-if`, so that its build asks no registry.
#![no_std]

/// Keeps, of a chain of `if #[cfg(..)]`, the items of the first whose condition holds.
#[macro_export]
macro_rules! cfg_if {
    (@past $past:meta; if #[cfg($here:meta)] { $($then:item)* } else $($rest:tt)*) => {
        $(#[cfg(all($past, $here))] $then)*
        $crate::cfg_if! { @past all($past, not($here)); $($rest)* }
    };
    (@past $past:meta; { $($last:item)* }) => {
        $(#[cfg($past)] $last)*
    };
    ($($chain:tt)*) => {
        $crate::cfg_if! { @past all(); $($chain)* }
    };
}
