//! What is told to the compiler.
use arc_owners::hint::assert_unchecked;

/// What holds is told, and nothing happens.
#[test]
fn told() {
    unsafe { assert_unchecked(1 < 2) }
}
