//! Text that is cut, and vectors and boxes of kinds.

use arc_buffer::kinds::{Slice, Subsliceable, Text, VecIn, Wraps};
use std::alloc::{Allocator, Global};
use std::boxed::BoxedStr;
use std::test::Fail;

/// The bytes of `aéb`.
const A_E_B: [u8; 4] = [0x61, 0xc3, 0xa9, 0x62];

#[test]
fn text_is_cut_between_characters(rt: HostRuntime) -> Result<(), Fail> {
    let found = [
        Text::try_from_slice(&A_E_B).is_ok(),
        Text::is_boundary(&A_E_B, 1),
        Text::is_boundary(&A_E_B, 2),
        Text::is_boundary(&A_E_B, 4),
    ];
    assert!(rt; found == [true, true, false, true]);
    Ok(())
}

/// A vector of a kind, unwrapped and wrapped again: it has the same list.
fn vec_again<S: VecIn<A>, A: Allocator>(vec: S::Vec) -> S::Vec {
    let inner = vec.into_inner();
    S::Vec::from_inner(inner)
}

/// A box of a kind, unwrapped and wrapped again: it has the same list.
fn boxed_again<S: VecIn<A>, A: Allocator>(boxed: S::Boxed) -> S::Boxed {
    let inner = boxed.into_inner();
    S::Boxed::from_inner(inner)
}

/// Whether a string is the same again.
fn text_again(alloc: Global, text: &str) -> Option<bool> {
    let again = vec_again::<Text, Global>(String::from_str(alloc, text).ok()?);
    Some(again.as_str() == text)
}

/// Whether a box of text is the same again.
fn boxed_text_again(alloc: Global, text: &str) -> Option<bool> {
    let again = boxed_again::<Text, Global>(BoxedStr::from_str(alloc, text).ok()?);
    Some(again.as_str() == text)
}

#[test]
fn wrapped_again(rt: HostRuntime) -> Result<(), Fail> {
    let told = [
        text_again(rt.alloc(), "aéb"),
        boxed_text_again(rt.alloc(), "aéb"),
    ];
    assert!(rt; told == [Some(true); 2]);
    Ok(())
}
