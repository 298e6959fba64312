//! Items that are lent to be changed: a caller with a clause of its own.

use arc_block::layout::LayoutMut;
use arc_buffer::buffer::BufferMut;
use arc_buffer::kinds::AnyItems;
use arc_owners::mark::Mark;
use arc_write::slice_mut::{ArcBytesMut, ArcSliceMut};
use std::alloc::Allocator;
use std::test::Fail;

/// The window with an item in the place of the one at `i`: its other items stay, and so do its
/// place and its capacity.
fn set<
    S: AnyItems,
    L: LayoutMut,
    B: BufferMut<S::Item> + Drop,
    M: Drop,
    A: Allocator + Copy,
    H: Mark,
>(window: &mut ArcSliceMut<S, L, 1, B, M, A, H>, i: usize, item: S::Item) {
    window.as_mut_slice()[i] = item;
}

#[test]
fn set_in_place(rt: HostRuntime) -> Result<(), Fail> {
    let mut window: ArcBytesMut = ArcSliceMut::try_from_slice(rt.alloc(), &[5, 4, 3])?;
    if window.len() < 2 {
        return Err("fewer than were given".into());
    }
    set(&mut window, 1, 9);
    assert!(rt; window.as_slice() == [5, 9, 3].as_slice());
    Ok(())
}
