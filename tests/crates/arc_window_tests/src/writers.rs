//! Write windows: a caller that is generic in the window, and calls with passes.

use arc_block::layout::{DefaultLayoutMut, VecLayout};
use arc_buffer::kinds::Text;
use arc_owners::mark::Stepping;
use arc_owners::owners::Pass;
use arc_read::slice::ArcSlice;
use arc_write::slice_mut::{ArcBytesMut, ArcBytesShared, ArcSliceMut, IntoMut};
use std::alloc::Global;
use std::test::Fail;

/// How many items a window of whatever type has once it is written again, if it can be.
fn items_written<W: IntoMut<Alloc = Global> + Drop>(window: W) -> Option<usize>
where
    W::Mark: Stepping,
{
    match window.try_into_mut::<DefaultLayoutMut>() {
        Ok(window) => Some(window.len()),
        Err(_) => None,
    }
}

/// A writer is alone by any pass of its block.
fn alone_as_writer(window: ArcBytesMut) {
    let mut pass = window.pass();
    window.only(&mut pass);
    window.release_as(&mut pass);
}

/// Ends a writer with a pass that has learnt from another one.
fn learnt(window: ArcBytesMut) {
    let mut pass = window.pass();
    let other = window.pass();
    window.learn(&mut pass, &other);
    window.release_as(&mut pass);
}

/// The same of one of several writers.
fn shared_learnt(window: ArcBytesShared) {
    let mut pass = window.pass();
    let other = window.pass();
    window.learn(&mut pass, &other);
    window.release_as(&mut pass);
}

/// Whether a window with four places has no items, and whether it finds room for four with a pass.
fn reclaimed_as(alloc: Global) -> Option<[bool; 2]> {
    let mut pass = Pass::none();
    let made = ArcBytesMut::<DefaultLayoutMut>::try_with_capacity_as(alloc, 4, &mut pass);
    let Ok(mut window) = made else {
        return None;
    };
    let is_empty = window.is_empty();
    let is_found = window.try_reclaim_as(4, &mut pass);
    window.drop_with_unique_hint_as(&mut pass);
    Some([is_empty, is_found])
}

#[test]
fn called_with_passes(rt: HostRuntime) -> Result<(), Fail> {
    learnt(ArcSliceMut::try_from_slice(rt.alloc(), &[1])?);
    let window: ArcBytesMut = ArcSliceMut::try_from_slice(rt.alloc(), &[1])?;
    let Ok(shared) = window.into_shared() else {
        return Err("refused on a block of its own".into());
    };
    shared_learnt(shared);
    assert!(rt; reclaimed_as(rt.alloc()) == Some([true; 2]));
    Ok(())
}

#[test]
fn written_again(rt: HostRuntime) -> Result<(), Fail> {
    let text: ArcSlice<Text, VecLayout> = ArcSlice::try_from_str(rt.alloc(), "ab")?;
    assert!(rt; items_written(text) == Some(2));
    alone_as_writer(ArcSliceMut::try_from_slice(rt.alloc(), &[1])?);
    Ok(())
}
