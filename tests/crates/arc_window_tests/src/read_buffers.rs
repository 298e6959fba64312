//! Read windows over callers' buffers: what these say of themselves, and the number that one has
//! behind an `Arc`.
use crate::callers::{Answering, Lent};
use arc_block::layout::{AnyBufferLayout, ArcLayout, DefaultLayout, RawLayout};
use arc_buffer::buffer::AsRefBuffer;
use arc_buffer::kinds::Plain;
use arc_read::slice::ArcSlice;
use std::alloc::Global;
use std::sync::{Arc, Wait};
use std::test::Fail;

/// Readers of bytes over a buffer that is asked too.
type Over = ArcSlice<Plain<u8>, DefaultLayout, Answering>;

/// Whether a window is alone over a buffer that answers so, whether it is beside a clone, and
/// whether the buffer is given back once that has ended.
fn alone_over(rt: &impl Wait, alloc: Global, is_alone: bool) -> Option<[bool; 3]> {
    let bytes = Vec::from_slice(alloc, &[1, 2]).ok()?;
    let window = Over::try_from_buffer(alloc, Answering { bytes, is_alone }).ok()?;
    let alone = window.is_unique();
    let clone = window.try_clone(rt).ok()?;
    let beside = window.is_unique();
    drop(clone);
    Some([alone, beside, window.try_into_buffer().is_ok()])
}

/// The only window over a buffer isn't alone where the buffer says no, which is given back all the
/// same.
#[test]
fn asked_of_buffers(rt: HostRuntime) -> Result<(), Fail> {
    assert!(rt; alone_over(&rt, rt.alloc(), true) == Some([true, false, true]));
    assert!(rt; alone_over(&rt, rt.alloc(), false) == Some([false, false, true]));
    Ok(())
}

/// Bytes that are lent, with a number, as a buffer that is only read.
type Numbered = AsRefBuffer<Lent>;

/// Bytes with the number 7.
fn numbered(alloc: Global) -> Option<Numbered> {
    let bytes = Vec::from_slice(alloc, &[1, 2]).ok()?;
    Some(AsRefBuffer(Lent { bytes, number: 7 }))
}

/// The number that a window over such a buffer behind an `Arc` lends, and a clone of it.
fn behind_arc<L: AnyBufferLayout>(rt: &impl Wait, alloc: Global) -> Option<[Option<u32>; 2]> {
    let shared = Arc::new(alloc, numbered(alloc)?).ok()?;
    let window = ArcSlice::<Plain<u8>, L, Numbered>::try_from_raw_buffer(alloc, shared).ok()?;
    let number = window.borrowed_metadata().copied();
    let clone = window.try_clone(rt).ok()?;
    drop(window);
    Some([number, clone.borrowed_metadata().copied()])
}

/// The number that a window over such an `Arc` as a buffer lends.
fn of_arc(alloc: Global) -> Option<u32> {
    let shared = Arc::new(alloc, numbered(alloc)?).ok()?;
    let window: ArcSlice<Plain<u8>, DefaultLayout, Arc<Numbered>> = ArcSlice::try_from_buffer(
        alloc, shared,
    ).ok()?;
    window.borrowed_metadata().copied()
}

/// The number of a buffer behind an `Arc` is lent where that is counted, where it is a block by
/// itself, and where it is the buffer.
#[test]
fn numbers_behind_arcs(rt: HostRuntime) -> Result<(), Fail> {
    let told = [
        behind_arc::<DefaultLayout>(&rt, rt.alloc()),
        behind_arc::<ArcLayout<true, false>>(&rt, rt.alloc()),
        behind_arc::<RawLayout>(&rt, rt.alloc()),
    ];
    assert!(rt; told == [Some([Some(7); 2]); 3]);
    assert!(rt; of_arc(rt.alloc()) == Some(7));
    Ok(())
}
