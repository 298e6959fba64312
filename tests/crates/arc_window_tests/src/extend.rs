//! A window extended by an iterator's items: a caller with a clause of its own.

use arc_write::slice_mut::{ArcBytesMut, ArcSliceMut};
use std::alloc::Global;
use std::test::Fail;

/// Whether there was room for all of the bytes, which then stand behind the others.
fn appended(window: &mut ArcBytesMut, bytes: &[u8]) -> bool {
    match window.try_extend(bytes.iter().copied()) {
        Ok(()) => true,
        Err(_) => false,
    }
}

/// Whether a window has the bytes that come.
fn has_what_comes(alloc: Global, bytes: &[u8]) -> bool {
    let mut window: ArcBytesMut = ArcSliceMut::new(alloc);
    let is_taken = appended(&mut window, bytes);
    (is_taken, window.as_slice()) == (true, bytes)
}

#[test]
fn as_many_as_come(rt: HostRuntime) -> Result<(), Fail> {
    assert!(rt; has_what_comes(rt.alloc(), &[1, 2, 3]));
    Ok(())
}
