//! The loops over small windows, whose bytes lie in themselves or on a block.
ghost use Rattle.std.specs.Prelude.{◌≤◌, length};

use crate::at_site::at_site;
use crate::keep::Keep;
use crate::words::{Operation, Words};
use arc_owners::error::OwnerError;
use arc_slice::inlined::SmallArcBytes;
use std::alloc::Global;
use std::sync::Wait;

/// Runs an operation so often on a window over these bytes, and answers whether all was done.
pub fn run<W: Wait>(rt: &W, alloc: Global, bytes: &[u8], words: Words, keep: &dyn Keep) -> bool {
    let (count, second) = (words.count, words.second);
    let Ok(window) = SmallArcBytes::try_from_slice(alloc, bytes) else {
        return false;
    };
    if window.check_range(7, 15).is_err() {
        return false;
    }
    match words.operation {
        Operation::Loop => Ok(empty_loop(count, keep)),
        Operation::WindowLoop => Ok(window_loop(&window, count, keep)),
        Operation::CloneShared => at_site!(second, clone_shared[W](rt, &window, count, keep)),
        Operation::ShortCutShared => at_site!(second, cut_shared[W](rt, &window, count, keep)),
        Operation::Make => at_site!(second, make[](alloc, bytes, count, keep)),
        Operation::Read => Ok(at_site!(second, read[](&window, count, keep))),
        _ => return false,
    }
    .is_ok()
}

/// Nothing but the loop.
#[inline(never)]
fn empty_loop(count: usize, keep: &dyn Keep) {
    for i in 0..count {
        keep.number(i);
    }
}

/// Nothing but the loop, which hands a window on.
#[inline(never)]
fn window_loop(window: &SmallArcBytes, count: usize, keep: &dyn Keep) {
    for _ in 0..count {
        keep.small(window);
    }
}

/// A clone of a window behind a reference, and its release.
#[inline(never)]
fn clone_shared<W: Wait, const SITE: usize>(
    rt: &W,
    window: &SmallArcBytes,
    count: usize,
    keep: &dyn Keep,
) -> Result<(), OwnerError> {
    for _ in 0..count {
        let clone = window.try_clone(rt)?;
        keep.small(&clone);
    }
    Ok(())
}

/// A cut of a window behind a reference, and its release.
#[inline(never)]
fn cut_shared<W: Wait, const SITE: usize>(
    rt: &W,
    window: &SmallArcBytes,
    count: usize,
    keep: &dyn Keep,
) -> Result<(), OwnerError>
    requires { 15 ≤ length window.now.items }
{
    for _ in 0..count {
        let cut = window.try_subslice(rt, 7, 15)?;
        keep.small(&cut);
    }
    Ok(())
}

/// A window over a copy of bytes, and its release.
#[inline(never)]
fn make<const SITE: usize>(
    alloc: Global,
    bytes: &[u8],
    count: usize,
    keep: &dyn Keep,
) -> Result<(), OwnerError> {
    for _ in 0..count {
        let window: SmallArcBytes = SmallArcBytes::try_from_slice(alloc, bytes)?;
        keep.small(&window);
    }
    Ok(())
}

/// The window's bytes.
#[inline(never)]
fn read<const SITE: usize>(window: &SmallArcBytes, count: usize, keep: &dyn Keep) {
    for _ in 0..count {
        keep.bytes(window.as_slice());
    }
}
