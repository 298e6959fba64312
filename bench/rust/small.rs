//! The loops over small windows, whose bytes lie in themselves or on a block.
use crate::at_site;
use crate::keep::{Keep, chosen, empty_loop, window_loop};
use crate::{Usual, Words};
use arc_slice::error::AllocError;
use arc_slice::inlined::SmallArcSlice;

type Small = SmallArcSlice<[u8], Usual>;

/// Runs an operation so often on a window over these bytes, and answers whether all was done.
pub fn run(bytes: &[u8], words: &Words) -> Option<()> {
    let (count, second) = (words.count, words.second);
    let keep = chosen::<Small>(count);
    let window: Small = SmallArcSlice::try_from_slice(bytes).ok()?;
    match words.operation.as_str() {
        "loop" => Ok(empty_loop(count, keep)),
        "window_loop" => Ok(window_loop(&window, count, keep)),
        "clone_shared" => at_site!(second, clone_shared(&window, count, keep)),
        "short_cut_shared" => at_site!(second, cut_shared(&window, count, keep)),
        "make" => at_site!(second, make(bytes, count, keep)),
        "read" => Ok(at_site!(second, read(&window, count, keep))),
        _ => return None,
    }
    .ok()
}

/// A clone of a window behind a reference, and its release.
#[inline(never)]
fn clone_shared<const SITE: usize>(
    window: &Small,
    count: usize,
    keep: &dyn Keep<Small>,
) -> Result<(), AllocError> {
    for _ in 0..count {
        let clone = window.try_clone()?;
        keep.window(&clone);
    }
    Ok(())
}

/// A cut of a window behind a reference, and its release.
#[inline(never)]
fn cut_shared<const SITE: usize>(
    window: &Small,
    count: usize,
    keep: &dyn Keep<Small>,
) -> Result<(), AllocError> {
    for _ in 0..count {
        let cut = window.try_subslice(7..15)?;
        keep.window(&cut);
    }
    Ok(())
}

/// A window over a copy of bytes, and its release.
#[inline(never)]
fn make<const SITE: usize>(
    bytes: &[u8],
    count: usize,
    keep: &dyn Keep<Small>,
) -> Result<(), AllocError> {
    for _ in 0..count {
        let window: Small = SmallArcSlice::try_from_slice(bytes)?;
        keep.window(&window);
    }
    Ok(())
}

/// The window's bytes.
#[inline(never)]
fn read<const SITE: usize>(window: &Small, count: usize, keep: &dyn Keep<Small>) {
    for _ in 0..count {
        keep.bytes(window);
    }
}
