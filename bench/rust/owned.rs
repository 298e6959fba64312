//! The loops over windows of items that are dropped one by one.
use crate::at_site;
use crate::keep::{Keep, ROUND, chosen};
use crate::{Usual, Words};
use arc_slice::error::AllocError;
use arc_slice::{ArcSlice, ArcSliceMut};

/// An item that has to be dropped, and has nothing in it here.
type Item = Option<Box<u64>>;
type Reader = ArcSlice<[Item], Usual>;
type Writer = ArcSliceMut<[Item], Usual>;

/// Eight items.
fn items() -> [Item; 8] {
    [const { None }; 8]
}

/// Runs an operation so often, and answers whether all was done.
pub fn run(words: &Words) -> Option<()> {
    let (count, second) = (words.count, words.second);
    let keep = chosen::<Reader>(count);
    let window: Reader = ArcSlice::try_from_array(items()).ok()?;
    let writer: Writer = ArcSliceMut::try_with_capacity(ROUND).ok()?;
    match words.operation.as_str() {
        "owned_clone" => at_site!(second, clone(&window, count, keep)).ok(),
        "owned_cut" => at_site!(second, cut(&window, count, keep)).ok(),
        "owned_make" => at_site!(second, make(count, keep)),
        "owned_array" => at_site!(second, array(count, keep)),
        "owned_push" => at_site!(second, push(count, keep)),
        "owned_freeze" => at_site!(second, freeze(writer, count, keep)),
        _ => None,
    }
}

/// A clone, and its release.
#[inline(never)]
fn clone<const SITE: usize>(
    window: &Reader,
    count: usize,
    keep: &dyn Keep<Reader>,
) -> Result<(), AllocError> {
    for _ in 0..count {
        let clone = window.try_clone()?;
        keep.window(&clone);
    }
    Ok(())
}

/// A cut, and its release.
#[inline(never)]
fn cut<const SITE: usize>(
    window: &Reader,
    count: usize,
    keep: &dyn Keep<Reader>,
) -> Result<(), AllocError> {
    for _ in 0..count {
        let cut = window.try_subslice(1..3)?;
        keep.window(&cut);
    }
    Ok(())
}

/// A window over eight items, and its release.
#[inline(never)]
fn make<const SITE: usize>(count: usize, keep: &dyn Keep<Reader>) -> Option<()> {
    for _ in 0..count {
        let window: Reader = ArcSlice::try_from_array(items()).ok()?;
        keep.window(&window);
    }
    Some(())
}

/// Eight items as a window, and back.
#[inline(never)]
fn array<const SITE: usize>(count: usize, keep: &dyn Keep<Reader>) -> Option<()> {
    for _ in 0..count {
        let window: Reader = ArcSlice::try_from_array(items()).ok()?;
        keep.window(&window);
        let back = <[Item; 8]>::try_from(window).ok()?;
        keep.number(usize::from(back[0].is_none()));
    }
    Some(())
}

/// Items pushed into a new window that has places for all, and their release.
#[inline(never)]
fn push<const SITE: usize>(count: usize, keep: &dyn Keep<Reader>) -> Option<()> {
    for _ in 0..count {
        let mut window: Writer = ArcSliceMut::try_with_capacity(ROUND).ok()?;
        for i in 0..ROUND {
            window.try_push(None).ok()?;
            keep.number(i);
        }
    }
    Some(())
}

/// A window that is read from then on, and back.
#[inline(never)]
fn freeze<const SITE: usize>(window: Writer, count: usize, keep: &dyn Keep<Reader>) -> Option<()> {
    let mut window = window;
    for _ in 0..count {
        let frozen: Reader = window.try_freeze().ok()?;
        keep.window(&frozen);
        window = frozen.try_into_mut().ok()?;
    }
    Some(())
}
