//! The loops over windows of items that are dropped one by one.
ghost use Rattle.std.specs.Prelude.{◌≤◌, length};

use crate::at_site::at_site;
use crate::keep::{Keep, OwnedReader};
use crate::rounds::ROUND;
use crate::words::{Owning, Words};
use arc_owners::error::OwnerError;
use arc_slice::buffer::Owned;
use arc_slice::layout::{DefaultLayout, DefaultLayoutMut};
use arc_slice::{ArcSlice, ArcSliceMut, IntoMut};
use std::alloc::Global;
use std::sync::Wait;

/// An item that has to be dropped, and has nothing in it here.
pub type Item = Option<Box<u64>>;

/// A window that writes such items.
type OwnedWriter = ArcSliceMut<Owned<Item>, DefaultLayoutMut, 1>;

/// Eight items.
fn items() -> [Item; 8] {
    [None, None, None, None, None, None, None, None]
}

/// Runs an operation so often, and answers whether all was done.
pub fn run<W: Wait>(rt: &W, alloc: Global, owning: Owning, words: Words, keep: &dyn Keep) -> bool {
    let (count, second) = (words.count, words.second);
    let made: Result<OwnedReader, [Item; 8]> = ArcSlice::try_from_array(alloc, items());
    let Ok(window) = made else {
        return false;
    };
    let Ok(writer) = OwnedWriter::try_with_capacity(alloc, ROUND) else {
        return false;
    };
    if window.check_range(1, 3).is_err() {
        return false;
    }
    match owning {
        Owning::Clone => at_site!(second, clone[W](rt, &window, count, keep)).is_ok(),
        Owning::Cut => at_site!(second, cut[W](rt, &window, count, keep)).is_ok(),
        Owning::Make => at_site!(second, make[](alloc, count, keep)),
        Owning::Array => at_site!(second, array[](alloc, count, keep)),
        Owning::Push => at_site!(second, push[](alloc, count, keep)),
        Owning::Freeze => at_site!(second, freeze[](writer, count, keep)),
    }
}

/// A clone, and its release.
#[inline(never)]
fn clone<W: Wait, const SITE: usize>(
    rt: &W,
    window: &OwnedReader,
    count: usize,
    keep: &dyn Keep,
) -> Result<(), OwnerError> {
    for _ in 0..count {
        let clone = window.try_clone(rt)?;
        keep.owned(&clone);
    }
    Ok(())
}

/// A cut, and its release.
#[inline(never)]
fn cut<W: Wait, const SITE: usize>(
    rt: &W,
    window: &OwnedReader,
    count: usize,
    keep: &dyn Keep,
) -> Result<(), OwnerError>
    requires { 3 ≤ length window.now.items }
{
    for _ in 0..count {
        let cut = window.try_subslice(rt, 1, 3)?;
        keep.owned(&cut);
    }
    Ok(())
}

/// A window over eight items, and its release.
#[inline(never)]
fn make<const SITE: usize>(alloc: Global, count: usize, keep: &dyn Keep) -> bool {
    for _ in 0..count {
        let made: Result<OwnedReader, [Item; 8]> = ArcSlice::try_from_array(alloc, items());
        let Ok(window) = made else {
            return false;
        };
        keep.owned(&window);
    }
    true
}

/// Eight items as a window, and back.
#[inline(never)]
fn array<const SITE: usize>(alloc: Global, count: usize, keep: &dyn Keep) -> bool {
    for _ in 0..count {
        let made: Result<OwnedReader, [Item; 8]> = ArcSlice::try_from_array(alloc, items());
        let Ok(window) = made else {
            return false;
        };
        keep.owned(&window);
        let Ok(back) = window.try_into_array::<8>() else {
            return false;
        };
        keep.number(usize::from(back[0].is_none()));
    }
    true
}

/// Items pushed into a new window that has places for all, and their release.
#[inline(never)]
fn push<const SITE: usize>(alloc: Global, count: usize, keep: &dyn Keep) -> bool {
    for _ in 0..count {
        let Ok(mut window) = OwnedWriter::try_with_capacity(alloc, ROUND) else {
            return false;
        };
        for i in 0..ROUND {
            if window.try_push(None).is_err() {
                return false;
            }
            keep.number(i);
        }
    }
    true
}

/// A window that is read from then on, and back.
#[inline(never)]
fn freeze<const SITE: usize>(window: OwnedWriter, count: usize, keep: &dyn Keep) -> bool {
    let mut window = window;
    for _ in 0..count {
        let Ok(frozen) = window.try_freeze::<DefaultLayout>() else {
            return false;
        };
        let frozen: OwnedReader = frozen;
        keep.owned(&frozen);
        let Ok(back) = frozen.try_into_mut::<DefaultLayoutMut>() else {
            return false;
        };
        window = back;
    }
    true
}
