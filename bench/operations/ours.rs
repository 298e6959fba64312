//! The loops over windows of this repository that are read, under each layout.
ghost use Rattle.std.specs.Prelude.{◌≡◌, ◌≤◌, length};

use crate::at_site::at_site;
use crate::handed::{Handed, MANY};
use crate::keep::Keep;
use crate::words::{Base, LayoutName, Operation, Words};
use crate::{back, traits, writers};
use arc_owners::error::OwnerError;
use arc_slice::ArcBytes;
use arc_slice::layout::{BoxedSliceLayout, DefaultLayout, RawLayout, VecLayout};
use std::alloc::Global;
use std::sync::Wait;

/// How many bytes the windows have.
const LEN: usize = 128;

/// Runs an operation on windows under a layout, and answers whether all was done.
pub fn run<W: Wait>(
    rt: &W,
    alloc: Global,
    layout: LayoutName,
    base: Base,
    words: Words,
    keep: &dyn Keep,
) -> bool {
    match (layout, words.operation) {
        (LayoutName::Usual, Operation::Reading(reading)) => {
            traits::run(rt, alloc, reading, words.count, keep)
        }
        (LayoutName::Usual, Operation::Writer(writing)) => {
            writers::run(alloc, base, writing, words, keep)
        }
        (LayoutName::Usual, _) => read_by::<DefaultLayout, W>(rt, alloc, base, words, keep),
        (LayoutName::Boxed, _) => read_by::<BoxedSliceLayout, W>(rt, alloc, base, words, keep),
        (LayoutName::Lone, _) => read_by::<VecLayout, W>(rt, alloc, base, words, keep),
        (LayoutName::Raw, _) => read_by::<RawLayout, W>(rt, alloc, base, words, keep),
    }
}

/// Runs an operation on windows under the layout L.
fn read_by<L: Handed, W: Wait>(
    rt: &W,
    alloc: Global,
    base: Base,
    words: Words,
    keep: &dyn Keep,
) -> bool {
    let (count, second) = (words.count, words.second);
    match words.operation {
        Operation::Make => at_site!(second, make[L](alloc, count, keep)).is_ok(),
        Operation::MakeHint => at_site!(second, make_hint[L](alloc, count, keep)).is_ok(),
        Operation::Array => at_site!(second, array[L](alloc, count, keep)).is_ok(),
        Operation::Back => back::run::<L>(alloc, base, words, keep),
        Operation::BackCloned => back::run_cloned::<L, W>(rt, alloc, words, keep),
        Operation::Advance => {
            let Some(mut window) = L::over(alloc, base, MANY) else {
                return false;
            };
            at_site!(second, advance[L](&mut window, count, keep))
        }
        _ => {
            let Some(window) = L::over(alloc, base, LEN) else {
                return false;
            };
            window.len() == LEN && read_window::<L, W>(rt, window, words, keep)
        }
    }
}

/// Runs an operation on a window that is there.
fn read_window<L: Handed, W: Wait>(
    rt: &W,
    window: ArcBytes<L>,
    words: Words,
    keep: &dyn Keep,
) -> bool
    requires { length window.items ≡ 128 }
{
    let (count, second) = (words.count, words.second);
    match words.operation {
        Operation::Loop => Ok(empty_loop(count, keep)),
        Operation::WindowLoop => Ok(window_loop::<L>(&window, count, keep)),
        Operation::Clone => at_site!(second, clone_local[L, W](rt, window, count, keep)),
        Operation::CloneShared => at_site!(second, clone_shared[L, W](rt, &window, count, keep)),
        Operation::CloneHint => at_site!(second, clone_hint[L, W](rt, &window, count, keep)),
        Operation::Read => Ok(at_site!(second, read[L](&window, count, keep))),
        Operation::EmptyCut => at_site!(second, cut_local[L, W](rt, window, 7, 7, count, keep)),
        Operation::EmptyCutShared => {
            at_site!(second, cut_shared[L, W](rt, &window, 7, 7, count, keep))
        }
        Operation::ShortCut => at_site!(second, cut_local[L, W](rt, window, 7, 15, count, keep)),
        Operation::ShortCutShared => {
            at_site!(second, cut_shared[L, W](rt, &window, 7, 15, count, keep))
        }
        Operation::SplitOff => at_site!(second, split_off[L, W](rt, &window, count, keep)),
        Operation::Unique => Ok(at_site!(second, unique[L](&window, count, keep))),
        _ => return false,
    }
    .is_ok()
}

/// Nothing but the loop.
#[inline(never)]
fn empty_loop(count: usize, keep: &dyn Keep) {
    for i in 0..count {
        keep.number(i);
    }
}

/// Nothing but the loop, which hands a window on.
#[inline(never)]
fn window_loop<L: Handed>(window: &ArcBytes<L>, count: usize, keep: &dyn Keep) {
    for _ in 0..count {
        L::hand(window, keep);
    }
}

/// A clone of a local window, and its release.
#[inline(never)]
fn clone_local<L: Handed, W: Wait, const SITE: usize>(
    rt: &W,
    window: ArcBytes<L>,
    count: usize,
    keep: &dyn Keep,
) -> Result<(), OwnerError> {
    for _ in 0..count {
        let clone = window.try_clone(rt)?;
        L::hand(&clone, keep);
    }
    Ok(())
}

/// A clone of a window behind a reference, and its release.
#[inline(never)]
fn clone_shared<L: Handed, W: Wait, const SITE: usize>(
    rt: &W,
    window: &ArcBytes<L>,
    count: usize,
    keep: &dyn Keep,
) -> Result<(), OwnerError> {
    for _ in 0..count {
        let clone = window.try_clone(rt)?;
        L::hand(&clone, keep);
    }
    Ok(())
}

/// A clone of a window behind a reference, dropped by the hint.
#[inline(never)]
fn clone_hint<L: Handed, W: Wait, const SITE: usize>(
    rt: &W,
    window: &ArcBytes<L>,
    count: usize,
    keep: &dyn Keep,
) -> Result<(), OwnerError> {
    for _ in 0..count {
        let clone = window.try_clone(rt)?;
        L::hand(&clone, keep);
        clone.drop_with_unique_hint();
    }
    Ok(())
}

/// The window's bytes.
#[inline(never)]
fn read<L: Handed, const SITE: usize>(window: &ArcBytes<L>, count: usize, keep: &dyn Keep) {
    for _ in 0..count {
        keep.bytes(window.as_slice());
    }
}

/// A window over a copy of bytes, and its release.
#[inline(never)]
fn make<L: Handed, const SITE: usize>(
    alloc: Global,
    count: usize,
    keep: &dyn Keep,
) -> Result<(), OwnerError> {
    let bytes = [42; LEN];
    for _ in 0..count {
        let window: ArcBytes<L> = ArcBytes::try_from_slice(alloc, &bytes)?;
        L::hand(&window, keep);
    }
    Ok(())
}

/// A window over a copy of bytes, dropped by the hint.
#[inline(never)]
fn make_hint<L: Handed, const SITE: usize>(
    alloc: Global,
    count: usize,
    keep: &dyn Keep,
) -> Result<(), OwnerError> {
    let bytes = [42; LEN];
    for _ in 0..count {
        let window: ArcBytes<L> = ArcBytes::try_from_slice(alloc, &bytes)?;
        L::hand(&window, keep);
        window.drop_with_unique_hint();
    }
    Ok(())
}

/// A cut of a local window, and its release.
#[inline(never)]
fn cut_local<L: Handed, W: Wait, const SITE: usize>(
    rt: &W,
    window: ArcBytes<L>,
    start: usize,
    end: usize,
    count: usize,
    keep: &dyn Keep,
) -> Result<(), OwnerError>
    requires { start ≤ end × end ≤ length window.items }
{
    for _ in 0..count {
        let cut = window.try_subslice(rt, start, end)?;
        L::hand(&cut, keep);
    }
    Ok(())
}

/// A cut of a window behind a reference, and its release.
#[inline(never)]
fn cut_shared<L: Handed, W: Wait, const SITE: usize>(
    rt: &W,
    window: &ArcBytes<L>,
    start: usize,
    end: usize,
    count: usize,
    keep: &dyn Keep,
) -> Result<(), OwnerError>
    requires { start ≤ end × end ≤ length window.now.items }
{
    for _ in 0..count {
        let cut = window.try_subslice(rt, start, end)?;
        L::hand(&cut, keep);
    }
    Ok(())
}

/// The back of a clone, split off, and the release of both, which are handed on.
#[inline(never)]
fn split_off<L: Handed, W: Wait, const SITE: usize>(
    rt: &W,
    window: &ArcBytes<L>,
    count: usize,
    keep: &dyn Keep,
) -> Result<(), OwnerError>
    requires { 7 ≤ length window.now.items }
{
    for _ in 0..count {
        let mut front = window.try_clone(rt)?;
        let back = front.try_split_off(rt, 7)?;
        L::hand(&back, keep);
        L::hand(&front, keep);
    }
    Ok(())
}

/// Whether the window is alone.
#[inline(never)]
fn unique<L: Handed, const SITE: usize>(window: &ArcBytes<L>, count: usize, keep: &dyn Keep) {
    for _ in 0..count {
        keep.number(usize::from(window.is_unique()));
    }
}

/// A byte less each time, at the front.
#[inline(never)]
fn advance<L: Handed, const SITE: usize>(
    window: &mut ArcBytes<L>,
    count: usize,
    keep: &dyn Keep,
) -> bool {
    for _ in 0..count {
        if window.is_empty() {
            return false;
        }
        window.advance(1);
        L::hand(window, keep);
    }
    true
}

/// An array of 32 as a window, and back.
#[inline(never)]
fn array<L: Handed, const SITE: usize>(
    alloc: Global,
    count: usize,
    keep: &dyn Keep,
) -> Result<(), OwnerError> {
    for _ in 0..count {
        let made: Result<ArcBytes<L>, [u8; 32]> = ArcBytes::try_from_array(alloc, [42u8; 32]);
        let Ok(window) = made else {
            return Err(OwnerError::AllocError);
        };
        if let Ok(bytes) = window.try_into_array::<32>() {
            keep.bytes(bytes.as_slice());
        }
    }
    Ok(())
}
