//! The loops over windows of this repository that are of several writers. Both parts of a split
//! are handed on.
use crate::at_site::at_site;
use crate::keep::Keep;
use crate::rounds::{PIECE, PLACES, ROUND};
use crate::words::{Sharing, Words};
use arc_slice::layout::{DefaultLayout, DefaultLayoutMut};
use arc_slice::{ArcBytes, ArcBytesMut, ArcBytesShared, IntoMut};
use std::alloc::Global;
use std::sync::Wait;

/// A window of so many zeros, with no more places.
fn over(alloc: Global, len: usize) -> Option<ArcBytesShared> {
    let zeros = ArcBytesMut::<DefaultLayoutMut>::try_zeroed(alloc, len).ok()?;
    zeros.into_shared().ok()
}

/// Runs an operation so often, and answers whether all was done.
pub fn run<W: Wait>(
    rt: &W,
    alloc: Global,
    sharing: Sharing,
    words: Words,
    keep: &dyn Keep,
) -> bool {
    let (count, second) = (words.count, words.second);
    // How long the piece is isn't known before the program runs.
    let len = if count == 0 { 1 } else { PIECE };
    let all = [42; PIECE];
    let piece = &all[..len];
    let (Some(mut window), Some(mut large)) = (over(alloc, PIECE), over(alloc, PLACES)) else {
        return false;
    };
    match sharing {
        Sharing::SplitOff => at_site!(second, split_off[W](rt, window, count, keep)),
        Sharing::SplitTo => at_site!(second, split_to[W](rt, window, count, keep)),
        Sharing::Push => at_site!(second, push[](&mut large, count, keep)),
        Sharing::Extend => at_site!(second, extend[](&mut large, piece, count, keep)),
        Sharing::Truncate => at_site!(second, truncate[](&mut large, count, keep)),
        Sharing::Advance => at_site!(second, advance[](&mut large, count, keep)),
        Sharing::Write => at_site!(second, write[](&mut window, count, keep)),
        Sharing::Read => at_site!(second, read[](&window, count, keep)),
        Sharing::Reserve => at_site!(second, reserve[](&mut window, count, keep)),
        Sharing::Reclaim => at_site!(second, reclaim[](&mut window, count, keep)),
        Sharing::Freeze => at_site!(second, freeze[](window, count, keep)),
        Sharing::Unique => at_site!(second, unique[](window, count, keep)),
    }
}

/// The back half of the places, split off, and joined.
#[inline(never)]
fn split_off<W: Wait, const SITE: usize>(
    rt: &W,
    window: ArcBytesShared,
    count: usize,
    keep: &dyn Keep,
) -> bool {
    let mut front = window;
    for _ in 0..count {
        if front.check_split_off(PIECE / 2).is_err() {
            return false;
        }
        let Ok(back) = front.try_split_off(rt, PIECE / 2) else {
            return false;
        };
        keep.shared(&front);
        keep.shared(&back);
        if front.try_unsplit(back).is_err() {
            return false;
        }
    }
    true
}

/// The front half of the places, split off, and joined.
#[inline(never)]
fn split_to<W: Wait, const SITE: usize>(
    rt: &W,
    window: ArcBytesShared,
    count: usize,
    keep: &dyn Keep,
) -> bool {
    let mut back = window;
    for _ in 0..count {
        if back.check_split_off(PIECE / 2).is_err() {
            return false;
        }
        let Ok(mut front) = back.try_split_to(rt, PIECE / 2) else {
            return false;
        };
        keep.shared(&front);
        keep.shared(&back);
        if front.try_unsplit(back).is_err() {
            return false;
        }
        back = front;
    }
    true
}

/// Bytes pushed into places that are there.
#[inline(never)]
fn push<const SITE: usize>(window: &mut ArcBytesShared, count: usize, keep: &dyn Keep) -> bool {
    for _ in 0..count {
        window.truncate(0);
        for i in 0..ROUND {
            if window.try_push(42).is_err() {
                return false;
            }
            keep.number(i);
        }
    }
    true
}

/// Pieces copied into places that are there.
#[inline(never)]
fn extend<const SITE: usize>(
    window: &mut ArcBytesShared,
    piece: &[u8],
    count: usize,
    keep: &dyn Keep,
) -> bool {
    for _ in 0..count {
        window.truncate(0);
        for i in 0..ROUND {
            if window.try_extend_from_slice(piece).is_err() {
                return false;
            }
            keep.number(i);
        }
    }
    true
}

/// A byte less each time, at the end.
#[inline(never)]
fn truncate<const SITE: usize>(window: &mut ArcBytesShared, count: usize, keep: &dyn Keep) -> bool {
    for len in (0..count).rev() {
        window.truncate(len);
        keep.shared(window);
    }
    true
}

/// A byte less each time, at the front.
#[inline(never)]
fn advance<const SITE: usize>(window: &mut ArcBytesShared, count: usize, keep: &dyn Keep) -> bool {
    for _ in 0..count {
        if window.is_empty() {
            return false;
        }
        window.advance(1);
        keep.shared(window);
    }
    true
}

/// All bytes to be written, of which the first is.
#[inline(never)]
fn write<const SITE: usize>(window: &mut ArcBytesShared, count: usize, keep: &dyn Keep) -> bool {
    for _ in 0..count {
        let bytes = window.as_mut_slice();
        let Some(first) = bytes.first_mut() else {
            return false;
        };
        *first = 43;
        keep.bytes(bytes);
    }
    true
}

/// The window's bytes.
#[inline(never)]
fn read<const SITE: usize>(window: &ArcBytesShared, count: usize, keep: &dyn Keep) -> bool {
    for _ in 0..count {
        keep.bytes(window.as_slice());
    }
    true
}

/// Room asked for that is there.
#[inline(never)]
fn reserve<const SITE: usize>(window: &mut ArcBytesShared, count: usize, keep: &dyn Keep) -> bool {
    window.truncate(0);
    for _ in 0..count {
        if window.try_reserve(PIECE).is_err() {
            return false;
        }
        keep.shared(window);
    }
    true
}

/// Room that is there, asked for without memory.
#[inline(never)]
fn reclaim<const SITE: usize>(window: &mut ArcBytesShared, count: usize, keep: &dyn Keep) -> bool {
    window.truncate(0);
    for _ in 0..count {
        keep.number(usize::from(window.try_reclaim(PIECE)));
    }
    true
}

/// A window that is read from then on, and back.
#[inline(never)]
fn freeze<const SITE: usize>(window: ArcBytesShared, count: usize, keep: &dyn Keep) -> bool {
    let mut window = window;
    for _ in 0..count {
        let Ok(frozen) = window.try_freeze::<DefaultLayout>() else {
            return false;
        };
        let frozen: ArcBytes = frozen;
        keep.window(&frozen);
        let Ok(sole) = frozen.try_into_mut::<DefaultLayoutMut>() else {
            return false;
        };
        let Ok(shared) = sole.into_shared() else {
            return false;
        };
        window = shared;
    }
    true
}

/// The only writer, and one of several again.
#[inline(never)]
fn unique<const SITE: usize>(window: ArcBytesShared, count: usize, keep: &dyn Keep) -> bool {
    let mut window = window;
    for _ in 0..count {
        let Ok(sole) = window.try_into_unique() else {
            return false;
        };
        let Ok(shared) = sole.into_shared() else {
            return false;
        };
        window = shared;
        keep.shared(&window);
    }
    true
}
