//! The loops over windows of this repository that are written.
use crate::at_site::at_site;
use crate::back;
use crate::keep::Keep;
use crate::rounds::{LONG, MILLION, PIECE, PLACES, ROUND, empty_rounds};
use crate::words::{Base, Words, Writing};
use arc_slice::layout::DefaultLayout;
use arc_slice::{ArcBytes, ArcBytesMut, IntoMut};
use std::alloc::Global;

/// How many places growth gives first.
const FIRST: usize = 8;

/// Runs an operation so often, and answers whether all was done.
pub fn run(alloc: Global, base: Base, writing: Writing, words: Words, keep: &dyn Keep) -> bool {
    let (count, second) = (words.count, words.second);
    // How long the piece is isn't known before the program runs.
    let (len, long) = if count == 0 { (1, 2) } else { (PIECE, LONG) };
    let all = [42; LONG];
    let piece = &all[..len];
    let Some(mut window) = over(alloc, base, PLACES) else {
        return false;
    };
    match writing {
        Writing::Rounds => {
            empty_rounds(count, keep);
            true
        }
        Writing::Push => at_site!(second, push[](&mut window, count, keep)),
        Writing::PushRow => at_site!(second, push_row[](&mut window, count, keep)),
        Writing::Grow => at_site!(second, grow[](alloc, base, ROUND, count, keep)),
        Writing::GrowMillion => at_site!(second, grow[](alloc, base, MILLION, count, keep)),
        Writing::Extend => at_site!(second, extend[](&mut window, piece, count, keep)),
        Writing::ExtendOdd => at_site!(second, extend[](&mut window, &all[1..len], count, keep)),
        Writing::ExtendLong => at_site!(second, extend[](&mut window, &all[..long], count, keep)),
        Writing::Truncate => at_site!(second, truncate[](&mut window, piece, count, keep)),
        Writing::Advance => at_site!(second, advance[](&mut window, piece, count, keep)),
        Writing::Make => at_site!(second, make[](alloc, base, count, keep)),
        Writing::Freeze => {
            window.try_push(42).is_ok() && at_site!(second, freeze[](window, count, keep))
        }
        Writing::Write => {
            window.try_push(42).is_ok() && at_site!(second, write[](&mut window, count, keep))
        }
        Writing::ReadBack => at_site!(second, read_back[](&window, count, keep)),
        Writing::Back => back::run_writer(alloc, base, words, keep),
        Writing::Reserve => at_site!(second, reserve[](alloc, base, piece, count, keep)),
        Writing::ReserveRoom => at_site!(second, reserve_room[](&mut window, count, keep)),
    }
}

/// A window with no items, on a block of its own, a vector or a caller's buffer of so many places.
fn over(alloc: Global, base: Base, places: usize) -> Option<ArcBytesMut> {
    match base {
        Base::Block => ArcBytesMut::try_with_capacity(alloc, places).ok(),
        Base::Vector => {
            let bytes = Vec::with_capacity(alloc, places).ok()?;
            ArcBytesMut::try_from_vec(alloc, bytes).ok()
        }
        Base::Buffer => {
            let bytes = Vec::with_capacity(alloc, places).ok()?;
            ArcBytesMut::try_from_buffer(alloc, bytes).ok()
        }
        Base::Static | Base::Arc => None,
    }
}

/// A window with no items to be grown: one with no places, or over what has those that growth
/// gives first.
fn begun(alloc: Global, base: Base) -> Option<ArcBytesMut> {
    match base {
        Base::Block => Some(ArcBytesMut::new(alloc)),
        _ => over(alloc, base, FIRST),
    }
}

/// Bytes pushed into places that are there.
#[inline(never)]
fn push<const SITE: usize>(window: &mut ArcBytesMut, count: usize, keep: &dyn Keep) -> bool {
    for _ in 0..count {
        window.truncate(0);
        for i in 0..ROUND {
            if window.try_push(42).is_err() {
                return false;
            }
            keep.number(i);
        }
    }
    true
}

/// The same, with nothing between a push and the next.
#[inline(never)]
fn push_row<const SITE: usize>(window: &mut ArcBytesMut, count: usize, keep: &dyn Keep) -> bool {
    for _ in 0..count {
        window.truncate(0);
        for _ in 0..ROUND {
            if window.try_push(42).is_err() {
                return false;
            }
        }
        keep.number(window.len());
    }
    true
}

/// So many bytes pushed into a window that has no places at first, and its release.
#[inline(never)]
fn grow<const SITE: usize>(
    alloc: Global,
    base: Base,
    steps: usize,
    count: usize,
    keep: &dyn Keep,
) -> bool {
    for _ in 0..count {
        let Some(mut window) = begun(alloc, base) else {
            return false;
        };
        for _ in 0..steps {
            if window.try_push(42).is_err() {
                return false;
            }
        }
        keep.number(window.len());
    }
    true
}

/// A window with 64 places, and its release.
#[inline(never)]
fn make<const SITE: usize>(alloc: Global, base: Base, count: usize, keep: &dyn Keep) -> bool {
    for _ in 0..count {
        let Some(window) = over(alloc, base, PIECE) else {
            return false;
        };
        keep.writer(&window);
    }
    true
}

/// A window with as many bytes as places, which gets room for as many more, and its release.
#[inline(never)]
fn reserve<const SITE: usize>(
    alloc: Global,
    base: Base,
    piece: &[u8],
    count: usize,
    keep: &dyn Keep,
) -> bool {
    for _ in 0..count {
        let Some(mut window) = over(alloc, base, PIECE) else {
            return false;
        };
        if window.try_extend_from_slice(piece).is_err() {
            return false;
        }
        if window.try_reserve(PIECE).is_err() {
            return false;
        }
        keep.writer(&window);
    }
    true
}

/// Filled, and then a byte less each time.
#[inline(never)]
fn truncate<const SITE: usize>(
    window: &mut ArcBytesMut,
    piece: &[u8],
    count: usize,
    keep: &dyn Keep,
) -> bool {
    for _ in 0..ROUND {
        if window.try_extend_from_slice(piece).is_err() {
            return false;
        }
    }
    for len in (0..count).rev() {
        window.truncate(len);
        keep.writer(window);
    }
    true
}

/// Filled, and then a byte less each time, at the front.
#[inline(never)]
fn advance<const SITE: usize>(
    window: &mut ArcBytesMut,
    piece: &[u8],
    count: usize,
    keep: &dyn Keep,
) -> bool {
    for _ in 0..ROUND {
        if window.try_extend_from_slice(piece).is_err() {
            return false;
        }
    }
    for _ in 0..count {
        if window.is_empty() {
            return false;
        }
        window.advance(1);
        keep.writer(window);
    }
    true
}

/// Room asked for that is there.
#[inline(never)]
fn reserve_room<const SITE: usize>(
    window: &mut ArcBytesMut,
    count: usize,
    keep: &dyn Keep,
) -> bool {
    for _ in 0..count {
        if window.try_reserve(PIECE).is_err() {
            return false;
        }
        keep.writer(window);
    }
    true
}

/// Pieces copied into places that are there.
#[inline(never)]
fn extend<const SITE: usize>(
    window: &mut ArcBytesMut,
    piece: &[u8],
    count: usize,
    keep: &dyn Keep,
) -> bool {
    for _ in 0..count {
        window.truncate(0);
        for i in 0..ROUND {
            if window.try_extend_from_slice(piece).is_err() {
                return false;
            }
            keep.number(i);
        }
    }
    true
}

/// A window that is read from then on, and back.
#[inline(never)]
fn freeze<const SITE: usize>(window: ArcBytesMut, count: usize, keep: &dyn Keep) -> bool {
    let mut window = window;
    for _ in 0..count {
        let Ok(frozen) = window.try_freeze::<DefaultLayout>() else {
            return false;
        };
        let frozen: ArcBytes = frozen;
        keep.window(&frozen);
        let Ok(back) = frozen.try_into_mut() else {
            return false;
        };
        window = back;
    }
    true
}

/// All bytes to be written, of which the first is.
#[inline(never)]
fn write<const SITE: usize>(window: &mut ArcBytesMut, count: usize, keep: &dyn Keep) -> bool {
    for _ in 0..count {
        let bytes = window.as_mut_slice();
        let Some(first) = bytes.first_mut() else {
            return false;
        };
        *first = 43;
        keep.bytes(bytes);
    }
    true
}

/// The bytes of a window that is written.
#[inline(never)]
fn read_back<const SITE: usize>(window: &ArcBytesMut, count: usize, keep: &dyn Keep) -> bool {
    for _ in 0..count {
        keep.bytes(window.as_slice());
    }
    true
}
