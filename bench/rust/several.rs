//! The loops over windows that are of several writers. Both parts of a split are handed on.
use crate::at_site;
use crate::keep::{Keep, PIECE, PLACES, ROUND, chosen};
use crate::{Usual, Words};
use arc_slice::{ArcBytes, ArcBytesMut, ArcSliceMut};

type Reader = ArcBytes<Usual>;
type Shared = ArcBytesMut<Usual, false>;

/// A window of so many zeros, with no more places.
fn over(len: usize) -> Option<Shared> {
    let window: ArcBytesMut<Usual> = ArcSliceMut::try_zeroed(len).ok()?;
    Some(window.into_shared())
}

/// Runs an operation so often, and answers whether all was done.
pub fn run(words: &Words) -> Option<()> {
    let (count, second) = (words.count, words.second);
    let len = if count == 0 { 1 } else { PIECE };
    let all = [42; PIECE];
    let piece = &all[..len];
    let keep = chosen::<Shared>(count);
    let mut window = over(PIECE)?;
    let mut large = over(PLACES)?;
    match words.operation.as_str() {
        "several_split_off" => at_site!(second, split_off(window, count, keep)),
        "several_split_to" => at_site!(second, split_to(window, count, keep)),
        "several_push" => at_site!(second, push(&mut large, count, keep)),
        "several_extend" => at_site!(second, extend(&mut large, piece, count, keep)),
        "several_truncate" => Some(at_site!(second, truncate(&mut large, count, keep))),
        "several_advance" => Some(at_site!(second, advance(&mut large, count, keep))),
        "several_write" => at_site!(second, write(&mut window, count, keep)),
        "several_read" => Some(at_site!(second, read(&window, count, keep))),
        "several_reserve" => {
            window.truncate(0);
            at_site!(second, reserve(&mut window, count, keep))
        }
        "several_reclaim" => {
            window.truncate(0);
            Some(at_site!(second, reclaim(&mut window, count, keep)))
        }
        "several_freeze" => at_site!(second, freeze(window, count, chosen(count))),
        "several_unique" => at_site!(second, unique(window, count, keep)),
        _ => None,
    }
}

/// The back half of the places, split off, and joined.
#[inline(never)]
fn split_off<const SITE: usize>(
    window: Shared,
    count: usize,
    keep: &dyn Keep<Shared>,
) -> Option<()> {
    let mut front = window;
    for _ in 0..count {
        let back = front.try_split_off(PIECE / 2).ok()?;
        keep.window(&front);
        keep.window(&back);
        front.try_unsplit(back).ok()?;
    }
    Some(())
}

/// The front half of the places, split off, and joined.
#[inline(never)]
fn split_to<const SITE: usize>(
    window: Shared,
    count: usize,
    keep: &dyn Keep<Shared>,
) -> Option<()> {
    let mut back = window;
    for _ in 0..count {
        let mut front = back.try_split_to(PIECE / 2).ok()?;
        keep.window(&front);
        keep.window(&back);
        front.try_unsplit(back).ok()?;
        back = front;
    }
    Some(())
}

/// Bytes pushed into places that are there.
#[inline(never)]
fn push<const SITE: usize>(
    window: &mut Shared,
    count: usize,
    keep: &dyn Keep<Shared>,
) -> Option<()> {
    for _ in 0..count {
        window.truncate(0);
        for i in 0..ROUND {
            window.try_push(42).ok()?;
            keep.number(i);
        }
    }
    Some(())
}

/// Pieces copied into places that are there.
#[inline(never)]
fn extend<const SITE: usize>(
    window: &mut Shared,
    piece: &[u8],
    count: usize,
    keep: &dyn Keep<Shared>,
) -> Option<()> {
    for _ in 0..count {
        window.truncate(0);
        for i in 0..ROUND {
            window.try_extend_from_slice(piece).ok()?;
            keep.number(i);
        }
    }
    Some(())
}

/// A byte less each time, at the end.
#[inline(never)]
fn truncate<const SITE: usize>(window: &mut Shared, count: usize, keep: &dyn Keep<Shared>) {
    for len in (0..count).rev() {
        window.truncate(len);
        keep.window(window);
    }
}

/// A byte less each time, at the front.
#[inline(never)]
fn advance<const SITE: usize>(window: &mut Shared, count: usize, keep: &dyn Keep<Shared>) {
    for _ in 0..count {
        window.advance(1);
        keep.window(window);
    }
}

/// All bytes to be written, of which the first is.
#[inline(never)]
fn write<const SITE: usize>(
    window: &mut Shared,
    count: usize,
    keep: &dyn Keep<Shared>,
) -> Option<()> {
    for _ in 0..count {
        let bytes = window.as_mut_slice();
        *bytes.first_mut()? = 43;
        keep.bytes(bytes);
    }
    Some(())
}

/// The window's bytes.
#[inline(never)]
fn read<const SITE: usize>(window: &Shared, count: usize, keep: &dyn Keep<Shared>) {
    for _ in 0..count {
        keep.bytes(window.as_slice());
    }
}

/// Room asked for that is there.
#[inline(never)]
fn reserve<const SITE: usize>(
    window: &mut Shared,
    count: usize,
    keep: &dyn Keep<Shared>,
) -> Option<()> {
    for _ in 0..count {
        window.try_reserve(PIECE).ok()?;
        keep.window(window);
    }
    Some(())
}

/// Room that is there, asked for without memory.
#[inline(never)]
fn reclaim<const SITE: usize>(window: &mut Shared, count: usize, keep: &dyn Keep<Shared>) {
    for _ in 0..count {
        keep.number(usize::from(window.try_reclaim(PIECE)));
    }
}

/// A window that is read from then on, and back.
#[inline(never)]
fn freeze<const SITE: usize>(window: Shared, count: usize, keep: &dyn Keep<Reader>) -> Option<()> {
    let mut window = window;
    for _ in 0..count {
        let frozen: Reader = window.try_freeze().ok()?;
        keep.window(&frozen);
        let sole: ArcBytesMut<Usual> = frozen.try_into_mut().ok()?;
        window = sole.into_shared();
    }
    Some(())
}

/// The only writer, and one of several again.
#[inline(never)]
fn unique<const SITE: usize>(window: Shared, count: usize, keep: &dyn Keep<Shared>) -> Option<()> {
    let mut window = window;
    for _ in 0..count {
        let sole: ArcBytesMut<Usual> = window.try_into_unique().ok()?;
        window = sole.into_shared();
        keep.window(&window);
    }
    Some(())
}
