//! The loops over windows that are written by one writer.
use crate::at_site;
use crate::keep::{
    Keep, LONG, MILLION, PIECE, PLACES, ROUND, chosen, empty_loop, empty_rounds, window_loop,
};
use crate::reading::Held;
use crate::{Usual, Words};
use arc_slice::buffer::BufferMut;
use arc_slice::error::TryReserveError;
use arc_slice::{ArcBytes, ArcBytesMut, ArcSliceMut};

type Reader = ArcBytes<Usual>;
type Writer = ArcBytesMut<Usual>;

/// How many places growth gives first.
const FIRST: usize = 8;

unsafe impl BufferMut<[u8]> for Held {
    fn as_mut_slice(&mut self) -> &mut [u8] {
        &mut self.0
    }

    fn capacity(&self) -> usize {
        self.0.capacity()
    }

    unsafe fn set_len(&mut self, len: usize) -> bool {
        unsafe { self.0.set_len(len) };
        true
    }

    fn try_reserve(&mut self, additional: usize) -> Result<(), TryReserveError> {
        BufferMut::try_reserve(&mut self.0, additional)
    }
}

/// A window with no items, on a block of its own, a vector or a caller's buffer of so many places.
fn over(base: &str, places: usize) -> Option<Writer> {
    match base {
        "block" => ArcSliceMut::try_with_capacity(places).ok(),
        "vector" => ArcSliceMut::try_from_buffer(Vec::with_capacity(places)).ok(),
        "buffer" => ArcSliceMut::try_from_buffer(Held(Vec::with_capacity(places))).ok(),
        _ => None,
    }
}

/// A window with no items to be grown: one with no places, or over what has those that growth
/// gives first.
fn begun(base: &str) -> Option<Writer> {
    match base {
        "block" => Some(ArcSliceMut::new()),
        _ => over(base, FIRST),
    }
}

/// Runs an operation so often, and answers whether all was done.
pub fn run(base: &str, words: &Words) -> Option<()> {
    let (count, second) = (words.count, words.second);
    // How long the piece is isn't known before the program runs.
    let (len, long) = if count == 0 { (1, 2) } else { (PIECE, LONG) };
    let all = [42; LONG];
    let piece = &all[..len];
    let keep = chosen::<Writer>(count);
    let mut window = over(base, PLACES)?;
    match words.operation.as_str() {
        "writer_loop" => Some(empty_loop(count, keep)),
        "writer_window_loop" => Some(window_loop(&window, count, keep)),
        "rounds" => Some(empty_rounds(count, keep)),
        "push" => at_site!(second, push(&mut window, count, keep)),
        "push_row" => at_site!(second, push_row(&mut window, count, keep)),
        "grow" => at_site!(second, grow(base, ROUND, count, keep)),
        "grow_million" => at_site!(second, grow(base, MILLION, count, keep)),
        "extend" => at_site!(second, extend(&mut window, piece, count, keep)),
        "extend_odd" => at_site!(second, extend(&mut window, &all[1..len], count, keep)),
        "extend_long" => at_site!(second, extend(&mut window, &all[..long], count, keep)),
        "truncate" => at_site!(second, truncate(&mut window, piece, count, keep)),
        "advance_writer" => at_site!(second, advance(&mut window, piece, count, keep)),
        "make_writer" => at_site!(second, make(base, count, keep)),
        "write" => {
            window.try_push(42).ok()?;
            at_site!(second, write(&mut window, count, keep))
        }
        "read_back" => Some(at_site!(second, read_back(&window, count, keep))),
        "freeze" => {
            window.try_push(42).ok()?;
            at_site!(second, freeze(window, count, chosen(count)))
        }
        "reserve" => at_site!(second, reserve(base, piece, count, keep)),
        "reserve_room" => at_site!(second, reserve_room(&mut window, count, keep)),
        "back_writer" if base == "vector" => at_site!(second, vector(count, keep)),
        "back_writer" if base == "buffer" => at_site!(second, buffer(count, keep)),
        _ => None,
    }
}

/// Bytes pushed into places that are there.
#[inline(never)]
fn push<const SITE: usize>(
    window: &mut Writer,
    count: usize,
    keep: &dyn Keep<Writer>,
) -> Option<()> {
    for _ in 0..count {
        window.truncate(0);
        for i in 0..ROUND {
            window.try_push(42).ok()?;
            keep.number(i);
        }
    }
    Some(())
}

/// The same, with nothing between a push and the next.
#[inline(never)]
fn push_row<const SITE: usize>(
    window: &mut Writer,
    count: usize,
    keep: &dyn Keep<Writer>,
) -> Option<()> {
    for _ in 0..count {
        window.truncate(0);
        for _ in 0..ROUND {
            window.try_push(42).ok()?;
        }
        keep.number(window.len());
    }
    Some(())
}

/// So many bytes pushed into a window that has no places at first, and its release.
#[inline(never)]
fn grow<const SITE: usize>(
    base: &str,
    steps: usize,
    count: usize,
    keep: &dyn Keep<Writer>,
) -> Option<()> {
    for _ in 0..count {
        let mut window = begun(base)?;
        for _ in 0..steps {
            window.try_push(42).ok()?;
        }
        keep.number(window.len());
    }
    Some(())
}

/// Pieces copied into places that are there.
#[inline(never)]
fn extend<const SITE: usize>(
    window: &mut Writer,
    piece: &[u8],
    count: usize,
    keep: &dyn Keep<Writer>,
) -> Option<()> {
    for _ in 0..count {
        window.truncate(0);
        for i in 0..ROUND {
            window.try_extend_from_slice(piece).ok()?;
            keep.number(i);
        }
    }
    Some(())
}

/// Filled, and then a byte less each time, at the end.
#[inline(never)]
fn truncate<const SITE: usize>(
    window: &mut Writer,
    piece: &[u8],
    count: usize,
    keep: &dyn Keep<Writer>,
) -> Option<()> {
    for _ in 0..ROUND {
        window.try_extend_from_slice(piece).ok()?;
    }
    for len in (0..count).rev() {
        window.truncate(len);
        keep.window(window);
    }
    Some(())
}

/// Filled, and then a byte less each time, at the front.
#[inline(never)]
fn advance<const SITE: usize>(
    window: &mut Writer,
    piece: &[u8],
    count: usize,
    keep: &dyn Keep<Writer>,
) -> Option<()> {
    for _ in 0..ROUND {
        window.try_extend_from_slice(piece).ok()?;
    }
    for _ in 0..count {
        window.advance(1);
        keep.window(window);
    }
    Some(())
}

/// A window with 64 places, and its release.
#[inline(never)]
fn make<const SITE: usize>(base: &str, count: usize, keep: &dyn Keep<Writer>) -> Option<()> {
    for _ in 0..count {
        let window = over(base, PIECE)?;
        keep.window(&window);
    }
    Some(())
}

/// All bytes to be written, of which the first is.
#[inline(never)]
fn write<const SITE: usize>(
    window: &mut Writer,
    count: usize,
    keep: &dyn Keep<Writer>,
) -> Option<()> {
    for _ in 0..count {
        let bytes = window.as_mut_slice();
        *bytes.first_mut()? = 43;
        keep.bytes(bytes);
    }
    Some(())
}

/// The bytes of a window that is written.
#[inline(never)]
fn read_back<const SITE: usize>(window: &Writer, count: usize, keep: &dyn Keep<Writer>) {
    for _ in 0..count {
        keep.bytes(window.as_slice());
    }
}

/// A window that is read from then on, and back.
#[inline(never)]
fn freeze<const SITE: usize>(window: Writer, count: usize, keep: &dyn Keep<Reader>) -> Option<()> {
    let mut window = window;
    for _ in 0..count {
        let frozen: Reader = window.try_freeze().ok()?;
        keep.window(&frozen);
        window = frozen.try_into_mut().ok()?;
    }
    Some(())
}

/// A window with as many bytes as places, which gets room for as many more, and its release.
#[inline(never)]
fn reserve<const SITE: usize>(
    base: &str,
    piece: &[u8],
    count: usize,
    keep: &dyn Keep<Writer>,
) -> Option<()> {
    for _ in 0..count {
        let mut window = over(base, PIECE)?;
        window.try_extend_from_slice(piece).ok()?;
        window.try_reserve(PIECE).ok()?;
        keep.window(&window);
    }
    Some(())
}

/// Room asked for that is there.
#[inline(never)]
fn reserve_room<const SITE: usize>(
    window: &mut Writer,
    count: usize,
    keep: &dyn Keep<Writer>,
) -> Option<()> {
    for _ in 0..count {
        window.try_reserve(PIECE).ok()?;
        keep.window(window);
    }
    Some(())
}

/// A vector as a window that is written, and back.
#[inline(never)]
fn vector<const SITE: usize>(count: usize, keep: &dyn Keep<Writer>) -> Option<()> {
    let mut bytes: Vec<u8> = Vec::with_capacity(PIECE);
    for _ in 0..count {
        let window = ArcSliceMut::try_from_buffer(bytes).ok()?;
        keep.window(&window);
        bytes = window.try_into_buffer().ok()?;
    }
    Some(())
}

/// A caller's buffer as a window that is written, and back.
#[inline(never)]
fn buffer<const SITE: usize>(count: usize, keep: &dyn Keep<Writer>) -> Option<()> {
    let mut bytes = Held(Vec::with_capacity(PIECE));
    for _ in 0..count {
        let window = ArcSliceMut::try_from_buffer(bytes).ok()?;
        keep.window(&window);
        bytes = window.try_into_buffer().ok()?;
    }
    Some(())
}
