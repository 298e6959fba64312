//! The loops over the kit's `BytesMut`.
use crate::keep::Keep;
use crate::rounds::{LONG, MILLION, PIECE, PLACES, ROUND, empty_rounds};
use crate::words::Writing;
use bytes::{Buf, BufMut, BytesMut};
use std::alloc::Global;

/// Runs an operation so often, and answers whether all was done.
pub fn run(alloc: Global, writing: Writing, count: usize, keep: &dyn Keep) -> bool {
    // How long the piece is isn't known before the program runs.
    let (len, long) = if count == 0 { (1, 2) } else { (PIECE, LONG) };
    let all = [42; LONG];
    let piece = &all[..len];
    let Ok(mut window) = BytesMut::with_capacity(alloc, PLACES) else {
        return false;
    };
    match writing {
        Writing::Rounds => {
            empty_rounds(count, keep);
            true
        }
        Writing::Push => push(&mut window, count, keep),
        Writing::PushRow => push_row(&mut window, count, keep),
        Writing::Grow => grow(alloc, ROUND, count, keep),
        Writing::GrowMillion => grow(alloc, MILLION, count, keep),
        Writing::Extend => extend(&mut window, piece, count, keep),
        Writing::ExtendOdd => extend(&mut window, &all[1..len], count, keep),
        Writing::ExtendLong => extend(&mut window, &all[..long], count, keep),
        Writing::Truncate => truncate(&mut window, piece, count, keep),
        Writing::Make => make(alloc, count, keep),
        Writing::Freeze => window.put_u8(42).is_ok() && freeze(window, count, keep),
        Writing::Write => window.put_u8(42).is_ok() && write(&mut window, count, keep),
        Writing::ReadBack => read_back(&window, count, keep),
        Writing::Back => vector_back(alloc, count, keep),
        Writing::Advance => advance(&mut window, piece, count, keep),
        Writing::ReserveRoom => reserve_room(&mut window, count, keep),
        Writing::Reserve => reserve(alloc, piece, count, keep),
    }
}

/// Bytes pushed into places that are there.
#[inline(never)]
fn push(window: &mut BytesMut, count: usize, keep: &dyn Keep) -> bool {
    for _ in 0..count {
        window.truncate(0);
        for i in 0..ROUND {
            if window.put_u8(42).is_err() {
                return false;
            }
            keep.number(i);
        }
    }
    true
}

/// The same, with nothing between a push and the next.
#[inline(never)]
fn push_row(window: &mut BytesMut, count: usize, keep: &dyn Keep) -> bool {
    for _ in 0..count {
        window.truncate(0);
        for _ in 0..ROUND {
            if window.put_u8(42).is_err() {
                return false;
            }
        }
        keep.number(window.len());
    }
    true
}

/// So many bytes pushed into a window that has no places at first, and its release.
#[inline(never)]
fn grow(alloc: Global, steps: usize, count: usize, keep: &dyn Keep) -> bool {
    for _ in 0..count {
        let mut window = BytesMut::new(alloc);
        for _ in 0..steps {
            if window.put_u8(42).is_err() {
                return false;
            }
        }
        keep.number(window.len());
    }
    true
}

/// As many bytes as places, with room for as many more, and their release.
#[inline(never)]
fn reserve(alloc: Global, piece: &[u8], count: usize, keep: &dyn Keep) -> bool {
    for _ in 0..count {
        let Ok(mut window) = BytesMut::with_capacity(alloc, PIECE) else {
            return false;
        };
        if window.put_slice(piece).is_err() || window.reserve(PIECE).is_err() {
            return false;
        }
        keep.kit_writer(&window);
    }
    true
}

/// Room asked for that is there.
#[inline(never)]
fn reserve_room(window: &mut BytesMut, count: usize, keep: &dyn Keep) -> bool {
    for _ in 0..count {
        if window.reserve(PIECE).is_err() {
            return false;
        }
        keep.kit_writer(window);
    }
    true
}

/// Bytes with 64 places, and their release.
#[inline(never)]
fn make(alloc: Global, count: usize, keep: &dyn Keep) -> bool {
    for _ in 0..count {
        let Ok(window) = BytesMut::with_capacity(alloc, PIECE) else {
            return false;
        };
        keep.kit_writer(&window);
    }
    true
}

/// Filled, and then a byte less each time.
#[inline(never)]
fn truncate(window: &mut BytesMut, piece: &[u8], count: usize, keep: &dyn Keep) -> bool {
    for _ in 0..ROUND {
        if window.extend_from_slice(piece).is_err() {
            return false;
        }
    }
    for len in (0..count).rev() {
        window.truncate(len);
        keep.kit_writer(window);
    }
    true
}

/// Filled, and then a byte less each time, at the front.
#[inline(never)]
fn advance(window: &mut BytesMut, piece: &[u8], count: usize, keep: &dyn Keep) -> bool {
    for _ in 0..ROUND {
        if window.extend_from_slice(piece).is_err() {
            return false;
        }
    }
    for _ in 0..count {
        if window.is_empty() {
            return false;
        }
        window.advance(1);
        keep.kit_writer(window);
    }
    true
}

/// Pieces copied into places that are there.
#[inline(never)]
fn extend(window: &mut BytesMut, piece: &[u8], count: usize, keep: &dyn Keep) -> bool {
    for _ in 0..count {
        window.truncate(0);
        for i in 0..ROUND {
            if window.extend_from_slice(piece).is_err() {
                return false;
            }
            keep.number(i);
        }
    }
    true
}

/// A window that is read from then on, and back.
#[inline(never)]
fn freeze(window: BytesMut, count: usize, keep: &dyn Keep) -> bool {
    let mut window = window;
    for _ in 0..count {
        let Ok(frozen) = window.freeze() else {
            return false;
        };
        keep.kit(&frozen);
        let Ok(back) = frozen.try_into_mut() else {
            return false;
        };
        window = back;
    }
    true
}

/// All bytes to be written, of which the first is.
#[inline(never)]
fn write(window: &mut BytesMut, count: usize, keep: &dyn Keep) -> bool {
    for _ in 0..count {
        let bytes = window.as_mut_slice();
        let Some(first) = bytes.first_mut() else {
            return false;
        };
        *first = 43;
        keep.bytes(bytes);
    }
    true
}

/// The bytes of a window that is written.
#[inline(never)]
fn read_back(window: &BytesMut, count: usize, keep: &dyn Keep) -> bool {
    for _ in 0..count {
        keep.bytes(window.as_slice());
    }
    true
}

/// A vector as bytes that are written, and back.
#[inline(never)]
fn vector_back(alloc: Global, count: usize, keep: &dyn Keep) -> bool {
    let Ok(mut bytes) = Vec::with_capacity(alloc, PIECE) else {
        return false;
    };
    for _ in 0..count {
        let window = BytesMut::from_vec(bytes);
        keep.kit_writer(&window);
        let Ok(back) = window.into_vec() else {
            return false;
        };
        bytes = back;
    }
    true
}
