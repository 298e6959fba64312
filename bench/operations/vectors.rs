//! The loops over std's vectors of bytes.
use crate::keep::Keep;
use crate::rounds::{LONG, MILLION, PIECE, PLACES, ROUND, empty_rounds};
use crate::words::Writing;
use std::alloc::Global;

/// Runs an operation so often, and answers whether all was done.
pub fn run(alloc: Global, writing: Writing, count: usize, keep: &dyn Keep) -> bool {
    // How long the piece is isn't known before the program runs.
    let (len, long) = if count == 0 { (1, 2) } else { (PIECE, LONG) };
    let all = [42; LONG];
    let piece = &all[..len];
    let Ok(mut vec) = Vec::with_capacity(alloc, PLACES) else {
        return false;
    };
    match writing {
        Writing::Rounds => {
            empty_rounds(count, keep);
            true
        }
        Writing::Push => push(&mut vec, count, keep),
        Writing::PushRow => push_row(&mut vec, count, keep),
        Writing::Grow => grow(alloc, ROUND, count, keep),
        Writing::GrowMillion => grow(alloc, MILLION, count, keep),
        Writing::Extend => extend(&mut vec, piece, count, keep),
        Writing::ExtendOdd => extend(&mut vec, &all[1..len], count, keep),
        Writing::ExtendLong => extend(&mut vec, &all[..long], count, keep),
        Writing::Truncate => truncate(&mut vec, piece, count, keep),
        Writing::Make => make(alloc, count, keep),
        // A vector can't be frozen or lose bytes at its front, and is one.
        Writing::Freeze | Writing::Back | Writing::Advance => false,
        Writing::Reserve => reserve(alloc, piece, count, keep),
        Writing::ReserveRoom => reserve_room(&mut vec, count, keep),
        Writing::Write => vec.push(42).is_ok() && write(&mut vec, count, keep),
        Writing::ReadBack => read_back(&vec, count, keep),
    }
}

/// Bytes pushed into places that are there.
#[inline(never)]
fn push(vec: &mut Vec<u8>, count: usize, keep: &dyn Keep) -> bool {
    for _ in 0..count {
        vec.truncate(0);
        for i in 0..ROUND {
            if vec.push(42).is_err() {
                return false;
            }
            keep.number(i);
        }
    }
    true
}

/// The same, with nothing between a push and the next.
#[inline(never)]
fn push_row(vec: &mut Vec<u8>, count: usize, keep: &dyn Keep) -> bool {
    for _ in 0..count {
        vec.truncate(0);
        for _ in 0..ROUND {
            if vec.push(42).is_err() {
                return false;
            }
        }
        keep.number(vec.len());
    }
    true
}

/// So many bytes pushed into a vector that has no places at first, and its release.
#[inline(never)]
fn grow(alloc: Global, steps: usize, count: usize, keep: &dyn Keep) -> bool {
    for _ in 0..count {
        let mut vec: Vec<u8> = Vec::new(alloc);
        for _ in 0..steps {
            if vec.push(42).is_err() {
                return false;
            }
        }
        keep.number(vec.len());
    }
    true
}

/// A vector with 64 places, and its release.
#[inline(never)]
fn make(alloc: Global, count: usize, keep: &dyn Keep) -> bool {
    for _ in 0..count {
        let Ok(vec) = Vec::with_capacity(alloc, PIECE) else {
            return false;
        };
        keep.vector(&vec);
    }
    true
}

/// As many bytes as places, with room for as many more, and their release.
#[inline(never)]
fn reserve(alloc: Global, piece: &[u8], count: usize, keep: &dyn Keep) -> bool {
    for _ in 0..count {
        let Ok(mut vec) = Vec::with_capacity(alloc, PIECE) else {
            return false;
        };
        if vec.extend_from_slice(piece).is_err() || vec.reserve(PIECE).is_err() {
            return false;
        }
        keep.vector(&vec);
    }
    true
}

/// Room asked for that is there.
#[inline(never)]
fn reserve_room(vec: &mut Vec<u8>, count: usize, keep: &dyn Keep) -> bool {
    for _ in 0..count {
        if vec.reserve(PIECE).is_err() {
            return false;
        }
        keep.vector(vec);
    }
    true
}

/// Filled, and then a byte less each time.
#[inline(never)]
fn truncate(vec: &mut Vec<u8>, piece: &[u8], count: usize, keep: &dyn Keep) -> bool {
    for _ in 0..ROUND {
        if vec.extend_from_slice(piece).is_err() {
            return false;
        }
    }
    for len in (0..count).rev() {
        vec.truncate(len);
        keep.vector(vec);
    }
    true
}

/// Pieces copied into places that are there.
#[inline(never)]
fn extend(vec: &mut Vec<u8>, piece: &[u8], count: usize, keep: &dyn Keep) -> bool {
    for _ in 0..count {
        vec.truncate(0);
        for i in 0..ROUND {
            if vec.extend_from_slice(piece).is_err() {
                return false;
            }
            keep.number(i);
        }
    }
    true
}

/// All bytes to be written, of which the first is.
#[inline(never)]
fn write(vec: &mut Vec<u8>, count: usize, keep: &dyn Keep) -> bool {
    for _ in 0..count {
        let bytes = vec.as_mut_slice();
        let Some(first) = bytes.first_mut() else {
            return false;
        };
        *first = 43;
        keep.bytes(bytes);
    }
    true
}

/// The bytes of a vector.
#[inline(never)]
fn read_back(vec: &Vec<u8>, count: usize, keep: &dyn Keep) -> bool {
    for _ in 0..count {
        keep.bytes(vec.as_slice());
    }
    true
}
