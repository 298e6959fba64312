//! The loops over std's vectors of bytes, for the price of the C library and of the loops.
use crate::Words;
use crate::keep::{Keep, MILLION, PIECE, PLACES, ROUND, chosen};

type Bytes = Vec<u8>;

/// Runs an operation so often, and answers whether all was done.
pub fn run(words: &Words) -> Option<()> {
    let count = words.count;
    let len = if count == 0 { 1 } else { PIECE };
    let all = [42; PIECE];
    let keep = chosen::<Bytes>(count);
    let mut bytes = Vec::with_capacity(PLACES);
    match words.operation.as_str() {
        "push" => push(&mut bytes, count, keep),
        "grow" => grow(ROUND, count, keep),
        "grow_million" => grow(MILLION, count, keep),
        "extend" => extend(&mut bytes, &all[..len], count, keep),
        "make_writer" => make(count, keep),
        _ => return None,
    }
    Some(())
}

/// Bytes pushed into places that are there.
#[inline(never)]
fn push(bytes: &mut Bytes, count: usize, keep: &dyn Keep<Bytes>) {
    for _ in 0..count {
        bytes.truncate(0);
        for i in 0..ROUND {
            bytes.push(42);
            keep.number(i);
        }
    }
}

/// So many bytes pushed into a vector that has no places at first, and its release.
#[inline(never)]
fn grow(steps: usize, count: usize, keep: &dyn Keep<Bytes>) {
    for _ in 0..count {
        let mut bytes = Vec::new();
        for _ in 0..steps {
            bytes.push(42);
        }
        keep.window(&bytes);
    }
}

/// Pieces copied into places that are there.
#[inline(never)]
fn extend(bytes: &mut Bytes, piece: &[u8], count: usize, keep: &dyn Keep<Bytes>) {
    for _ in 0..count {
        bytes.truncate(0);
        for i in 0..ROUND {
            bytes.extend_from_slice(piece);
            keep.number(i);
        }
    }
}

/// A vector with 64 places, and its release.
#[inline(never)]
fn make(count: usize, keep: &dyn Keep<Bytes>) {
    for _ in 0..count {
        let bytes = Vec::with_capacity(PIECE);
        keep.window(&bytes);
    }
}
