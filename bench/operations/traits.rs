//! Traits over 1,000 bytes, of our windows and of the kit's: printed, as digits, and read as
//! numbers.
use crate::keep::Keep;
use crate::words::Reading;
use arc_slice::ArcBytes;
use bytes::{Buf, Bytes};
use std::alloc::Global;
use std::fmt::{self, Debug, LowerHex};
use std::sync::Wait;

/// How many numbers of two bytes are read.
const NUMBERS: usize = 500;

/// How many bytes there are.
const LEN: usize = 1000;

/// How many places the text has: four a byte, and those of the quotes.
const PLACES: usize = 4_100;

/// Bytes, each about as often as another: so of each class that `{:?}` writes in a way of its own.
fn mixed() -> [u8; LEN] {
    let mut bytes = [0u8; LEN];
    for (i, byte) in bytes.iter_mut().enumerate() {
        *byte = (i % 256) as u8;
    }
    bytes
}

/// Runs an operation over our windows so often, and answers whether all was done.
pub fn run(rt: &impl Wait, alloc: Global, reading: Reading, count: usize, keep: &dyn Keep) -> bool {
    let Ok(window) = ArcBytes::try_from_slice(alloc, &mixed()) else {
        return false;
    };
    match reading {
        Reading::Debug => debug(alloc, &window, count, keep),
        Reading::Hex => hex(alloc, &window, count, keep),
        Reading::Numbers => numbers(rt, &window, count, keep),
    }
}

/// The same over the kit's bytes.
pub fn run_kit(alloc: Global, reading: Reading, count: usize, keep: &dyn Keep) -> bool {
    let Ok(bytes) = Bytes::copy_from_slice(alloc, &mixed()) else {
        return false;
    };
    match reading {
        Reading::Debug => debug(alloc, &bytes, count, keep),
        Reading::Hex => hex(alloc, &bytes, count, keep),
        Reading::Numbers => kit_numbers(&bytes, count, keep),
    }
}

/// By `{:?}`, into a text that is there.
#[inline(never)]
fn debug<T: Debug>(alloc: Global, value: &T, count: usize, keep: &dyn Keep) -> bool {
    let Ok(mut text) = String::with_capacity(alloc, PLACES) else {
        return false;
    };
    for _ in 0..count {
        text.clear();
        let mut out = fmt::Formatter::new(text);
        let done = Debug::fmt(value, &mut out);
        text = out.into_inner();
        if done.is_err() {
            return false;
        }
        keep.number(text.len());
    }
    true
}

/// By two hexadecimal digits a byte, into a text that is there.
#[inline(never)]
fn hex<T: LowerHex>(alloc: Global, value: &T, count: usize, keep: &dyn Keep) -> bool {
    let Ok(mut text) = String::with_capacity(alloc, PLACES) else {
        return false;
    };
    for _ in 0..count {
        text.clear();
        let mut out = fmt::Formatter::new(text);
        let done = LowerHex::fmt(value, &mut out);
        text = out.into_inner();
        if done.is_err() {
            return false;
        }
        keep.number(text.len());
    }
    true
}

/// A clone, all of whose bytes are read as numbers.
#[inline(never)]
fn numbers(rt: &impl Wait, window: &ArcBytes, count: usize, keep: &dyn Keep) -> bool {
    for _ in 0..count {
        let Ok(mut clone) = window.try_clone(rt) else {
            return false;
        };
        let mut last = 0;
        for _ in 0..NUMBERS {
            if clone.remaining() < 2 {
                return false;
            }
            last ^= clone.get_u16();
        }
        keep.number(last as usize);
    }
    true
}

/// The same of the kit's.
#[inline(never)]
fn kit_numbers(bytes: &Bytes, count: usize, keep: &dyn Keep) -> bool {
    for _ in 0..count {
        let Ok(mut clone) = bytes.clone() else {
            return false;
        };
        let mut last = 0;
        for _ in 0..NUMBERS {
            if clone.remaining() < 2 {
                return false;
            }
            last ^= clone.get_u16();
        }
        keep.number(last as usize);
    }
    true
}
