//! The loops over what is made a window of this repository and taken back.
use crate::at_site::at_site;
use crate::handed::Handed;
use crate::keep::Keep;
use crate::rounds::PIECE;
use crate::words::{Base, Words};
use arc_slice::{ArcBytes, ArcBytesMut};
use std::alloc::Global;
use std::sync::Wait;

/// How many bytes a window that is read has.
const LEN: usize = 128;

/// A vector or a caller's buffer, so often as a window and back; whether all was done.
pub fn run<L: Handed>(alloc: Global, base: Base, words: Words, keep: &dyn Keep) -> bool {
    let Ok(bytes) = Vec::from_slice(alloc, &[42u8; LEN]) else {
        return false;
    };
    let (count, second) = (words.count, words.second);
    match base {
        Base::Vector => at_site!(second, vector[L](alloc, bytes, count, keep)),
        Base::Buffer => at_site!(second, buffer[L](alloc, bytes, count, keep)),
        _ => false,
    }
}

/// A vector as a window, and back, with a clone made and released between.
pub fn run_cloned<L: Handed, W: Wait>(
    rt: &W,
    alloc: Global,
    words: Words,
    keep: &dyn Keep,
) -> bool {
    let Ok(bytes) = Vec::from_slice(alloc, &[42u8; LEN]) else {
        return false;
    };
    at_site!(words.second, cloned[L, W](rt, alloc, bytes, words.count, keep))
}

/// The same as a window that is written.
pub fn run_writer(alloc: Global, base: Base, words: Words, keep: &dyn Keep) -> bool {
    let Ok(bytes) = Vec::with_capacity(alloc, PIECE) else {
        return false;
    };
    let (count, second) = (words.count, words.second);
    match base {
        Base::Vector => at_site!(second, vector_writer[](alloc, bytes, count, keep)),
        Base::Buffer => at_site!(second, buffer_writer[](alloc, bytes, count, keep)),
        _ => false,
    }
}

/// A vector as a window, and back.
#[inline(never)]
fn vector<L: Handed, const SITE: usize>(
    alloc: Global,
    bytes: Vec<u8>,
    count: usize,
    keep: &dyn Keep,
) -> bool {
    let mut bytes = bytes;
    for _ in 0..count {
        let made: Result<ArcBytes<L>, Vec<u8>> = ArcBytes::try_from_vec(alloc, bytes);
        let Ok(window) = made else {
            return false;
        };
        L::hand(&window, keep);
        let Ok(back) = window.try_into_vec() else {
            return false;
        };
        bytes = back;
    }
    true
}

/// A vector as a window, a clone of it, and the vector back.
#[inline(never)]
fn cloned<L: Handed, W: Wait, const SITE: usize>(
    rt: &W,
    alloc: Global,
    bytes: Vec<u8>,
    count: usize,
    keep: &dyn Keep,
) -> bool {
    let mut bytes = bytes;
    for _ in 0..count {
        let made: Result<ArcBytes<L>, Vec<u8>> = ArcBytes::try_from_vec(alloc, bytes);
        let Ok(window) = made else {
            return false;
        };
        L::hand(&window, keep);
        let Ok(clone) = window.try_clone(rt) else {
            return false;
        };
        L::hand(&clone, keep);
        drop(clone);
        let Ok(back) = window.try_into_vec() else {
            return false;
        };
        bytes = back;
    }
    true
}

/// A caller's buffer as a window, and back.
#[inline(never)]
fn buffer<L: Handed, const SITE: usize>(
    alloc: Global,
    bytes: Vec<u8>,
    count: usize,
    keep: &dyn Keep,
) -> bool {
    let mut bytes = bytes;
    for _ in 0..count {
        let made: Result<ArcBytes<L>, Vec<u8>> = ArcBytes::try_from_buffer(alloc, bytes);
        let Ok(window) = made else {
            return false;
        };
        L::hand(&window, keep);
        let Ok(back) = window.try_into_buffer() else {
            return false;
        };
        bytes = back;
    }
    true
}

/// A vector as a window that is written, and back.
#[inline(never)]
fn vector_writer<const SITE: usize>(
    alloc: Global,
    bytes: Vec<u8>,
    count: usize,
    keep: &dyn Keep,
) -> bool {
    let mut bytes = bytes;
    for _ in 0..count {
        let made: Result<ArcBytesMut, Vec<u8>> = ArcBytesMut::try_from_vec(alloc, bytes);
        let Ok(window) = made else {
            return false;
        };
        keep.writer(&window);
        let Ok(back) = window.try_into_vec() else {
            return false;
        };
        bytes = back;
    }
    true
}

/// A caller's buffer as a window that is written, and back.
#[inline(never)]
fn buffer_writer<const SITE: usize>(
    alloc: Global,
    bytes: Vec<u8>,
    count: usize,
    keep: &dyn Keep,
) -> bool {
    let mut bytes = bytes;
    for _ in 0..count {
        let made: Result<ArcBytesMut, Vec<u8>> = ArcBytesMut::try_from_buffer(alloc, bytes);
        let Ok(window) = made else {
            return false;
        };
        keep.writer(&window);
        let Ok(back) = window.try_into_buffer() else {
            return false;
        };
        bytes = back;
    }
    true
}
