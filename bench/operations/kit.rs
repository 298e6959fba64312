//! The same loops over the kit's `bytes`.
ghost use Rattle.std.specs.Prelude.{◌≡◌, ◌≤◌, length};

use crate::keep::Keep;
use crate::words::Operation;
use crate::{kit_writers, traits};
use bytes::Bytes;
use std::alloc::{AllocError, Global};

/// How many bytes the windows have.
const LEN: usize = 128;

/// Runs an operation so often, and answers whether all was done.
pub fn run(alloc: Global, operation: Operation, count: usize, keep: &dyn Keep) -> bool {
    let Ok(window) = Bytes::copy_from_slice(alloc, &[42; LEN]) else {
        return false;
    };
    match operation {
        Operation::Loop => Ok(empty_loop(count, keep)),
        Operation::WindowLoop => Ok(window_loop(&window, count, keep)),
        Operation::Clone => clone_local(window, count, keep),
        Operation::CloneShared => clone_shared(&window, count, keep),
        Operation::Read => Ok(read(&window, count, keep)),
        Operation::Make => make(alloc, count, keep),
        Operation::EmptyCut => cut_local(window, 7, 7, count, keep),
        Operation::EmptyCutShared => cut_shared(&window, 7, 7, count, keep),
        Operation::ShortCut => cut_local(window, 7, 15, count, keep),
        Operation::ShortCutShared => cut_shared(&window, 7, 15, count, keep),
        Operation::SplitOff => split_off(&window, count, keep),
        Operation::Unique => Ok(unique(&window, count, keep)),
        Operation::Array => array(alloc, count, keep),
        Operation::Back => return vector_back(alloc, count, keep),
        Operation::Reading(reading) => return traits::run_kit(alloc, reading, count, keep),
        Operation::Writer(writing) => return kit_writers::run(alloc, writing, count, keep),
        _ => return false,
    }
    .is_ok()
}

/// Nothing but the loop.
#[inline(never)]
fn empty_loop(count: usize, keep: &dyn Keep) {
    for i in 0..count {
        keep.number(i);
    }
}

/// Nothing but the loop, which hands a window on.
#[inline(never)]
fn window_loop(window: &Bytes, count: usize, keep: &dyn Keep) {
    for _ in 0..count {
        keep.kit(window);
    }
}

/// A clone of a local window, and its release.
#[inline(never)]
fn clone_local(window: Bytes, count: usize, keep: &dyn Keep) -> Result<(), AllocError> {
    for _ in 0..count {
        let clone = window.clone()?;
        keep.kit(&clone);
    }
    Ok(())
}

/// A clone of a window behind a reference, and its release.
#[inline(never)]
fn clone_shared(window: &Bytes, count: usize, keep: &dyn Keep) -> Result<(), AllocError> {
    for _ in 0..count {
        let clone = window.clone()?;
        keep.kit(&clone);
    }
    Ok(())
}

/// The window's bytes.
#[inline(never)]
fn read(window: &Bytes, count: usize, keep: &dyn Keep) {
    for _ in 0..count {
        keep.bytes(window.as_slice());
    }
}

/// A window over a copy of bytes, and its release.
#[inline(never)]
fn make(alloc: Global, count: usize, keep: &dyn Keep) -> Result<(), AllocError> {
    let bytes = [42; LEN];
    for _ in 0..count {
        let window = Bytes::copy_from_slice(alloc, &bytes)?;
        keep.kit(&window);
    }
    Ok(())
}

/// A cut of a local window, and its release.
#[inline(never)]
fn cut_local(
    window: Bytes,
    start: usize,
    end: usize,
    count: usize,
    keep: &dyn Keep,
) -> Result<(), AllocError>
    requires { start ≤ end × end ≤ length window }
{
    for _ in 0..count {
        let cut = window.slice(start..end)?;
        keep.kit(&cut);
    }
    Ok(())
}

/// A cut of a window behind a reference, and its release.
#[inline(never)]
fn cut_shared(
    window: &Bytes,
    start: usize,
    end: usize,
    count: usize,
    keep: &dyn Keep,
) -> Result<(), AllocError>
    requires { start ≤ end × end ≤ length window.now }
{
    for _ in 0..count {
        let cut = window.slice(start..end)?;
        keep.kit(&cut);
    }
    Ok(())
}

/// The back of a clone, split off, and the release of both, which are handed on.
#[inline(never)]
fn split_off(window: &Bytes, count: usize, keep: &dyn Keep) -> Result<(), AllocError>
    requires { 7 ≤ length window.now }
{
    for _ in 0..count {
        let mut front = window.clone()?;
        let back = front.split_off(7)?;
        keep.kit(&back);
        keep.kit(&front);
    }
    Ok(())
}

/// Whether the window is alone.
#[inline(never)]
fn unique(window: &Bytes, count: usize, keep: &dyn Keep) {
    for _ in 0..count {
        keep.number(usize::from(window.is_unique()));
    }
}

/// Bytes of 32 as a window, and back: the kit's gives them back as a `BytesMut`.
#[inline(never)]
fn array(alloc: Global, count: usize, keep: &dyn Keep) -> Result<(), AllocError> {
    for _ in 0..count {
        let window = Bytes::copy_from_slice(alloc, &[42u8; 32])?;
        if let Ok(bytes) = window.try_into_mut() {
            keep.bytes(bytes.as_slice());
        }
    }
    Ok(())
}

/// A vector as a window, and back.
#[inline(never)]
fn vector_back(alloc: Global, count: usize, keep: &dyn Keep) -> bool {
    let Ok(mut bytes) = Vec::from_slice(alloc, &[42u8; LEN]) else {
        return false;
    };
    for _ in 0..count {
        let Ok(window) = Bytes::from_vec(bytes) else {
            return false;
        };
        keep.kit(&window);
        let Ok(alone) = window.try_into_mut() else {
            return false;
        };
        let Ok(back) = alone.into_vec() else {
            return false;
        };
        bytes = back;
    }
    true
}
