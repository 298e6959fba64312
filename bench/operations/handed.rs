//! Windows that are read, by layout: how each is made, and handed on.
use crate::keep::Keep;
use crate::words::Base;
use arc_slice::ArcBytes;
use arc_slice::layout::{AnyBufferLayout, BoxedSliceLayout, DefaultLayout, RawLayout, VecLayout};
use std::alloc::Global;
use std::sync::Arc;

/// How many bytes a window has that loses one each time.
pub const MANY: usize = 20_000;

/// A layout whose windows the loops run over.
pub trait Handed: AnyBufferLayout {
    /// A window over so many bytes.
    fn over(alloc: Global, base: Base, len: usize) -> Option<ArcBytes<Self>>;

    /// Hands a window on.
    fn hand(window: &ArcBytes<Self>, keep: &dyn Keep);
}

/// A window over so many bytes, on a block of its own or on what holds them already.
fn over_bytes<L: AnyBufferLayout>(alloc: Global, base: Base, len: usize) -> Option<ArcBytes<L>> {
    let mut bytes: Vec<u8> = Vec::with_capacity(alloc, len).ok()?;
    for _ in 0..len {
        bytes.push(42).ok()?;
    }
    match base {
        Base::Block => ArcBytes::try_from_slice(alloc, bytes.as_slice()).ok(),
        Base::Vector => ArcBytes::try_from_vec(alloc, bytes).ok(),
        Base::Buffer => ArcBytes::try_from_buffer(alloc, bytes).ok(),
        Base::Arc => {
            let shared = Arc::new(alloc, bytes).ok()?;
            ArcBytes::try_from_raw_buffer(alloc, shared).ok()
        }
        Base::Static => None,
    }
}

impl Handed for DefaultLayout {
    fn over(alloc: Global, base: Base, len: usize) -> Option<ArcBytes> {
        match base {
            Base::Static if len == MANY => Some(ArcBytes::from_static(alloc, &[42; MANY])),
            Base::Static => Some(ArcBytes::from_static(alloc, &[42; 128])),
            _ => over_bytes(alloc, base, len),
        }
    }

    #[inline(always)]
    fn hand(window: &ArcBytes, keep: &dyn Keep) {
        keep.window(window);
    }
}

impl Handed for BoxedSliceLayout {
    fn over(alloc: Global, base: Base, len: usize) -> Option<ArcBytes<BoxedSliceLayout>> {
        over_bytes(alloc, base, len)
    }

    #[inline(always)]
    fn hand(window: &ArcBytes<BoxedSliceLayout>, keep: &dyn Keep) {
        keep.boxed(window);
    }
}

impl Handed for VecLayout {
    fn over(alloc: Global, base: Base, len: usize) -> Option<ArcBytes<VecLayout>> {
        over_bytes(alloc, base, len)
    }

    #[inline(always)]
    fn hand(window: &ArcBytes<VecLayout>, keep: &dyn Keep) {
        keep.lone(window);
    }
}

impl Handed for RawLayout {
    fn over(alloc: Global, base: Base, len: usize) -> Option<ArcBytes<RawLayout>> {
        over_bytes(alloc, base, len)
    }

    #[inline(always)]
    fn hand(window: &ArcBytes<RawLayout>, keep: &dyn Keep) {
        keep.raw(window);
    }
}
