//! Layouts, and the calls that hang on the layout.
use crate::call::Make;
use crate::kinds::Spelled;
use crate::window::Read;
use crate::words::NO_CALL;
use arc_block::layout::{
    ArcLayout, BoxedSliceLayout, DefaultLayoutMut, Layout, LayoutMut, RawLayout, StaticLayout,
    VecLayout,
};
use arc_read::slice::ArcSlice;
use std::alloc::Global;

/// A layout of windows that are read, and the one of those that are written beside them. A call
/// that a layout doesn't have is answered so.
pub trait Held: Layout {
    /// The layout of the windows that are written.
    type Mut: LayoutMut;

    /// A window on no block: with no items, or over items that lie there for good.
    fn on_no_block<S: Spelled>(alloc: Global, what: Make, text: &[u8]) -> Read<S, Self> {
        let _ = alloc;
        let _ = what;
        let _ = text;
        Err(NO_CALL)
    }
}

/// The same under a layout that has such windows.
fn on_static<S: Spelled, L: StaticLayout>(alloc: Global, what: Make, text: &[u8]) -> Read<S, L> {
    match what {
        Make::Static => S::lasting_reader(alloc, text),
        _ => Ok(ArcSlice::new(alloc)),
    }
}

impl<const ANY: bool> Held for ArcLayout<ANY, true> {
    type Mut = ArcLayout<ANY, true>;

    fn on_no_block<S: Spelled>(alloc: Global, what: Make, text: &[u8]) -> Read<S, Self> {
        on_static(alloc, what, text)
    }
}

impl<const ANY: bool> Held for ArcLayout<ANY, false> {
    type Mut = ArcLayout<ANY, false>;
}

impl Held for BoxedSliceLayout {
    type Mut = DefaultLayoutMut;

    fn on_no_block<S: Spelled>(alloc: Global, what: Make, text: &[u8]) -> Read<S, Self> {
        on_static(alloc, what, text)
    }
}

impl Held for VecLayout {
    type Mut = VecLayout;

    fn on_no_block<S: Spelled>(alloc: Global, what: Make, text: &[u8]) -> Read<S, Self> {
        on_static(alloc, what, text)
    }
}

impl Held for RawLayout {
    type Mut = DefaultLayoutMut;

    fn on_no_block<S: Spelled>(alloc: Global, what: Make, text: &[u8]) -> Read<S, Self> {
        on_static(alloc, what, text)
    }
}
