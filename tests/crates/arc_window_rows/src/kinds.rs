//! Kinds of slices, and the calls that hang on the kind.
use crate::call::{Change, Make, Operands};
use crate::letters::Letter;
use crate::window::{Read, Sole, Written};
use crate::words::Word;
use arc_block::layout::{Layout, LayoutMut, StaticLayout};
use arc_buffer::kinds::{DebugSlice, Emptyable, Subsliceable};
use arc_read::slice::ArcSlice;
use std::alloc::Global;

mod byte_text;
pub mod lists;
mod owned;
mod plain;
mod text;

/// A kind whose items are written as letters. A call that a kind doesn't have is answered so.
pub trait Spelled: Subsliceable<Item: Letter> + Emptyable + DebugSlice {
    /// A window over these items: a slice, an array, or bytes that are made one of this kind.
    fn reader<L: Layout>(alloc: Global, what: Make, text: &[u8]) -> Read<Self, L>;

    /// A window over items that lie there for good.
    fn lasting_reader<L: StaticLayout>(alloc: Global, text: &[u8]) -> Read<Self, L>;

    /// The window as one over bytes, and back.
    fn rounded<L: Layout>(window: &mut Option<ArcSlice<Self, L>>) -> Word;

    /// A window that is written: over a slice, an array, the items of an iterator, bytes that are
    /// made one of this kind, or zeros.
    fn writer<K: LayoutMut>(alloc: Global, what: Make, operands: &Operands) -> Written<Self, K>;

    /// An item more, a list more, the items of an iterator more, an item in the place of another,
    /// or the items the other way round.
    fn change<K: LayoutMut>(window: &mut Sole<Self, K>, what: Change, operands: &Operands) -> Word;

    /// The window that is written as one over bytes, and back.
    fn rounded_writer<K: LayoutMut>(window: &mut Option<Sole<Self, K>>) -> Word;
}
