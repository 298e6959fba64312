//! Items that are moved, and dropped one by one.
use super::{Spelled, lists};
use crate::call::{Change, Make, Operands};
use crate::letters::Name;
use crate::window::{Read, Sole, Written};
use crate::words::{NO_CALL, Word};
use arc_block::layout::{Layout, LayoutMut, StaticLayout};
use arc_buffer::kinds::Owned;
use arc_read::slice::ArcSlice;
use std::alloc::Global;

impl Spelled for Owned<Name> {
    fn reader<L: Layout>(alloc: Global, what: Make, text: &[u8]) -> Read<Self, L> {
        match what {
            Make::Slice | Make::Array => lists::array_reader(alloc, text),
            _ => Err(NO_CALL),
        }
    }

    fn lasting_reader<L: StaticLayout>(alloc: Global, text: &[u8]) -> Read<Self, L> {
        lists::lasting_reader(alloc, text)
    }

    fn rounded<L: Layout>(window: &mut Option<ArcSlice<Self, L>>) -> Word {
        let _ = window;
        NO_CALL
    }

    fn writer<K: LayoutMut>(alloc: Global, what: Make, operands: &Operands) -> Written<Self, K> {
        let text = operands.text.as_slice();
        match what {
            Make::Mslice | Make::Marray => lists::array_writer(alloc, text),
            Make::Miter => lists::collected(alloc, text),
            _ => Err(NO_CALL),
        }
    }

    fn change<K: LayoutMut>(window: &mut Sole<Self, K>, what: Change, operands: &Operands) -> Word {
        lists::change(window, what, operands)
    }

    fn rounded_writer<K: LayoutMut>(window: &mut Option<Sole<Self, K>>) -> Word {
        let _ = window;
        NO_CALL
    }
}
