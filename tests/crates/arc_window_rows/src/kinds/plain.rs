//! Items that are plain data: bytes, numbers and units.
use super::{Spelled, lists};
use crate::call::{Change, Make, Operands};
use crate::letters::Letter;
use crate::window::{Read, Sole, Written};
use crate::words::{NO_CALL, Word, or_no_memory};
use arc_block::layout::{Layout, LayoutMut, StaticLayout};
use arc_buffer::kinds::{DebugItem, Plain, ZeroItem};
use arc_read::slice::ArcSlice;
use arc_write::slice_mut::ArcSliceMut;
use std::alloc::Global;

impl<T: Letter + Copy + ZeroItem + DebugItem + 'static> Spelled for Plain<T> {
    fn reader<L: Layout>(alloc: Global, what: Make, text: &[u8]) -> Read<Self, L> {
        lists::copied_reader(alloc, what, text)
    }

    fn lasting_reader<L: StaticLayout>(alloc: Global, text: &[u8]) -> Read<Self, L> {
        lists::lasting_reader(alloc, text)
    }

    fn rounded<L: Layout>(window: &mut Option<ArcSlice<Self, L>>) -> Word {
        let _ = window;
        NO_CALL
    }

    fn writer<K: LayoutMut>(alloc: Global, what: Make, operands: &Operands) -> Written<Self, K> {
        match what {
            Make::Zero => or_no_memory(ArcSliceMut::try_zeroed(alloc, operands.first)),
            _ => lists::copied_writer(alloc, what, &operands.text),
        }
    }

    fn change<K: LayoutMut>(window: &mut Sole<Self, K>, what: Change, operands: &Operands) -> Word {
        lists::change_copied(window, what, operands)
    }

    fn rounded_writer<K: LayoutMut>(window: &mut Option<Sole<Self, K>>) -> Word {
        let _ = window;
        NO_CALL
    }
}
