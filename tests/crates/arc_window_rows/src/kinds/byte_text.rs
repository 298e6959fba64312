//! Byte text.
use super::{Spelled, lists};
use crate::call::{Change, Make, Operands};
use crate::window::{Read, Sole, Written};
use crate::words::{NO_CALL, Word, or_no_memory};
use arc_block::layout::{Layout, LayoutMut, StaticLayout};
use arc_buffer::kinds::{ByteText, Plain};
use arc_read::slice::ArcSlice;
use arc_write::slice_mut::ArcSliceMut;
use std::alloc::Global;

/// A window over bytes as one over byte text.
fn of_bytes<L: Layout>(bytes: ArcSlice<Plain<u8>, L>) -> Read<ByteText, L> {
    match ArcSlice::<ByteText, L>::try_from_arc_slice(bytes) {
        Ok(window) => Ok(window),
        Err(_) => Err(NO_CALL),
    }
}

/// The same of one that is written.
fn of_written_bytes<K: LayoutMut>(bytes: Sole<Plain<u8>, K>) -> Written<ByteText, K> {
    match ArcSliceMut::<ByteText, K, 1>::try_from_arc_slice_mut(bytes) {
        Ok(window) => Ok(window),
        Err(_) => Err(NO_CALL),
    }
}

impl Spelled for ByteText {
    fn reader<L: Layout>(alloc: Global, what: Make, text: &[u8]) -> Read<Self, L> {
        match what {
            Make::Bytes => of_bytes(lists::copied(alloc, text)?),
            _ => lists::copied_reader(alloc, what, text),
        }
    }

    fn lasting_reader<L: StaticLayout>(alloc: Global, text: &[u8]) -> Read<Self, L> {
        lists::lasting_reader(alloc, text)
    }

    fn rounded<L: Layout>(window: &mut Option<ArcSlice<Self, L>>) -> Word {
        match window.take() {
            Some(text) => lists::put_back(window, of_bytes(text.into_arc_slice())),
            None => NO_CALL,
        }
    }

    fn writer<K: LayoutMut>(alloc: Global, what: Make, operands: &Operands) -> Written<Self, K> {
        match what {
            Make::Mbytes => of_written_bytes(lists::copied_written(alloc, &operands.text)?),
            Make::Zero => or_no_memory(ArcSliceMut::try_zeroed(alloc, operands.first)),
            _ => lists::copied_writer(alloc, what, &operands.text),
        }
    }

    fn change<K: LayoutMut>(window: &mut Sole<Self, K>, what: Change, operands: &Operands) -> Word {
        lists::change_copied(window, what, operands)
    }

    fn rounded_writer<K: LayoutMut>(window: &mut Option<Sole<Self, K>>) -> Word {
        match window.take() {
            Some(text) => lists::put_back(window, of_written_bytes(text.into_arc_slice_mut())),
            None => NO_CALL,
        }
    }
}
