//! Text.
use super::{Spelled, lists};
use crate::call::{Change, Make, Operands};
use crate::letters::lasting_text;
use crate::window::{Read, Sole, Written};
use crate::words::{NO_CALL, Word, or_no_memory, room_made};
use arc_block::layout::{Layout, LayoutMut, StaticLayout};
use arc_buffer::kinds::{Plain, Text};
use arc_read::slice::ArcSlice;
use arc_write::slice_mut::ArcSliceMut;
use std::alloc::Global;
use std::str;

/// The text that is written so.
fn valid(text: &[u8]) -> Result<&str, Word> {
    match str::from_utf8(text) {
        Ok(text) => Ok(text),
        Err(_) => Err("not text"),
    }
}

/// Where a text that isn't valid goes wrong.
fn not_text(valid: usize) -> Word {
    match valid {
        0 => "not text at 0",
        1 => "not text at 1",
        2 => "not text at 2",
        3 => "not text at 3",
        _ => "not text",
    }
}

/// A window over bytes as one over text.
fn of_bytes<L: Layout>(bytes: ArcSlice<Plain<u8>, L>) -> Read<Text, L> {
    match ArcSlice::<Text, L>::try_from_arc_slice(bytes) {
        Ok(window) => Ok(window),
        Err((e, _)) => Err(not_text(e.valid_up_to())),
    }
}

/// The same of one that is written.
fn of_written_bytes<K: LayoutMut>(bytes: Sole<Plain<u8>, K>) -> Written<Text, K> {
    match ArcSliceMut::<Text, K, 1>::try_from_arc_slice_mut(bytes) {
        Ok(window) => Ok(window),
        Err((e, _)) => Err(not_text(e.valid_up_to())),
    }
}

/// A text more.
fn extend<K: LayoutMut>(window: &mut Sole<Text, K>, text: &[u8]) -> Word {
    match valid(text) {
        Ok(text) => room_made(window.try_extend_from_str(text)),
        Err(word) => word,
    }
}

impl Spelled for Text {
    fn reader<L: Layout>(alloc: Global, what: Make, text: &[u8]) -> Read<Self, L> {
        match what {
            Make::Slice => or_no_memory(ArcSlice::try_from_str(alloc, valid(text)?)),
            Make::Bytes => of_bytes(lists::copied(alloc, text)?),
            _ => Err(NO_CALL),
        }
    }

    fn lasting_reader<L: StaticLayout>(alloc: Global, text: &[u8]) -> Read<Self, L> {
        match lasting_text(text) {
            Some(text) => Ok(ArcSlice::from_static_str(alloc, text)),
            None => Err(NO_CALL),
        }
    }

    fn rounded<L: Layout>(window: &mut Option<ArcSlice<Self, L>>) -> Word {
        match window.take() {
            Some(text) => lists::put_back(window, of_bytes(text.into_arc_slice())),
            None => NO_CALL,
        }
    }

    fn writer<K: LayoutMut>(alloc: Global, what: Make, operands: &Operands) -> Written<Self, K> {
        let text = operands.text.as_slice();
        match what {
            Make::Mslice => or_no_memory(ArcSliceMut::try_from_str(alloc, valid(text)?)),
            Make::Mbytes => of_written_bytes(lists::copied_written(alloc, text)?),
            Make::Zero => or_no_memory(ArcSliceMut::try_zeroed(alloc, operands.first)),
            _ => Err(NO_CALL),
        }
    }

    fn change<K: LayoutMut>(window: &mut Sole<Self, K>, what: Change, operands: &Operands) -> Word {
        match what {
            Change::Ext => extend(window, operands.text.as_slice()),
            _ => NO_CALL,
        }
    }

    fn rounded_writer<K: LayoutMut>(window: &mut Option<Sole<Self, K>>) -> Word {
        match window.take() {
            Some(text) => lists::put_back(window, of_written_bytes(text.into_arc_slice_mut())),
            None => NO_CALL,
        }
    }
}
