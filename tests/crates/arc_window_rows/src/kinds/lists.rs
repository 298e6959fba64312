//! Lists of letters, and what kinds of items share.
use crate::call::{Change, Make, Operands};
use crate::letters::Letter;
use crate::window::{Read, Sole, Written};
use crate::words::{NO_CALL, OK, REFUSED, Word, or_no_memory, room_made, room_word};
use arc_block::layout::{Layout, LayoutMut, StaticLayout};
use arc_buffer::kinds::{AnyItems, CopySlice, Emptyable, Extendable};
use arc_read::slice::ArcSlice;
use arc_write::slice_mut::ArcSliceMut;
use std::alloc::{AllocError, Global};

/// The items that are written so.
pub fn items_of<T: Letter>(alloc: Global, text: &[u8]) -> Result<Vec<T>, Word> {
    let mut items = Vec::new(alloc);
    for byte in text {
        or_no_memory(items.push(T::of(*byte)))?;
    }
    Ok(items)
}

/// How these items are written.
pub fn spell<T: Letter>(items: &[T], out: &mut Vec<u8>) -> Result<(), AllocError> {
    for item in items {
        out.push(item.byte())?;
    }
    Ok(())
}

/// A window over a copy of the items.
pub fn copied<S: CopySlice<Item: Letter + Copy>, L: Layout>(
    alloc: Global,
    text: &[u8],
) -> Read<S, L> {
    let items = items_of::<S::Item>(alloc, text)?;
    or_no_memory(ArcSlice::try_from_slice(alloc, &items))
}

/// A window that is written, over a copy of the items.
pub fn copied_written<S: CopySlice<Item: Letter + Copy>, K: LayoutMut>(
    alloc: Global,
    text: &[u8],
) -> Written<S, K> {
    let items = items_of::<S::Item>(alloc, text)?;
    or_no_memory(ArcSliceMut::try_from_slice(alloc, &items))
}

/// A window of an array.
fn array_of<S: AnyItems, L: Layout, const N: usize>(
    alloc: Global,
    array: [S::Item; N],
) -> Read<S, L> {
    match ArcSlice::try_from_array(alloc, array) {
        Ok(window) => Ok(window),
        Err(_) => Err(REFUSED),
    }
}

/// A window that is written, of an array.
fn array_written<S: AnyItems, K: LayoutMut, const N: usize>(
    alloc: Global,
    array: [S::Item; N],
) -> Written<S, K> {
    match ArcSliceMut::try_from_array(alloc, array) {
        Ok(window) => Ok(window),
        Err(_) => Err(REFUSED),
    }
}

/// What a function makes of an array of at most five items. A function that is passed can't be one
/// of arrays of each length.
macro_rules! of_letters {
    ($of:ident, $alloc:ident, $text:ident) => {
        match $text {
            [] => $of($alloc, []),
            [a] => $of($alloc, [S::Item::of(*a)]),
            [a, b] => $of($alloc, [S::Item::of(*a), S::Item::of(*b)]),
            [a, b, c] => $of($alloc, [S::Item::of(*a), S::Item::of(*b), S::Item::of(*c)]),
            [a, b, c, d] => $of(
                $alloc,
                [S::Item::of(*a), S::Item::of(*b), S::Item::of(*c), S::Item::of(*d)],
            ),
            [a, b, c, d, e] => $of(
                $alloc,
                [
                    S::Item::of(*a),
                    S::Item::of(*b),
                    S::Item::of(*c),
                    S::Item::of(*d),
                    S::Item::of(*e),
                ],
            ),
            _ => Err("too many items"),
        }
    };
}

/// A window of an array of at most five items.
pub fn array_reader<S: AnyItems<Item: Letter>, L: Layout>(
    alloc: Global,
    text: &[u8],
) -> Read<S, L> {
    of_letters!(array_of, alloc, text)
}

/// A window that is written, of an array of at most five items.
pub fn array_writer<S: AnyItems<Item: Letter>, K: LayoutMut>(
    alloc: Global,
    text: &[u8],
) -> Written<S, K> {
    of_letters!(array_written, alloc, text)
}

/// A window of the items of an iterator.
pub fn collected<S: Extendable<Item: Letter> + Emptyable, K: LayoutMut>(
    alloc: Global,
    text: &[u8],
) -> Written<S, K> {
    let items = items_of::<S::Item>(alloc, text)?;
    match ArcSliceMut::try_from_iter(alloc, items) {
        Ok(window) => Ok(window),
        Err((_, e, _)) => Err(room_word(e)),
    }
}

/// A window of items that are copied: a slice or an array.
pub fn copied_reader<S: CopySlice<Item: Letter + Copy>, L: Layout>(
    alloc: Global,
    what: Make,
    text: &[u8],
) -> Read<S, L> {
    match what {
        Make::Slice => copied(alloc, text),
        Make::Array => array_reader(alloc, text),
        _ => Err(NO_CALL),
    }
}

/// One that is written: over a slice, an array, or the items of an iterator.
pub fn copied_writer<S: CopySlice<Item: Letter + Copy> + Extendable + Emptyable, K: LayoutMut>(
    alloc: Global,
    what: Make,
    text: &[u8],
) -> Written<S, K> {
    match what {
        Make::Mslice => copied_written(alloc, text),
        Make::Marray => array_writer(alloc, text),
        Make::Miter => collected(alloc, text),
        _ => Err(NO_CALL),
    }
}

/// A window over items that lie there for good.
pub fn lasting_reader<S: AnyItems<Item: Letter>, L: StaticLayout>(
    alloc: Global,
    text: &[u8],
) -> Read<S, L>
where
    S::Item: 'static,
{
    match S::Item::lasting(text) {
        Some(items) => Ok(ArcSlice::from_static(alloc, items)),
        None => Err(NO_CALL),
    }
}

/// Puts a window that was made one over bytes, and back, into its place.
pub fn put_back<W: Drop>(place: &mut Option<W>, made: Result<W, Word>) -> Word {
    match made {
        Ok(window) => {
            *place = Some(window);
            OK
        }
        Err(word) => word,
    }
}

/// An item more.
fn push<S: Extendable<Item: Letter>, K: LayoutMut>(window: &mut Sole<S, K>, byte: u8) -> Word {
    match window.try_push(S::Item::of(byte)) {
        Ok(()) => OK,
        Err((e, _)) => room_word(e),
    }
}

/// A copy of these items more.
fn extend<S: CopySlice<Item: Letter + Copy>, K: LayoutMut>(
    window: &mut Sole<S, K>,
    items: &[S::Item],
) -> Word {
    room_made(window.try_extend_from_slice(items))
}

/// The items of an iterator more.
fn extend_each<S: Extendable<Item: Letter>, K: LayoutMut>(
    window: &mut Sole<S, K>,
    items: Vec<S::Item>,
) -> Word {
    match window.try_extend(items) {
        Ok(()) => OK,
        Err((e, _)) => room_word(e),
    }
}

/// An item in the place of another.
fn set<S: AnyItems<Item: Letter>, K: LayoutMut>(
    window: &mut Sole<S, K>,
    at: usize,
    byte: u8,
) -> Word {
    if at >= window.len() {
        return "out of range";
    }
    window.as_mut_slice()[at] = S::Item::of(byte);
    OK
}

/// The items the other way round.
fn reverse<S: AnyItems, K: LayoutMut>(window: &mut Sole<S, K>) -> Word {
    window.as_mut_slice().reverse();
    OK
}

/// The items behind a call's word.
fn letters<T: Letter>(operands: &Operands) -> Result<Vec<T>, Word> {
    items_of(*operands.text.allocator(), &operands.text)
}

/// The changes that all kinds of items have.
pub fn change<S: Extendable<Item: Letter> + AnyItems, K: LayoutMut>(
    window: &mut Sole<S, K>,
    what: Change,
    operands: &Operands,
) -> Word {
    let byte = operands.text.first().copied().unwrap_or(0);
    match what {
        Change::Push => push(window, byte),
        Change::Each => match letters(operands) {
            Ok(items) => extend_each(window, items),
            Err(word) => word,
        },
        Change::Set => set(window, operands.first, byte),
        Change::Reverse => reverse(window),
        _ => NO_CALL,
    }
}

/// The changes of items that are copied.
pub fn change_copied<S: CopySlice<Item: Letter + Copy> + Extendable, K: LayoutMut>(
    window: &mut Sole<S, K>,
    what: Change,
    operands: &Operands,
) -> Word {
    match what {
        Change::Ext => match letters::<S::Item>(operands) {
            Ok(items) => extend(window, &items),
            Err(word) => word,
        },
        _ => change(window, what, operands),
    }
}
