//! Windows that are changed in their places.
use crate::call::{Change, Operands};
use crate::kinds::Spelled;
use crate::letters::Letter;
use crate::words::{NO_CALL, OK, Word, range_word, room_made, yes_or_no};
use arc_block::layout::{Layout, LayoutMut};
use arc_read::slice::ArcSlice;
use arc_write::slice_mut::ArcSliceMut;

/// Takes so many items off the front of a window that is read.
fn advance<S: Spelled, L: Layout>(window: &mut ArcSlice<S, L>, by: usize) -> Word {
    match window.check_at(by) {
        Ok(()) => {
            window.advance(by);
            OK
        }
        Err(e) => range_word(e),
    }
}

/// Leaves the first so many items of a window that is read.
fn truncate<S: Spelled, L: Layout>(window: &mut ArcSlice<S, L>, len: usize) -> Word {
    if len < window.len() {
        if let Err(e) = window.check_at(len) {
            return range_word(e);
        }
    }
    window.truncate(len);
    OK
}

/// Changes a window that is read.
pub fn reader<S: Spelled, L: Layout>(
    window: &mut ArcSlice<S, L>,
    what: Change,
    operands: &Operands,
) -> Word {
    let first = operands.first;
    match what {
        Change::Adv => advance(window, first),
        Change::Trunc => truncate(window, first),
        _ => NO_CALL,
    }
}

/// Takes so many items off the front of a window that is written.
fn advance_written<S: Spelled, K: LayoutMut>(window: &mut ArcSliceMut<S, K, 1>, by: usize) -> Word {
    match window.check_at(by) {
        Ok(()) => {
            window.advance(by);
            OK
        }
        Err(e) => range_word(e),
    }
}

/// Leaves the first so many items of a window that is written.
fn truncate_written<S: Spelled, K: LayoutMut>(
    window: &mut ArcSliceMut<S, K, 1>,
    len: usize,
) -> Word {
    if len < window.len() {
        if let Err(e) = window.check_at(len) {
            return range_word(e);
        }
    }
    window.truncate(len);
    OK
}

/// Makes room.
fn reserve<S: Spelled, K: LayoutMut>(window: &mut ArcSliceMut<S, K, 1>, more: usize) -> Word {
    room_made(window.try_reserve(more))
}

/// Finds room without memory.
fn reclaim<S: Spelled, K: LayoutMut>(window: &mut ArcSliceMut<S, K, 1>, more: usize) -> Word {
    yes_or_no(window.try_reclaim(more))
}

/// Changes a window that is written.
pub fn writer<S: Spelled, K: LayoutMut>(
    window: &mut ArcSliceMut<S, K, 1>,
    what: Change,
    operands: &Operands,
) -> Word {
    let first = operands.first;
    match what {
        Change::Adv => advance_written(window, first),
        Change::Trunc => truncate_written(window, first),
        Change::Res => reserve(window, first),
        Change::Rec => reclaim(window, first),
        Change::Push | Change::Ext | Change::Each | Change::Set | Change::Reverse => {
            S::change(window, what, operands)
        }
    }
}
