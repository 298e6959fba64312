//! What windows answer, and stay as they are.
use crate::call::{Ask, Operands};
use crate::kinds::Spelled;
use crate::kinds::lists::{items_of, spell};
use crate::words::{NO_CALL, NO_MEMORY, Reply, range_word, tested, yes_or_no};
use arc_block::layout::{Layout, LayoutMut};
use arc_read::slice::ArcSlice;
use arc_write::slice_mut::ArcSliceMut;
use std::alloc::{AllocError, Global};
use std::fmt;

/// The reply to what was written, or not.
fn shown(written: Result<(), AllocError>) -> Reply {
    match written {
        Ok(()) => Reply::Shown,
        Err(_) => Reply::Word(NO_MEMORY),
    }
}

/// What `{:?}` writes of a window.
fn debug<W: fmt::Debug>(alloc: Global, window: &W, out: &mut Vec<u8>) -> Result<(), AllocError> {
    let text = format!(in alloc; "{window:?}")?;
    out.extend_from_slice(text.as_bytes())
}

/// Whether a window that is read has the items that are written so.
fn reads<S: Spelled, L: Layout>(alloc: Global, window: &ArcSlice<S, L>, text: &[u8]) -> Reply {
    match items_of::<S::Item>(alloc, text) {
        Ok(items) => Reply::Word(yes_or_no(window.eq_slice(&items))),
        Err(word) => Reply::Word(word),
    }
}

/// Whether a window that is written has the items that are written so.
fn writes<S: Spelled, K: LayoutMut>(
    alloc: Global,
    window: &ArcSliceMut<S, K, 1>,
    text: &[u8],
) -> Reply {
    match items_of::<S::Item>(alloc, text) {
        Ok(items) => Reply::Word(yes_or_no(window.eq_slice(&items))),
        Err(word) => Reply::Word(word),
    }
}

/// A part that is borrowed, as it is written.
fn borrowed<S: Spelled, L: Layout>(
    window: &ArcSlice<S, L>,
    start: usize,
    end: usize,
    out: &mut Vec<u8>,
) -> Reply {
    match window.check_range(start, end) {
        Ok(()) => shown(spell(window.borrow(start, end).as_slice(), out)),
        Err(e) => Reply::Word(range_word(e)),
    }
}

/// What a window that is read answers.
pub fn of_reader<S: Spelled, L: Layout>(
    alloc: Global,
    window: &ArcSlice<S, L>,
    what: Ask,
    operands: &Operands,
    out: &mut Vec<u8>,
) -> Reply {
    let (first, second) = (operands.first, operands.second);
    match what {
        Ask::Range => Reply::Word(tested(window.check_range(first, second))),
        Ask::At => Reply::Word(tested(window.check_at(first))),
        Ask::Uniq => Reply::Word(yes_or_no(window.is_unique())),
        Ask::Len => Reply::Number(window.len()),
        Ask::Show => shown(spell(window.as_slice(), out)),
        Ask::Debug => shown(debug(alloc, window, out)),
        Ask::Is => reads(alloc, window, operands.text.as_slice()),
        Ask::Borrow => borrowed(window, first, second, out),
        Ask::SplitAt | Ask::Room => Reply::Word(NO_CALL),
    }
}

/// What a window that is written answers.
pub fn of_writer<S: Spelled, K: LayoutMut>(
    alloc: Global,
    window: &ArcSliceMut<S, K, 1>,
    what: Ask,
    operands: &Operands,
    out: &mut Vec<u8>,
) -> Reply {
    let first = operands.first;
    match what {
        Ask::At => Reply::Word(tested(window.check_at(first))),
        Ask::SplitAt => Reply::Word(tested(window.check_split_off(first))),
        Ask::Len => Reply::Number(window.len()),
        Ask::Room => Reply::Number(window.capacity()),
        Ask::Show => shown(spell(window.as_slice(), out)),
        Ask::Debug => shown(debug(alloc, window, out)),
        Ask::Is => writes(alloc, window, operands.text.as_slice()),
        Ask::Range | Ask::Uniq | Ask::Borrow => Reply::Word(NO_CALL),
    }
}
