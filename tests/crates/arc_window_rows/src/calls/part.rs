//! Windows that are made of one that is read.
use crate::call::{Operands, Part};
use crate::kinds::Spelled;
use crate::window::Read;
use crate::words::{Word, owner_word, range_word};
use arc_block::layout::Layout;
use arc_owners::error::OwnerError;
use arc_read::slice::ArcSlice;
use std::sync::Wait;

/// The window, or the word for why there is none.
fn or_word<W>(made: Result<W, OwnerError>) -> Result<W, Word> {
    match made {
        Ok(window) => Ok(window),
        Err(e) => Err(owner_word(e)),
    }
}

/// A window over a range.
fn sub<S: Spelled, L: Layout>(
    rt: &impl Wait,
    window: &ArcSlice<S, L>,
    start: usize,
    end: usize,
) -> Read<S, L> {
    match window.check_range(start, end) {
        Ok(()) => or_word(window.try_subslice(rt, start, end)),
        Err(e) => Err(range_word(e)),
    }
}

/// What is on one side of a place, split off.
fn side<S: Spelled, L: Layout>(
    rt: &impl Wait,
    window: &mut ArcSlice<S, L>,
    what: Part,
    at: usize,
) -> Read<S, L> {
    if let Err(e) = window.check_at(at) {
        return Err(range_word(e));
    }
    match what {
        Part::Off => or_word(window.try_split_off(rt, at)),
        _ => or_word(window.try_split_to(rt, at)),
    }
}

/// A window over a range of a range, borrowed twice.
fn part<S: Spelled, L: Layout>(
    rt: &impl Wait,
    window: &ArcSlice<S, L>,
    outer: (usize, usize),
    inner: (usize, usize),
) -> Read<S, L> {
    if let Err(e) = window.check_range(outer.0, outer.1) {
        return Err(range_word(e));
    }
    let borrowed = window.borrow(outer.0, outer.1);
    if let Err(e) = borrowed.check_range(inner.0, inner.1) {
        return Err(range_word(e));
    }
    or_word(borrowed.reborrow(inner.0, inner.1).try_clone_arc(rt))
}

/// The window that a call makes of one that is read.
pub fn made_of<S: Spelled, L: Layout>(
    rt: &impl Wait,
    window: &mut ArcSlice<S, L>,
    what: Part,
    operands: &Operands,
) -> Read<S, L> {
    match what {
        Part::Clone => or_word(window.try_clone(rt)),
        Part::Sub => sub(rt, window, operands.first, operands.second),
        Part::Off | Part::To => side(rt, window, what, operands.first),
        Part::Part => {
            let outer = (operands.first, operands.second);
            part(rt, window, outer, (operands.third, operands.fourth))
        }
    }
}
