//! Windows that are made of one that is read.
use super::call::{Part, Reply};
use super::window::Reader;
use arc_block::layout::Layout;
use arc_owners::error::OwnerError;
use std::sync::Wait;

/// The window, or the reply without one.
pub fn or_reply<W>(made: Result<W, OwnerError>) -> Result<W, Reply> {
    match made {
        Ok(window) => Ok(window),
        Err(OwnerError::AllocError) => Err(Reply::NoMemory),
        Err(OwnerError::CountFull) => Err(Reply::TooLarge),
    }
}

fn sub<'a, L: Layout>(
    rt: &impl Wait,
    window: &Reader<'a, L>,
    start: usize,
    end: usize,
) -> Result<Reader<'a, L>, Reply> {
    match window.check_range(start, end) {
        Ok(()) => or_reply(window.try_subslice(rt, start, end)),
        Err(_) => Err(Reply::NoCall),
    }
}

fn borrowed<'a, L: Layout>(
    rt: &impl Wait,
    window: &Reader<'a, L>,
    start: usize,
    end: usize,
) -> Result<Reader<'a, L>, Reply> {
    match window.check_range(start, end) {
        Ok(()) => or_reply(window.borrow(start, end).try_clone_arc(rt)),
        Err(_) => Err(Reply::NoCall),
    }
}

fn off<'a, L: Layout>(
    rt: &impl Wait,
    window: &mut Reader<'a, L>,
    at: usize,
) -> Result<Reader<'a, L>, Reply> {
    match window.check_at(at) {
        Ok(()) => or_reply(window.try_split_off(rt, at)),
        Err(_) => Err(Reply::NoCall),
    }
}

fn to<'a, L: Layout>(
    rt: &impl Wait,
    window: &mut Reader<'a, L>,
    at: usize,
) -> Result<Reader<'a, L>, Reply> {
    match window.check_at(at) {
        Ok(()) => or_reply(window.try_split_to(rt, at)),
        Err(_) => Err(Reply::NoCall),
    }
}

/// The window that a call makes of one that is read.
pub fn made_of<'a, L: Layout>(
    rt: &impl Wait,
    window: &mut Reader<'a, L>,
    what: Part,
) -> Result<Reader<'a, L>, Reply> {
    match what {
        Part::Clone => or_reply(window.try_clone(rt)),
        Part::Sub(start, end) => sub(rt, window, start, end),
        Part::Borrowed(start, end) => borrowed(rt, window, start, end),
        Part::Off(at) => off(rt, window, at),
        Part::To(at) => to(rt, window, at),
    }
}
