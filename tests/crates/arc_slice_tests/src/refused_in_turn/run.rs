//! A row's run: its lines one after the other, on small windows of its own.
use super::make::make;
use super::rows::{Ask, Call, Line, Part, Reply, Turn, is_refusal};
use super::turn::{advance, ask, part_of, turn};
use super::window::{Heap, Kind, Window, Windows, seen};
use arc_slice::layout::{AnyBufferLayout, Layout};
use std::alloc::{AllocError, Global};
use std::sync::Wait;

/// A window that was made gets its number.
fn keep<'a, L: Layout>(
    windows: &mut Windows<'a, L>,
    made: Result<Window<'a, L>, Reply>,
) -> Result<Reply, AllocError> {
    match made {
        Ok(window) => {
            windows.push(Some(window))?;
            Ok(Reply::Done)
        }
        Err(reply) => Ok(reply),
    }
}

/// The window that a call makes of the one with this number.
fn made_of<'a, L: Layout>(
    rt: &impl Wait,
    windows: &Windows<'a, L>,
    number: usize,
    what: Part,
) -> Result<Window<'a, L>, Reply> {
    match windows.get(number) {
        Some(Some(Kind::Bytes(window))) => match part_of(rt, window, what) {
            Ok(window) => Ok(Kind::Bytes(window)),
            Err(reply) => Err(reply),
        },
        Some(Some(Kind::Text(window))) => match part_of(rt, window, what) {
            Ok(window) => Ok(Kind::Text(window)),
            Err(reply) => Err(reply),
        },
        _ => Err(Reply::NoCall),
    }
}

/// What the window with this number answers.
fn asked<L: Layout>(windows: &Windows<'_, L>, number: usize, what: Ask) -> Reply {
    match windows.get(number) {
        Some(Some(Kind::Bytes(window))) => ask(window, what),
        Some(Some(Kind::Text(window))) => ask(window, what),
        _ => Reply::NoCall,
    }
}

/// Takes the first bytes off the window with this number.
fn advanced<L: Layout>(windows: &mut Windows<'_, L>, number: usize, by: usize) -> Reply {
    match windows.get_mut(number) {
        Some(Some(Kind::Bytes(window))) => advance(window, by),
        Some(Some(Kind::Text(window))) => advance(window, by),
        _ => Reply::NoCall,
    }
}

/// Takes the window with this number out of its place, and puts back what becomes of it.
fn turned<L: Layout>(windows: &mut Windows<'_, L>, number: usize, what: Turn) -> Reply {
    let Some(place) = windows.get_mut(number) else {
        return Reply::NoCall;
    };
    let Some(window) = place.take() else {
        return Reply::NoCall;
    };
    let (back, reply) = turn(window, what);
    *place = back;
    reply
}

/// What a call is answered.
fn called<'a, L: AnyBufferLayout>(
    rt: &impl Wait,
    heap: Heap<'a>,
    windows: &mut Windows<'a, L>,
    call: Call,
) -> Result<Reply, AllocError> {
    match call {
        Call::Make(what) => keep(windows, make(heap, what)),
        Call::Part(number, what) => {
            let made = made_of(rt, windows, number, what);
            keep(windows, made)
        }
        Call::Ask(number, what) => Ok(asked(windows, number, what)),
        Call::Advance(number, by) => Ok(advanced(windows, number, by)),
        Call::Turn(number, what) => Ok(turned(windows, number, what)),
    }
}

/// Whether a call is answered as it is to be. Where its memory is refused it says so, or gives back
/// what went in, and each window is as before; it is then made again.
fn answered<'a, L: AnyBufferLayout>(
    rt: &impl Wait,
    alloc: Global,
    heap: Heap<'a>,
    windows: &mut Windows<'a, L>,
    line: Line,
) -> Result<bool, AllocError> {
    let (call, wanted) = line;
    let before = seen(alloc, windows)?;
    let refusals = heap.refusals();
    let found = called(rt, heap, windows, call)?;
    if heap.refusals() == refusals {
        return Ok(found == wanted);
    }
    let after = seen(alloc, windows)?;
    if !is_refusal(found) || after.as_slice() != before.as_slice() {
        return Ok(false);
    }
    Ok(called(rt, heap, windows, call)? == wanted)
}

/// The first line that is answered otherwise, by its place in the row, if there is one.
pub fn run<'a, L: AnyBufferLayout>(
    rt: &impl Wait,
    alloc: Global,
    heap: Heap<'a>,
    row: &[Line],
) -> Result<Option<usize>, AllocError> {
    let mut windows: Windows<'a, L> = Vec::new(alloc);
    for (at, line) in row.iter().enumerate() {
        if !answered(rt, alloc, heap, &mut windows, *line)? {
            return Ok(Some(at));
        }
    }
    Ok(None)
}
