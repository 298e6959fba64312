//! A row's run: its lines one after the other, on windows of its own.
use super::call::{Ask, Call, Change, Line, Part, Reply, Turn, is_refusal};
use super::change::{ask_reader, ask_writer, change_reader, change_writer};
use super::make::make;
use super::part::made_of;
use super::several::{ask_several, change_several, split_of, turn_several};
use super::turn::{turn_reader, turn_writer};
use super::window::{Heap, Role, Window, Windows, seen};
use arc_block::layout::{AnyBufferLayout, Layout, LayoutMut};
use std::alloc::{AllocError, Global};
use std::sync::Wait;

/// A window that was made gets its number.
fn keep<'a, L: Layout, K: LayoutMut>(
    windows: &mut Windows<'a, L, K>,
    made: Result<Window<'a, L, K>, Reply>,
) -> Result<Reply, AllocError> {
    match made {
        Ok(window) => {
            windows.push(Some(window))?;
            Ok(Reply::Done)
        }
        Err(reply) => Ok(reply),
    }
}

/// The window that a call makes of the one with this number.
fn part_of<'a, L: Layout, K: LayoutMut>(
    rt: &impl Wait,
    windows: &mut Windows<'a, L, K>,
    number: usize,
    what: Part,
) -> Result<Window<'a, L, K>, Reply> {
    let Some(Some(window)) = windows.get_mut(number) else {
        return Err(Reply::NoCall);
    };
    match window {
        Role::Read(window) => match made_of(rt, window, what) {
            Ok(made) => Ok(Role::Read(made)),
            Err(reply) => Err(reply),
        },
        Role::Share(window) => match split_of(rt, window, what) {
            Ok(made) => Ok(Role::Share(made)),
            Err(reply) => Err(reply),
        },
        Role::Write(_) => Err(Reply::NoCall),
    }
}

/// What the window with this number answers.
fn asked<L: Layout, K: LayoutMut>(windows: &Windows<'_, L, K>, number: usize, what: Ask) -> Reply {
    let Some(Some(window)) = windows.get(number) else {
        return Reply::NoCall;
    };
    match window {
        Role::Read(window) => ask_reader(window, what),
        Role::Write(window) => ask_writer(window, what),
        Role::Share(window) => ask_several(window, what),
    }
}

/// Changes the window with this number in its place.
fn changed<L: Layout, K: LayoutMut>(
    windows: &mut Windows<'_, L, K>,
    number: usize,
    what: Change,
) -> Reply {
    let Some(Some(window)) = windows.get_mut(number) else {
        return Reply::NoCall;
    };
    match window {
        Role::Read(window) => change_reader(window, what),
        Role::Write(window) => change_writer(window, what),
        Role::Share(window) => change_several(window, what),
    }
}

/// Takes the window with this number out of its place, and puts back what becomes of it.
fn turned<L: Layout, K: LayoutMut>(
    rt: &impl Wait,
    windows: &mut Windows<'_, L, K>,
    number: usize,
    what: Turn,
) -> Reply {
    let Some(place) = windows.get_mut(number) else {
        return Reply::NoCall;
    };
    let Some(window) = place.take() else {
        return Reply::NoCall;
    };
    let (back, reply) = match window {
        Role::Read(window) => turn_reader(window, what),
        Role::Write(window) => turn_writer(window, what),
        Role::Share(window) => turn_several(rt, window, what),
    };
    *place = back;
    reply
}

/// What a call is answered.
fn called<'a, L: AnyBufferLayout, K: LayoutMut + AnyBufferLayout>(
    rt: &impl Wait,
    heap: Heap<'a>,
    windows: &mut Windows<'a, L, K>,
    call: Call,
) -> Result<Reply, AllocError> {
    match call {
        Call::Make(what) => keep(windows, make(heap, what)),
        Call::Part(number, what) => {
            let made = part_of(rt, windows, number, what);
            keep(windows, made)
        }
        Call::Ask(number, what) => Ok(asked(windows, number, what)),
        Call::Change(number, what) => Ok(changed(windows, number, what)),
        Call::Turn(number, what) => Ok(turned(rt, windows, number, what)),
    }
}

/// Whether a call is answered as it is to be. Where its memory is refused it says so, or gives back
/// what went in, and each window is as before; it is then made again.
fn answered<'a, L: AnyBufferLayout, K: LayoutMut + AnyBufferLayout>(
    rt: &impl Wait,
    alloc: Global,
    heap: Heap<'a>,
    windows: &mut Windows<'a, L, K>,
    line: Line,
) -> Result<bool, AllocError> {
    let (call, wanted) = line;
    let before = seen(alloc, windows)?;
    let refusals = heap.refusals();
    let found = called(rt, heap, windows, call)?;
    if heap.refusals() == refusals {
        return Ok(found == wanted);
    }
    let after = seen(alloc, windows)?;
    if !is_refusal(found) || after.as_slice() != before.as_slice() {
        return Ok(false);
    }
    Ok(called(rt, heap, windows, call)? == wanted)
}

/// The first line that is answered otherwise, by its place in the row, if there is one.
pub fn run<'a, L: AnyBufferLayout, K: LayoutMut + AnyBufferLayout>(
    rt: &impl Wait,
    alloc: Global,
    heap: Heap<'a>,
    row: &[Line],
) -> Result<Option<usize>, AllocError> {
    let mut windows: Windows<'a, L, K> = Vec::new(alloc);
    for (at, line) in row.iter().enumerate() {
        if !answered(rt, alloc, heap, &mut windows, *line)? {
            return Ok(Some(at));
        }
    }
    Ok(None)
}
