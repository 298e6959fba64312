//! What a line is answered, in a run.
use crate::call::{Ask, Change, Make, Operands, Part, Turn, Verb, parse};
use crate::calls::{ask, change, compare, make, part, turn};
use crate::kinds::Spelled;
use crate::layouts::Held;
use crate::window::{Role, Window, Windows};
use crate::words::{BAD_LINE, NO_CALL, NO_MEMORY, NO_WINDOW, Reply, Word};
use std::alloc::{AllocError, Global};
use std::sync::Wait;

/// A window that was made gets its number.
fn keep<S: Spelled, L: Held>(
    windows: &mut Windows<S, L>,
    made: Result<Window<S, L>, Word>,
) -> Reply {
    match made {
        Ok(window) => {
            let number = windows.len();
            match windows.push(Some(window)) {
                Ok(()) => Reply::Made(number),
                Err(_) => Reply::Word(NO_MEMORY),
            }
        }
        Err(word) => Reply::Word(word),
    }
}

/// The window that a call makes of one with this number.
fn part_of<S: Spelled, L: Held>(
    rt: &impl Wait,
    windows: &mut Windows<S, L>,
    what: Part,
    operands: &Operands,
) -> Result<Window<S, L>, Word> {
    let Some(Some(window)) = windows.get_mut(operands.window) else {
        return Err(NO_WINDOW);
    };
    match window {
        Role::Read(window) => match part::made_of(rt, window, what, operands) {
            Ok(made) => Ok(Role::Read(made)),
            Err(word) => Err(word),
        },
        Role::Write(_) => Err(NO_CALL),
    }
}

/// What a window answers.
fn asked<S: Spelled, L: Held>(
    alloc: Global,
    windows: &Windows<S, L>,
    what: Ask,
    operands: &Operands,
    out: &mut Vec<u8>,
) -> Reply {
    let Some(Some(window)) = windows.get(operands.window) else {
        return Reply::Word(NO_WINDOW);
    };
    match window {
        Role::Read(window) => ask::of_reader(alloc, window, what, operands, out),
        Role::Write(window) => ask::of_writer(alloc, window, what, operands, out),
    }
}

/// Changes a window in its place.
fn changed<S: Spelled, L: Held>(
    windows: &mut Windows<S, L>,
    what: Change,
    operands: &Operands,
) -> Reply {
    let Some(Some(window)) = windows.get_mut(operands.window) else {
        return Reply::Word(NO_WINDOW);
    };
    match window {
        Role::Read(window) => Reply::Word(change::reader(window, what, operands)),
        Role::Write(window) => Reply::Word(change::writer(window, what, operands)),
    }
}

/// Takes a window out of its place, and puts back what becomes of it.
fn turned<S: Spelled, L: Held>(
    windows: &mut Windows<S, L>,
    what: Turn,
    operands: &Operands,
    out: &mut Vec<u8>,
) -> Reply
where
    S::Item: 'static,
{
    let Some(place) = windows.get_mut(operands.window) else {
        return Reply::Word(NO_WINDOW);
    };
    let Some(window) = place.take() else {
        return Reply::Word(NO_WINDOW);
    };
    let (back, reply) = match window {
        Role::Read(window) => turn::reader(window, what, operands.first, out),
        Role::Write(window) => turn::writer(window, what, operands.first, out),
    };
    *place = back;
    reply
}

/// How two windows of one role compare.
fn compared<S: Spelled, L: Held>(windows: &Windows<S, L>, one: usize, other: usize) -> Word {
    match (windows.get(one), windows.get(other)) {
        (Some(Some(Role::Read(one))), Some(Some(Role::Read(other)))) => {
            compare::compared(one, other)
        }
        (Some(Some(Role::Write(one))), Some(Some(Role::Write(other)))) => {
            compare::compared(one, other)
        }
        _ => NO_WINDOW,
    }
}

/// What a call is answered.
fn called<S: Spelled, L: Held>(
    rt: &impl Wait,
    alloc: Global,
    windows: &mut Windows<S, L>,
    call: (Verb, &Operands),
    out: &mut Vec<u8>,
) -> Reply
where
    S::Item: 'static,
{
    let (verb, operands) = call;
    match verb {
        Verb::Make(what) => keep(windows, make::make(alloc, what, operands)),
        Verb::Part(what) => {
            let made = part_of(rt, windows, what, operands);
            keep(windows, made)
        }
        Verb::Ask(what) => asked(alloc, windows, what, operands, out),
        Verb::Change(what) => changed(windows, what, operands),
        Verb::Turn(what) => turned(windows, what, operands, out),
        Verb::Compare => Reply::Word(compared(windows, operands.window, operands.first)),
    }
}

/// Writes a reply, if what it shows isn't there yet.
fn write(alloc: Global, reply: Reply, out: &mut Vec<u8>) -> Result<(), AllocError> {
    match reply {
        Reply::Word(word) => out.extend_from_slice(word.as_bytes()),
        Reply::Number(number) => {
            let text = format!(in alloc; "{number}")?;
            out.extend_from_slice(text.as_bytes())
        }
        Reply::Made(number) => {
            let text = format!(in alloc; "h{number}")?;
            out.extend_from_slice(text.as_bytes())
        }
        Reply::Shown => Ok(()),
    }
}

/// What a line is answered, and how that leaves the windows.
pub fn answer<S: Spelled, L: Held>(
    rt: &impl Wait,
    alloc: Global,
    windows: &mut Windows<S, L>,
    line: &str,
) -> Result<Vec<u8>, AllocError>
where
    S::Item: 'static,
{
    let mut out = Vec::new(alloc);
    let reply = match parse(alloc, line) {
        Some((verb, operands)) => called(rt, alloc, windows, (verb, &operands), &mut out),
        None => Reply::Word(BAD_LINE),
    };
    write(alloc, reply, &mut out)?;
    Ok(out)
}
