//! Small windows that are cloned, cut, asked and taken.
use super::rows::{Ask, Part, Reply, Turn, done_where, yes_or_no};
use super::window::{Kind, Small, SmallBytes, SmallText, Window, is_inline};
use arc_slice::buffer::Subsliceable;
use arc_slice::error::OwnerError;
use arc_slice::layout::Layout;
use either::{Left, Right};
use std::sync::Wait;

/// The window, or the reply without one.
fn or_reply<W>(made: Result<W, OwnerError>) -> Result<W, Reply> {
    match made {
        Ok(window) => Ok(window),
        Err(OwnerError::AllocError) => Err(Reply::NoMemory),
        Err(OwnerError::CountFull) => Err(Reply::Wrong),
    }
}

/// The window that a call makes of this one.
pub fn part_of<'a, S: Subsliceable<Item = u8>, L: Layout>(
    rt: &impl Wait,
    window: &Small<'a, S, L>,
    what: Part,
) -> Result<Small<'a, S, L>, Reply> {
    match what {
        Part::Clone => or_reply(window.try_clone(rt)),
        Part::Sub(start, end) => match window.check_range(start, end) {
            Ok(()) => or_reply(window.try_subslice(rt, start, end)),
            Err(_) => Err(Reply::NoCall),
        },
    }
}

/// What a window answers.
pub fn ask<S: Subsliceable<Item = u8>, L: Layout>(window: &Small<'_, S, L>, what: Ask) -> Reply {
    match what {
        Ask::Show(text) => done_where(window.as_slice() == text.as_bytes()),
        Ask::IsInline => yes_or_no(is_inline(window)),
    }
}

/// Takes the first so many bytes off.
pub fn advance<S: Subsliceable<Item = u8>, L: Layout>(
    window: &mut Small<'_, S, L>,
    by: usize,
) -> Reply {
    if window.check_at(by).is_err() {
        return Reply::NoCall;
    }
    window.advance(by);
    Reply::Done
}

/// What stands in the window's place afterwards, and the reply.
pub type Turned<W> = (Option<W>, Reply);

fn vec_of<'a, L: Layout>(window: SmallBytes<'a, L>, text: &str) -> Turned<SmallBytes<'a, L>> {
    match window.into_either() {
        Left(small) => (Some(SmallBytes::from(small)), Reply::NoCall),
        Right(window) => match window.try_into_vec() {
            Ok(bytes) => (None, done_where(bytes.as_slice() == text.as_bytes())),
            Err(window) => (Some(SmallBytes::from(window)), Reply::Refused),
        },
    }
}

fn string_of<'a, L: Layout>(window: SmallText<'a, L>, text: &str) -> Turned<SmallText<'a, L>> {
    match window.into_either() {
        Left(small) => (Some(SmallText::from(small)), Reply::NoCall),
        Right(window) => match window.try_into_vec() {
            Ok(string) => (None, done_where(string.as_str() == text)),
            Err(window) => (Some(SmallText::from(window)), Reply::Refused),
        },
    }
}

/// A window that stays over bytes, if it comes back.
fn still_bytes<B, T>(turned: Turned<B>) -> Turned<Kind<B, T>> {
    let (window, reply) = turned;
    match window {
        Some(window) => (Some(Kind::Bytes(window)), reply),
        None => (None, reply),
    }
}

/// One over text.
fn still_text<B, T>(turned: Turned<T>) -> Turned<Kind<B, T>> {
    let (window, reply) = turned;
    match window {
        Some(window) => (Some(Kind::Text(window)), reply),
        None => (None, reply),
    }
}

/// What becomes of a window whose bytes, which are these, are to come out.
fn taken<'a, L: Layout>(window: Window<'a, L>, text: &str) -> Turned<Window<'a, L>> {
    match window {
        Kind::Bytes(window) => still_bytes(vec_of(window, text)),
        Kind::Text(window) => still_text(string_of(window, text)),
    }
}

/// What becomes of a window.
pub fn turn<'a, L: Layout>(window: Window<'a, L>, what: Turn) -> Turned<Window<'a, L>> {
    match what {
        Turn::TakeVec(text) => taken(window, text),
        Turn::Drop => {
            drop(window);
            (None, Reply::Done)
        }
    }
}
