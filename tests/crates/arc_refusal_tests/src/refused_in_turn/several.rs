//! One of several writers: what it is asked, how it is changed and split, and what becomes of it.
use super::call::{Ask, Change, Part, Reply, Turn, done_where, yes_or_no};
use super::change::{metadata_reply, put, room_made, room_reply};
use super::over::{Native, over_several};
use super::part::or_reply;
use super::turn::Turned;
use super::window::{Role, Several, Window};
use arc_block::layout::{Layout, LayoutMut, VecLayout};
use bytes::BufMut;
use std::sync::Wait;

/// What it answers.
pub fn ask_several<K: LayoutMut>(window: &Several<'_, K>, what: Ask) -> Reply {
    match what {
        Ask::Show(text) => done_where(window.as_slice() == text.as_bytes()),
        Ask::Room => Reply::Number(window.capacity()),
        Ask::IsUnique => Reply::NoCall,
        Ask::Metadata => metadata_reply(window.metadata()),
    }
}

fn advance<K: LayoutMut>(window: &mut Several<'_, K>, by: usize) -> Reply {
    if window.check_at(by).is_err() {
        return Reply::NoCall;
    }
    window.advance(by);
    Reply::Done
}

fn push<K: LayoutMut>(window: &mut Several<'_, K>, item: u8) -> Reply {
    match window.try_push(item) {
        Ok(()) => Reply::Done,
        Err((e, back)) => {
            if back == item {
                room_reply(e)
            } else {
                Reply::Wrong
            }
        }
    }
}

/// Changes it.
pub fn change_several<K: LayoutMut>(window: &mut Several<'_, K>, what: Change) -> Reply {
    match what {
        Change::Advance(by) => advance(window, by),
        Change::Truncate(len) => {
            window.truncate(len);
            Reply::Done
        }
        Change::Push(item) => push(window, item),
        Change::Extend(text) => room_made(window.try_extend_from_slice(text.as_bytes())),
        Change::Put(text) => put(window, text),
        Change::Reserve(more) => room_made(window.try_reserve(more)),
        Change::Reclaim(more) => yes_or_no(window.try_reclaim(more)),
    }
}

/// The window that is split off.
pub fn split_of<'a, K: LayoutMut>(
    rt: &impl Wait,
    window: &mut Several<'a, K>,
    what: Part,
) -> Result<Several<'a, K>, Reply> {
    let (Part::Off(at) | Part::To(at)) = what else {
        return Err(Reply::NoCall);
    };
    if window.check_split_off(at).is_err() {
        return Err(Reply::NoCall);
    }
    match what {
        Part::Off(_) => or_reply(window.try_split_off(rt, at)),
        _ => or_reply(window.try_split_to(rt, at)),
    }
}

/// Splits it behind so many places, puts a text into each part's places, and joins them again.
fn rejoined<'a, K: LayoutMut>(
    rt: &impl Wait,
    window: Several<'a, K>,
    at: usize,
    first: &str,
    second: &str,
) -> Turned<Several<'a, K>> {
    let mut front = window;
    if front.check_split_off(at).is_err() {
        return (Some(front), Reply::NoCall);
    }
    let Ok(mut back) = front.try_split_off(rt, at) else {
        return (Some(front), Reply::NoMemory);
    };
    front.known_uncounted();
    if front.put_slice(first.as_bytes()).is_err() {
        return (None, Reply::Wrong);
    }
    if back.put_slice(second.as_bytes()).is_err() {
        return (None, Reply::Wrong);
    }
    match front.try_unsplit(back) {
        Ok(()) => (Some(front), Reply::Done),
        Err(_) => (Some(front), Reply::Refused),
    }
}

fn vec_of<'a, K: LayoutMut>(window: Several<'a, K>, text: &str) -> Turned<Several<'a, K>> {
    match window.try_into_vec() {
        Ok(bytes) => (None, done_where(bytes.as_slice() == text.as_bytes())),
        Err(window) => (Some(window), Reply::Refused),
    }
}

fn boxed_of<'a, K: LayoutMut>(window: Several<'a, K>, text: &str) -> Turned<Several<'a, K>> {
    match window.try_into_boxed() {
        Ok(bytes) => (None, done_where(bytes.as_slice() == text.as_bytes())),
        Err(window) => (Some(window), Reply::Refused),
    }
}

fn buffer_of<K: LayoutMut>(window: Several<'_, K>) -> Turned<Several<'_, K>> {
    match window.try_into_buffer() {
        Ok(_) => (None, Reply::Wrong),
        Err(window) => (Some(window), Reply::Refused),
    }
}

fn three_of<K: LayoutMut>(window: Several<'_, K>, items: [u8; 3]) -> Turned<Several<'_, K>> {
    match window.try_into_array::<3>() {
        Ok(found) => (None, done_where(found == items)),
        Err(window) => (Some(window), Reply::Refused),
    }
}

fn frozen<'a, L: Layout, K: LayoutMut>(window: Several<'a, K>) -> Turned<Window<'a, L, K>> {
    match window.try_freeze::<L>() {
        Ok(window) => (Some(Role::Read(window)), Reply::Done),
        Err(window) => (Some(Role::Share(window)), Reply::Refused),
    }
}

fn unique<'a, L: Layout, K: LayoutMut>(window: Several<'a, K>) -> Turned<Window<'a, L, K>> {
    match window.try_into_unique() {
        Ok(window) => (Some(Role::Write(window)), Reply::Done),
        Err(window) => (Some(Role::Share(window)), Reply::Refused),
    }
}

/// One that stays one of several writers, if it comes back.
fn still_shared<R, W, S>(turned: Turned<S>) -> Turned<Role<R, W, S>> {
    let (window, reply) = turned;
    match window {
        Some(window) => (Some(Role::Share(window)), reply),
        None => (None, reply),
    }
}

/// What becomes of it.
pub fn turn_several<'a, L: Layout, K: LayoutMut>(
    rt: &impl Wait,
    window: Several<'a, K>,
    what: Turn,
) -> Turned<Window<'a, L, K>> {
    match what {
        Turn::Freeze => frozen(window),
        Turn::Unique => unique(window),
        Turn::Rejoin(at, first, second) => still_shared(rejoined(rt, window, at, first, second)),
        Turn::Over => still_shared(over_several::<K, VecLayout>(window)),
        Turn::OverNative => still_shared(over_several::<K, Native>(window)),
        Turn::TakeVec(text) => still_shared(vec_of(window, text)),
        Turn::TakeBoxed(text) => still_shared(boxed_of(window, text)),
        Turn::TakeBuffer(_) => still_shared(buffer_of(window)),
        Turn::TakeThree(items) => still_shared(three_of(window, items)),
        Turn::Drop => {
            drop(window);
            (None, Reply::Done)
        }
        Turn::Hint => {
            window.drop_with_unique_hint();
            (None, Reply::Done)
        }
        Turn::Mut | Turn::Share | Turn::TakeRaw(_) | Turn::TakeNone | Turn::TakeTwo => {
            (Some(Role::Share(window)), Reply::NoCall)
        }
    }
}
