//! Calls that take the window, and may give it back.

use crate::call::Turn;
use crate::kinds::Spelled;
use crate::kinds::lists::spell;
use crate::layouts::Held;
use crate::letters::Letter;
use crate::window::{Role, Window};
use crate::words::{NO_CALL, NO_MEMORY, OK, REFUSED, Reply};
use arc_block::layout::{Layout, LayoutMut};
use arc_read::slice::ArcSlice;
use arc_write::slice_mut::{ArcSliceMut, IntoMut};

/// The reply to items that are written.
fn spelled<T: Letter>(items: &[T], out: &mut Vec<u8>) -> Reply {
    match spell(items, out) {
        Ok(()) => Reply::Shown,
        Err(_) => Reply::Word(NO_MEMORY),
    }
}

/// The items of a window that is read, as an array.
fn taken<S: Spelled, L: Layout, const N: usize>(
    window: ArcSlice<S, L>,
    out: &mut Vec<u8>,
) -> (Option<ArcSlice<S, L>>, Reply) {
    match window.try_into_array::<N>() {
        Ok(array) => (None, spelled(array.as_slice(), out)),
        Err(window) => (Some(window), Reply::Word(REFUSED)),
    }
}

/// The items of a window that is read, as an array of so many.
fn take<S: Spelled, L: Layout>(
    window: ArcSlice<S, L>,
    count: usize,
    out: &mut Vec<u8>,
) -> (Option<ArcSlice<S, L>>, Reply) {
    match count {
        0 => taken::<S, L, 0>(window, out),
        1 => taken::<S, L, 1>(window, out),
        2 => taken::<S, L, 2>(window, out),
        3 => taken::<S, L, 3>(window, out),
        4 => taken::<S, L, 4>(window, out),
        5 => taken::<S, L, 5>(window, out),
        _ => (Some(window), Reply::Word(NO_CALL)),
    }
}

/// The items of a window that stands on no block.
fn take_static<S: Spelled, L: Layout>(
    window: ArcSlice<S, L>,
    out: &mut Vec<u8>,
) -> (Option<ArcSlice<S, L>>, Reply)
where
    S::Item: 'static,
{
    match window.try_into_static() {
        Ok(items) => (None, spelled(items, out)),
        Err(window) => (Some(window), Reply::Word(REFUSED)),
    }
}

/// A window that is read as one over bytes, and back.
fn rounded<S: Spelled, L: Layout>(window: ArcSlice<S, L>) -> (Option<ArcSlice<S, L>>, Reply) {
    let mut place = Some(window);
    let word = S::rounded(&mut place);
    (place, Reply::Word(word))
}

/// A window that is read, which is to be written.
fn written_again<S: Spelled, L: Held>(window: ArcSlice<S, L>) -> (Option<Window<S, L>>, Reply) {
    match window.try_into_mut::<L::Mut>() {
        Ok(window) => (Some(Role::Write(window)), Reply::Word(OK)),
        Err(window) => (Some(Role::Read(window)), Reply::Word(REFUSED)),
    }
}

/// A window that is read and stays so, if it comes back.
fn still_read<S: Spelled, L: Held>(
    answer: (Option<ArcSlice<S, L>>, Reply),
) -> (Option<Window<S, L>>, Reply) {
    let (window, reply) = answer;
    match window {
        Some(window) => (Some(Role::Read(window)), reply),
        None => (None, reply),
    }
}

/// What becomes of a window that is read.
pub fn reader<S: Spelled, L: Held>(
    window: ArcSlice<S, L>,
    what: Turn,
    count: usize,
    out: &mut Vec<u8>,
) -> (Option<Window<S, L>>, Reply)
where
    S::Item: 'static,
{
    match what {
        Turn::Mut => written_again(window),
        Turn::Take => still_read(take(window, count, out)),
        Turn::TakeStatic => still_read(take_static(window, out)),
        Turn::Bytes => still_read(rounded(window)),
        Turn::Parts => (
            Some(Role::Read(ArcSlice::from_parts(window.into_parts()))),
            Reply::Word(OK),
        ),
        Turn::Hint => {
            window.drop_with_unique_hint();
            (None, Reply::Word(OK))
        }
        Turn::Drop => (None, Reply::Word(OK)),
        Turn::Freeze => (Some(Role::Read(window)), Reply::Word(NO_CALL)),
    }
}

/// The items of a window that is written, as an array.
fn taken_written<S: Spelled, K: LayoutMut, const N: usize>(
    window: ArcSliceMut<S, K, 1>,
    out: &mut Vec<u8>,
) -> (Option<ArcSliceMut<S, K, 1>>, Reply) {
    match window.try_into_array::<N>() {
        Ok(array) => (None, spelled(array.as_slice(), out)),
        Err(window) => (Some(window), Reply::Word(REFUSED)),
    }
}

/// The items of a window that is written, as an array of so many.
fn take_written<S: Spelled, K: LayoutMut>(
    window: ArcSliceMut<S, K, 1>,
    count: usize,
    out: &mut Vec<u8>,
) -> (Option<ArcSliceMut<S, K, 1>>, Reply) {
    match count {
        0 => taken_written::<S, K, 0>(window, out),
        1 => taken_written::<S, K, 1>(window, out),
        2 => taken_written::<S, K, 2>(window, out),
        3 => taken_written::<S, K, 3>(window, out),
        4 => taken_written::<S, K, 4>(window, out),
        5 => taken_written::<S, K, 5>(window, out),
        _ => (Some(window), Reply::Word(NO_CALL)),
    }
}

/// A window that is written as one over bytes, and back.
fn rounded_writer<S: Spelled, K: LayoutMut>(
    window: ArcSliceMut<S, K, 1>,
) -> (Option<ArcSliceMut<S, K, 1>>, Reply) {
    let mut place = Some(window);
    let word = S::rounded_writer(&mut place);
    (place, Reply::Word(word))
}

/// A window that is written, which is to be read.
fn frozen<S: Spelled, L: Held>(window: ArcSliceMut<S, L::Mut, 1>) -> (Option<Window<S, L>>, Reply) {
    match window.try_freeze::<L>() {
        Ok(window) => (Some(Role::Read(window)), Reply::Word(OK)),
        Err(window) => (Some(Role::Write(window)), Reply::Word(NO_MEMORY)),
    }
}

/// A window that is written and stays so, if it comes back.
fn still_written<S: Spelled, L: Held>(
    answer: (Option<ArcSliceMut<S, L::Mut, 1>>, Reply),
) -> (Option<Window<S, L>>, Reply) {
    let (window, reply) = answer;
    match window {
        Some(window) => (Some(Role::Write(window)), reply),
        None => (None, reply),
    }
}

/// What becomes of a window that is written.
pub fn writer<S: Spelled, L: Held>(
    window: ArcSliceMut<S, L::Mut, 1>,
    what: Turn,
    count: usize,
    out: &mut Vec<u8>,
) -> (Option<Window<S, L>>, Reply) {
    match what {
        Turn::Freeze => frozen(window),
        Turn::Take => still_written(take_written(window, count, out)),
        Turn::Bytes => still_written(rounded_writer(window)),
        Turn::Parts => (
            Some(Role::Write(ArcSliceMut::from_parts(window.into_parts()))),
            Reply::Word(OK),
        ),
        Turn::Hint => {
            window.drop_with_unique_hint();
            (None, Reply::Word(OK))
        }
        Turn::Drop => (None, Reply::Word(OK)),
        Turn::Mut | Turn::TakeStatic => (Some(Role::Write(window)), Reply::Word(NO_CALL)),
    }
}
