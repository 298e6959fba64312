//! Calls that take a window, and may give it back.
use super::call::{Reply, Turn, done_where};
use super::over::{Native, over_reader, over_writer};
use super::window::{Reader, Role, Window, Writer};
use arc_block::layout::{Layout, LayoutMut, VecLayout};
use arc_write::slice_mut::IntoMut;

/// What stands in the window's place afterwards, and the reply.
pub type Turned<W> = (Option<W>, Reply);

fn vec_of_reader<'a, L: Layout>(window: Reader<'a, L>, text: &str) -> Turned<Reader<'a, L>> {
    match window.try_into_vec() {
        Ok(bytes) => (None, done_where(bytes.as_slice() == text.as_bytes())),
        Err(window) => (Some(window), Reply::Refused),
    }
}

fn boxed_of_reader<'a, L: Layout>(window: Reader<'a, L>, text: &str) -> Turned<Reader<'a, L>> {
    match window.try_into_boxed() {
        Ok(bytes) => (None, done_where(bytes.as_slice() == text.as_bytes())),
        Err(window) => (Some(window), Reply::Refused),
    }
}

fn buffer_of_reader<'a, L: Layout>(window: Reader<'a, L>, text: &str) -> Turned<Reader<'a, L>> {
    match window.try_into_buffer() {
        Ok(bytes) => (None, done_where(bytes.as_slice() == text.as_bytes())),
        Err(window) => (Some(window), Reply::Refused),
    }
}

fn raw_of_reader<'a, L: Layout>(window: Reader<'a, L>, text: &str) -> Turned<Reader<'a, L>> {
    match window.try_into_raw_buffer() {
        Ok(shared) => (None, done_where(shared.as_slice() == text.as_bytes())),
        Err(window) => (Some(window), Reply::Refused),
    }
}

fn two_of_reader<L: Layout>(window: Reader<'_, L>) -> Turned<Reader<'_, L>> {
    match window.try_into_array::<2>() {
        Ok(_) => (None, Reply::Done),
        Err(window) => (Some(window), Reply::Refused),
    }
}

fn three_of_reader<L: Layout>(window: Reader<'_, L>, items: [u8; 3]) -> Turned<Reader<'_, L>> {
    match window.try_into_array::<3>() {
        Ok(found) => (None, done_where(found == items)),
        Err(window) => (Some(window), Reply::Refused),
    }
}

fn written_again<'a, L: Layout, K: LayoutMut>(window: Reader<'a, L>) -> Turned<Window<'a, L, K>> {
    match window.try_into_mut::<K>() {
        Ok(window) => (Some(Role::Write(window)), Reply::Done),
        Err(window) => (Some(Role::Read(window)), Reply::Refused),
    }
}

/// A window that is read and stays so, if it comes back.
fn still_read<R, W, S>(turned: Turned<R>) -> Turned<Role<R, W, S>> {
    let (window, reply) = turned;
    match window {
        Some(window) => (Some(Role::Read(window)), reply),
        None => (None, reply),
    }
}

/// What becomes of a window that is read.
pub fn turn_reader<'a, L: Layout, K: LayoutMut>(
    window: Reader<'a, L>,
    what: Turn,
) -> Turned<Window<'a, L, K>> {
    match what {
        Turn::Mut => written_again(window),
        Turn::Over => still_read(over_reader::<L, K>(window)),
        Turn::OverNative => still_read(over_reader::<L, Native>(window)),
        Turn::TakeVec(text) => still_read(vec_of_reader(window, text)),
        Turn::TakeBoxed(text) => still_read(boxed_of_reader(window, text)),
        Turn::TakeBuffer(text) => still_read(buffer_of_reader(window, text)),
        Turn::TakeRaw(text) => still_read(raw_of_reader(window, text)),
        Turn::TakeTwo => still_read(two_of_reader(window)),
        Turn::TakeThree(items) => still_read(three_of_reader(window, items)),
        Turn::Drop => {
            drop(window);
            (None, Reply::Done)
        }
        Turn::Hint => {
            window.drop_with_unique_hint();
            (None, Reply::Done)
        }
        Turn::Freeze | Turn::Share | Turn::Unique | Turn::Rejoin(_, _, _) | Turn::TakeNone => {
            (Some(Role::Read(window)), Reply::NoCall)
        }
    }
}

fn vec_of_writer<'a, K: LayoutMut>(window: Writer<'a, K>, text: &str) -> Turned<Writer<'a, K>> {
    match window.try_into_vec() {
        Ok(bytes) => (None, done_where(bytes.as_slice() == text.as_bytes())),
        Err(window) => (Some(window), Reply::Refused),
    }
}

fn boxed_of_writer<'a, K: LayoutMut>(window: Writer<'a, K>, text: &str) -> Turned<Writer<'a, K>> {
    match window.try_into_boxed() {
        Ok(bytes) => (None, done_where(bytes.as_slice() == text.as_bytes())),
        Err(window) => (Some(window), Reply::Refused),
    }
}

fn buffer_of_writer<'a, K: LayoutMut>(window: Writer<'a, K>, text: &str) -> Turned<Writer<'a, K>> {
    match window.try_into_buffer() {
        Ok(bytes) => (None, done_where(bytes.as_slice() == text.as_bytes())),
        Err(window) => (Some(window), Reply::Refused),
    }
}

fn none_of_writer<K: LayoutMut>(window: Writer<'_, K>) -> Turned<Writer<'_, K>> {
    match window.try_into_array::<0>() {
        Ok(_) => (None, Reply::Done),
        Err(window) => (Some(window), Reply::Refused),
    }
}

fn three_of_writer<K: LayoutMut>(window: Writer<'_, K>, items: [u8; 3]) -> Turned<Writer<'_, K>> {
    match window.try_into_array::<3>() {
        Ok(found) => (None, done_where(found == items)),
        Err(window) => (Some(window), Reply::Refused),
    }
}

fn frozen<'a, L: Layout, K: LayoutMut>(window: Writer<'a, K>) -> Turned<Window<'a, L, K>> {
    match window.try_freeze::<L>() {
        Ok(window) => (Some(Role::Read(window)), Reply::Done),
        Err(window) => (Some(Role::Write(window)), Reply::Refused),
    }
}

fn shared<'a, L: Layout, K: LayoutMut>(window: Writer<'a, K>) -> Turned<Window<'a, L, K>> {
    match window.into_shared() {
        Ok(window) => (Some(Role::Share(window)), Reply::Done),
        Err(window) => (Some(Role::Write(window)), Reply::Refused),
    }
}

/// A window that is written and stays so, if it comes back.
fn still_written<R, W, S>(turned: Turned<W>) -> Turned<Role<R, W, S>> {
    let (window, reply) = turned;
    match window {
        Some(window) => (Some(Role::Write(window)), reply),
        None => (None, reply),
    }
}

/// What becomes of a window that is written.
pub fn turn_writer<'a, L: Layout, K: LayoutMut>(
    window: Writer<'a, K>,
    what: Turn,
) -> Turned<Window<'a, L, K>> {
    match what {
        Turn::Freeze => frozen(window),
        Turn::Share => shared(window),
        Turn::Over => still_written(over_writer::<K, VecLayout>(window)),
        Turn::OverNative => still_written(over_writer::<K, Native>(window)),
        Turn::TakeVec(text) => still_written(vec_of_writer(window, text)),
        Turn::TakeBoxed(text) => still_written(boxed_of_writer(window, text)),
        Turn::TakeBuffer(text) => still_written(buffer_of_writer(window, text)),
        Turn::TakeNone => still_written(none_of_writer(window)),
        Turn::TakeThree(items) => still_written(three_of_writer(window, items)),
        Turn::Drop => {
            drop(window);
            (None, Reply::Done)
        }
        Turn::Hint => {
            window.drop_with_unique_hint();
            (None, Reply::Done)
        }
        Turn::Mut | Turn::Unique | Turn::Rejoin(_, _, _) | Turn::TakeRaw(_) | Turn::TakeTwo => {
            (Some(Role::Write(window)), Reply::NoCall)
        }
    }
}
