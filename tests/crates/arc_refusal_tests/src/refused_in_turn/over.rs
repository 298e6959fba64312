//! Windows that go to another layout and back. Where memory is refused on the way back it is asked
//! for again there.
use super::call::Reply;
use super::turn::Turned;
use super::window::{Reader, Several, Writer};
use arc_block::layout::{ArcLayout, Layout, LayoutMut};

/// The layout with static data that holds no vectors and buffers.
pub type Native = ArcLayout<false, true>;

/// Back from the other layout.
fn back_read<'a, L: Layout, J: Layout>(window: Reader<'a, J>) -> Turned<Reader<'a, L>> {
    match window.try_with_layout::<L>() {
        Ok(window) => (Some(window), Reply::Done),
        Err(window) => (window.try_with_layout::<L>().ok(), Reply::Refused),
    }
}

/// A window that is read goes to the layout J and back.
pub fn over_reader<'a, L: Layout, J: Layout>(window: Reader<'a, L>) -> Turned<Reader<'a, L>> {
    match window.try_with_layout::<J>() {
        Ok(window) => back_read(window),
        Err(window) => (Some(window), Reply::Refused),
    }
}

/// The same of one that is written, which takes no memory.
pub fn over_writer<'a, K: LayoutMut, J: LayoutMut>(window: Writer<'a, K>) -> Turned<Writer<'a, K>> {
    match window.try_with_layout::<J>() {
        Ok(window) => (window.try_with_layout::<K>().ok(), Reply::Done),
        Err(window) => (Some(window), Reply::Refused),
    }
}

/// The same of one of several writers.
pub fn over_several<'a, K: LayoutMut, J: LayoutMut>(
    window: Several<'a, K>,
) -> Turned<Several<'a, K>> {
    match window.try_with_layout::<J>() {
        Ok(window) => (window.try_with_layout::<K>().ok(), Reply::Done),
        Err(window) => (Some(window), Reply::Refused),
    }
}
