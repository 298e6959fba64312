//! Write windows over callers' buffers and strings: written, frozen, and taken back.
use crate::callers::{Growing, Lent, vector};
use arc_block::layout::{DefaultLayout, DefaultLayoutMut};
use arc_buffer::buffer::AsMutBuffer;
use arc_write::slice_mut::{ArcBytesMut, ArcStrMut};
use std::alloc::Global;
use std::fmt::Write;
use std::test::Fail;

/// Writers of bytes beside buffers of this type.
type Over<B, M = ()> = ArcBytesMut<DefaultLayoutMut, B, M>;

/// Whether a text in two parts is written into a buffer of two places, and whether the first part
/// is there then.
fn formatted_without_room(alloc: Global, first: &str, second: &str) -> Option<[bool; 2]> {
    let bytes = vector(alloc, 2, &[])?;
    let mut window = Over::<Growing>::try_from_buffer(alloc, Growing::no_room(bytes)).ok()?;
    let is_written = write!(window, "{first}{second}").is_ok();
    Some([is_written, window.as_slice() == first.as_bytes()])
}

/// Pushes a thousand bytes behind one, and tells the last one and how many there are.
fn pushed_often(alloc: Global) -> Option<(usize, Option<u8>)> {
    let mut window = Over::<Vec<u8>>::try_from_buffer(alloc, vector(alloc, 1, &[7])?).ok()?;
    for i in 0..1000u16 {
        window.try_push((i % 251) as u8).ok()?;
    }
    Some((window.len(), window.as_slice().last().copied()))
}

/// Bytes that are lent, with a number.
fn lent(alloc: Global, bytes: &[u8], number: u32) -> Option<AsMutBuffer<Lent>> {
    let bytes = Vec::from_slice(alloc, bytes).ok()?;
    Some(AsMutBuffer::new(Lent { bytes, number }))
}

/// Of formatted text a buffer without room keeps what came first. A vector as a buffer takes a
/// thousand items.
#[test]
fn pushed_to_buffers(rt: HostRuntime) -> Result<(), Fail> {
    assert!(rt; formatted_without_room(rt.alloc(), "ab", "cde") == Some([false, true]));
    assert!(rt; pushed_often(rt.alloc()) == Some((1001, Some(246))));
    Ok(())
}

/// What a writer over a buffer with a number lends of that, and then its reader; and what a writer
/// and a reader lend that stand on no buffer.
fn numbers_lent(alloc: Global) -> Option<([Option<u32>; 2], [Option<u32>; 2])> {
    let window = Over::<AsMutBuffer<Lent>>::try_from_buffer(alloc, lent(alloc, &[1, 2], 7)?).ok()?;
    let written = window.borrowed_metadata().copied();
    let window = window.try_freeze::<DefaultLayout>().ok()?;
    let read = window.borrowed_metadata().copied();
    let own: Over<AsMutBuffer<Lent>> = ArcBytesMut::try_from_slice(alloc, &[1]).ok()?;
    let none = own.borrowed_metadata().copied();
    let own = own.try_freeze::<DefaultLayout>().ok()?;
    Some(([written, read], [none, own.borrowed_metadata().copied()]))
}

/// Whether a writer over a buffer of these bytes says that it is on one, and whether one over a
/// copy of them does.
fn on_buffers(alloc: Global, bytes: &[u8]) -> Option<[bool; 2]> {
    let window = Over::<Vec<u8>>::try_from_buffer(alloc, vector(alloc, 8, bytes)?).ok()?;
    let is_over = window.is_on_buffer();
    drop(window);
    let own: Over<Vec<u8>> = ArcBytesMut::try_from_slice(alloc, bytes).ok()?;
    Some([is_over, own.is_on_buffer()])
}

/// The metadata of a writer of two bytes that took one more, and of its reader.
fn metadata_kept(alloc: Global) -> Option<[Option<u8>; 2]> {
    let bytes = vector(alloc, 2, &[1, 2])?;
    let mut window = Over::<Vec<u8>, u8>::try_from_buffer_with_metadata(alloc, bytes, 9).ok()?;
    window.try_push(3).ok()?;
    let written = window.metadata().copied();
    let frozen = window.try_freeze::<DefaultLayout>().ok()?;
    Some([written, frozen.metadata().copied()])
}

/// Whether a string comes back with more behind it.
fn text_extended(alloc: Global, text: &str, more: &str, whole: &str) -> Option<bool> {
    let text = String::from_str(alloc, text).ok()?;
    let mut window = ArcStrMut::<DefaultLayoutMut>::try_from_vec(alloc, text).ok()?;
    window.try_extend_from_str(more).ok()?;
    Some(window.try_into_vec().ok()?.as_str() == whole)
}

/// A buffer that grew keeps its metadata, and is frozen. A string goes in and comes out, with more
/// room on the way.
#[test]
fn frozen_and_taken_back(rt: HostRuntime) -> Result<(), Fail> {
    assert!(rt; numbers_lent(rt.alloc()) == Some(([Some(7); 2], [None; 2])));
    assert!(rt; on_buffers(rt.alloc(), &[1, 2]) == Some([true, false]));
    assert!(rt; metadata_kept(rt.alloc()) == Some([Some(9); 2]));
    assert!(rt; text_extended(rt.alloc(), "aéb", "c", "aébc") == Some(true));
    Ok(())
}
