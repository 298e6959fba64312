//! Calls with a pass that no other test makes, each once: what goes into a window with a pass comes
//! out with it, and what a window becomes with a pass has its items.
use arc_block::layout::{ArcLayout, DefaultLayout, DefaultLayoutMut, VecLayout};
use arc_buffer::kinds::{Plain, Text};
use arc_owners::owners::Pass;
use arc_read::slice::ArcSlice;
use arc_write::slice_mut::{ArcBytesMut, ArcBytesShared, ArcSliceMut, ArcStrMut};
use counting_heap::CountingHeap;
use std::alloc::Global;
use std::sync::{Arc, Wait};
use std::test::Fail;

/// Readers of bytes.
type Reader = ArcSlice<Plain<u8>>;

/// Two bytes.
fn two_bytes(alloc: Global) -> Option<Vec<u8>> {
    Vec::from_slice(alloc, &[1, 2]).ok()
}

/// Whether an array, and a vector, come back from readers.
fn array_and_vector_read(alloc: Global) -> Option<[bool; 2]> {
    let mut pass = Pass::none();
    let window = Reader::try_from_array_as(alloc, [1, 2], &mut pass).ok()?;
    let array: [u8; 2] = window.try_into_array_as(&mut pass).ok()?;
    let mut pass = Pass::none();
    let window = Reader::try_from_vec_as(alloc, two_bytes(alloc)?, &mut pass).ok()?;
    let items = window.try_into_vec_as(&mut pass).ok()?;
    Some([array == [1, 2], items.as_slice() == [1, 2].as_slice()])
}

/// Whether a box, a buffer, and a buffer behind an `Arc`, come back from readers.
fn lent_read(alloc: Global) -> Option<[bool; 3]> {
    let mut pass = Pass::none();
    let boxed = two_bytes(alloc)?.into_boxed_slice();
    let window = Reader::try_from_boxed_as(alloc, boxed, &mut pass).ok()?;
    let boxed = window.try_into_boxed_as(&mut pass).ok()?;
    let mut pass = Pass::none();
    let window = Reader::try_from_buffer_as(alloc, two_bytes(alloc)?, &mut pass).ok()?;
    let buffer = window.try_into_buffer_as(&mut pass).ok()?;
    let mut pass = Pass::none();
    let shared = Arc::new(alloc, two_bytes(alloc)?).ok()?;
    let window = Reader::try_from_raw_buffer_as(alloc, shared, &mut pass).ok()?;
    let shared = window.try_into_raw_buffer_as(&mut pass).ok()?;
    Some([
        boxed.as_slice() == [1, 2].as_slice(),
        buffer.as_slice() == [1, 2].as_slice(),
        shared.as_slice() == [1, 2].as_slice(),
    ])
}

/// Whether a text is read, and has its characters under another layout.
fn text_read(alloc: Global, text: &str) -> Option<[bool; 2]> {
    let mut pass = Pass::none();
    let window = ArcSlice::<Text>::try_from_str_as(alloc, text, &mut pass).ok()?;
    let is_text = window.as_str() == text;
    let moved = window
        .try_with_layout_as::<ArcLayout<false, true>>(&mut pass)
        .ok()?;
    Some([is_text, moved.as_str() == text])
}

#[test]
fn read_with_a_pass(rt: HostRuntime) -> Result<(), Fail> {
    assert!(rt; array_and_vector_read(rt.alloc()) == Some([true; 2]));
    assert!(rt; lent_read(rt.alloc()) == Some([true; 3]));
    assert!(rt; text_read(rt.alloc(), "aé") == Some([true; 2]));
    Ok(())
}

/// Whether an array, a vector and a box come back from writers.
fn lists_written(alloc: Global) -> Option<[bool; 3]> {
    let mut pass = Pass::none();
    let window: ArcBytesMut = ArcSliceMut::try_from_array_as(alloc, [1, 2], &mut pass).ok()?;
    let array: [u8; 2] = window.try_into_array_as(&mut pass).ok()?;
    let mut pass = Pass::none();
    let window: ArcBytesMut = ArcSliceMut::try_from_vec_as(
        alloc,
        two_bytes(alloc)?,
        &mut pass,
    ).ok()?;
    let items = window.try_into_vec_as(&mut pass).ok()?;
    let mut pass = Pass::none();
    let window: ArcBytesMut = ArcSliceMut::try_from_vec_as(
        alloc,
        two_bytes(alloc)?,
        &mut pass,
    ).ok()?;
    let boxed = window.try_into_boxed_as(&mut pass).ok()?;
    Some([
        array == [1, 2],
        items.as_slice() == [1, 2].as_slice(),
        boxed.as_slice() == [1, 2].as_slice(),
    ])
}

/// Whether a buffer comes back from a writer, and zeros have three bytes behind them once there is
/// room.
fn buffer_and_zeros_written(alloc: Global) -> Option<[bool; 2]> {
    let mut pass = Pass::none();
    let window: ArcBytesMut = ArcSliceMut::try_from_buffer_as(
        alloc,
        two_bytes(alloc)?,
        &mut pass,
    ).ok()?;
    let buffer = window.try_into_buffer_as(&mut pass).ok()?;
    let mut pass = Pass::none();
    let mut zeros: ArcBytesMut = ArcSliceMut::try_zeroed_as(alloc, 2, &mut pass).ok()?;
    zeros.try_reserve_as(3, &mut pass).ok()?;
    let mut pass = zeros.pass();
    zeros.try_extend_from_slice_as(&[3, 4, 5], &mut pass).ok()?;
    Some([
        buffer.as_slice() == [1, 2].as_slice(),
        zeros.as_slice() == [0, 0, 3, 4, 5].as_slice(),
    ])
}

/// Whether a text is written, and has its characters under another layout and once it is frozen.
fn text_written(alloc: Global, text: &str, more: &str, whole: &str) -> Option<[bool; 3]> {
    let mut pass = Pass::none();
    let mut window: ArcStrMut = ArcSliceMut::try_from_str_as(alloc, text, &mut pass).ok()?;
    window.try_extend_from_str_as(more, &mut pass).ok()?;
    let is_text = window.as_str() == whole;
    let moved = window.try_with_layout_as::<VecLayout>(&mut pass).ok()?;
    let is_moved = moved.as_str() == whole;
    let frozen = moved.try_freeze_as::<DefaultLayout>(&mut pass).ok()?;
    Some([is_text, is_moved, frozen.as_str() == whole])
}

#[test]
fn written_with_a_pass(rt: HostRuntime) -> Result<(), Fail> {
    assert!(rt; lists_written(rt.alloc()) == Some([true; 3]));
    assert!(rt; buffer_and_zeros_written(rt.alloc()) == Some([true; 2]));
    assert!(rt; text_written(rt.alloc(), "a", "é", "aé") == Some([true; 3]));
    Ok(())
}

/// Two bytes, as those of one of several writers.
fn shared(alloc: Global) -> Option<ArcBytesShared> {
    ArcBytesMut::<DefaultLayoutMut>::try_from_slice(alloc, &[1, 2])
        .ok()?
        .into_shared()
        .ok()
}

/// Two bytes of one of several writers are split before the second and joined again: the length of
/// each part, and whether the whole is as before.
fn split_and_joined(rt: &impl Wait, alloc: Global) -> Option<([usize; 2], bool)> {
    let mut front = shared(alloc)?;
    front.check_split_off(1).ok()?;
    let mut pass = front.pass();
    let back = front.try_split_off_as(rt, 1, &mut pass).ok()?;
    let lens = [front.len(), back.len()];
    front.try_unsplit_as(back, &mut pass).ok()?;
    let is_whole = front.as_slice() == [1, 2].as_slice();
    let mut pass = front.pass();
    front.release_as(&mut pass);
    Some((lens, is_whole))
}

/// Whether the part before the second byte has room for one more while the other part lives, and
/// once that has ended.
fn reclaimed_by_several(rt: &impl Wait, alloc: Global) -> Option<[bool; 2]> {
    let mut back = shared(alloc)?;
    back.check_split_off(1).ok()?;
    let mut pass = back.pass();
    let mut front = back.try_split_to_as(rt, 1, &mut pass).ok()?;
    let mut pass = front.pass();
    let beside = front.try_reclaim_as(1, &mut pass);
    drop(back);
    let mut pass = front.pass();
    Some([beside, front.try_reclaim_as(1, &mut pass)])
}

/// One of several writers that is alone takes a byte and two more, and is then its block's only
/// writer.
fn alone_of_several(alloc: Global) -> Option<bool> {
    let mut window = shared(alloc)?;
    let mut pass = window.pass();
    window.try_reserve_as(3, &mut pass).ok()?;
    let mut pass = window.pass();
    window.try_push_as(3, &mut pass).ok()?;
    let mut pass = window.pass();
    window.try_extend_from_slice_as(&[4, 5], &mut pass).ok()?;
    let mut pass = window.pass();
    let sole = window.try_into_unique_as(&mut pass).ok()?;
    Some(sole.as_slice() == [1, 2, 3, 4, 5].as_slice())
}

#[test]
fn several_with_a_pass(rt: HostRuntime) -> Result<(), Fail> {
    assert!(rt; split_and_joined(&rt, rt.alloc()) == Some(([1, 1], true)));
    assert!(rt; reclaimed_by_several(&rt, rt.alloc()) == Some([false, true]));
    assert!(rt; alone_of_several(rt.alloc()) == Some(true));
    Ok(())
}

/// A vector of two bytes, as that of one of several writers.
fn shared_vector(alloc: Global) -> Option<ArcBytesShared> {
    let window: ArcBytesMut = ArcSliceMut::try_from_vec(alloc, two_bytes(alloc)?).ok()?;
    window.into_shared().ok()
}

/// Whether what one of several writers has comes back: a vector, that as a box, and an array; and
/// whether a vector's places have their items on a block of their own.
fn taken_from_several(alloc: Global) -> Option<[bool; 4]> {
    let window = shared_vector(alloc)?;
    let mut pass = window.pass();
    let items = window.try_into_vec_as(&mut pass).ok()?;
    let window = shared_vector(alloc)?;
    let mut pass = window.pass();
    let boxed = window.try_into_boxed_as(&mut pass).ok()?;
    let window = shared(alloc)?;
    let mut pass = window.pass();
    let array: [u8; 2] = window.try_into_array_as(&mut pass).ok()?;
    let mut window = shared_vector(alloc)?;
    if !window.is_on_vector() {
        return None;
    }
    let mut pass = window.pass();
    let mut next = window.try_leave_vector_as(&mut pass).ok()?;
    let has_left = window.as_slice() == [1, 2].as_slice() && !window.is_on_vector();
    window.drop_with_unique_hint_as(&mut next);
    Some([
        items.as_slice() == [1, 2].as_slice(),
        boxed.as_slice() == [1, 2].as_slice(),
        array == [1, 2],
        has_left,
    ])
}

/// Whether one of several writers has its items under another layout, and once it is frozen.
fn changed_of_several(alloc: Global) -> Option<[bool; 2]> {
    let window = shared(alloc)?;
    let mut pass = window.pass();
    let moved = window.try_with_layout_as::<VecLayout>(&mut pass).ok()?;
    let is_moved = moved.as_slice() == [1, 2].as_slice();
    let frozen = moved.try_freeze_as::<DefaultLayout>(&mut pass).ok()?;
    Some([is_moved, frozen.as_slice() == [1, 2].as_slice()])
}

#[test]
fn taken_and_changed_with_a_pass(rt: HostRuntime) -> Result<(), Fail> {
    assert!(rt; taken_from_several(rt.alloc()) == Some([true; 4]));
    assert!(rt; changed_of_several(rt.alloc()) == Some([true; 2]));
    Ok(())
}

/// A heap that counts, and refuses what it is told to.
type Heap<'a> = &'a CountingHeap<Global>;

/// Readers whose memory comes from it.
type InHeap<'a> = ArcSlice<Plain<u8>, DefaultLayout, Vec<u8, Heap<'a>>, (), Heap<'a>>;

/// A box that is refused memory for its count: whether it comes back, and goes in and out again.
fn box_refused(heap: Heap<'_>) -> Option<[bool; 2]> {
    let items = Vec::from_slice(heap, &[1, 2]).ok()?.into_boxed_slice();
    heap.refuse(1);
    let mut pass = Pass::none();
    let Err(items) = InHeap::try_from_boxed_as(heap, items, &mut pass) else {
        return None;
    };
    let is_same = items.as_slice() == [1, 2].as_slice();
    let window = InHeap::try_from_boxed_as(heap, items, &mut pass).ok()?;
    let items = window.try_into_boxed_as(&mut pass).ok()?;
    Some([is_same, items.as_slice() == [1, 2].as_slice()])
}

/// The same of a buffer behind an `Arc`.
fn arc_refused(heap: Heap<'_>) -> Option<[bool; 2]> {
    let items = Vec::from_slice(heap, &[1, 2]).ok()?;
    let shared = Arc::new(heap, items).ok()?;
    heap.refuse(1);
    let mut pass = Pass::none();
    let Err(shared) = InHeap::try_from_raw_buffer_as(heap, shared, &mut pass) else {
        return None;
    };
    let is_same = shared.as_slice() == [1, 2].as_slice();
    let window = InHeap::try_from_raw_buffer_as(heap, shared, &mut pass).ok()?;
    let shared = window.try_into_raw_buffer_as(&mut pass).ok()?;
    Some([is_same, shared.as_slice() == [1, 2].as_slice()])
}

#[test]
fn refused_with_a_pass(rt: HostRuntime) -> Result<(), Fail> {
    let heap = CountingHeap::new(rt.alloc());
    assert!(rt; box_refused(&heap) == Some([true; 2]));
    assert!(rt; arc_refused(&heap) == Some([true; 2]));
    assert!(rt; heap.pieces() == 0);
    Ok(())
}

/// Two owners of what the reader stands on end by this call: whether the first gets nothing, and
/// the second has the two bytes.
macro_rules! last_of_two {
    ($rt:ident, $made:expr, $end:ident) => {{
        let mut pass = Pass::none();
        let window = $made(&mut pass)?;
        let clone = window.try_clone_as($rt, &mut pass).ok()?;
        let first = window.$end(&mut pass).ok()?;
        let last = clone.$end(&mut pass).ok()??;
        Some([first.is_none(), last.as_slice() == [1, 2].as_slice()])
    }};
}

/// The same of a vector, a box, a buffer, and a buffer behind an `Arc`.
fn last_vector(rt: &impl Wait, heap: Heap<'_>) -> Option<[bool; 2]> {
    let items = Vec::from_slice(heap, &[1, 2]).ok()?;
    let made = |pass: &mut Pass| InHeap::try_from_vec_as(heap, items, pass).ok();
    last_of_two!(rt, made, into_vec_if_last_as)
}

fn last_box(rt: &impl Wait, heap: Heap<'_>) -> Option<[bool; 2]> {
    let items = Vec::from_slice(heap, &[1, 2]).ok()?;
    let made = |pass: &mut Pass| InHeap::try_from_vec_as(heap, items, pass).ok();
    last_of_two!(rt, made, into_boxed_if_last_as)
}

fn last_buffer(rt: &impl Wait, heap: Heap<'_>) -> Option<[bool; 2]> {
    let items = Vec::from_slice(heap, &[1, 2]).ok()?;
    let made = |pass: &mut Pass| InHeap::try_from_buffer_as(heap, items, pass).ok();
    last_of_two!(rt, made, into_buffer_if_last_as)
}

fn last_arc(rt: &impl Wait, heap: Heap<'_>) -> Option<[bool; 2]> {
    let items = Vec::from_slice(heap, &[1, 2]).ok()?;
    let shared = Arc::new(heap, items).ok()?;
    let made = |pass: &mut Pass| InHeap::try_from_raw_buffer_as(heap, shared, pass).ok();
    last_of_two!(rt, made, into_raw_buffer_if_last_as)
}

/// Writers whose memory comes from that heap.
type MutInHeap<'a> = ArcSliceMut<Plain<u8>, DefaultLayoutMut, 1, Vec<u8, Heap<'a>>, (), Heap<'a>>;

/// One of two writers on a block ends, and then the other, who is the only writer then: whether the
/// first gets nothing, and the other has his byte, and another one in the place of the first.
fn last_writer(rt: &impl Wait, heap: Heap<'_>) -> Option<[bool; 3]> {
    let whole: MutInHeap = ArcSliceMut::try_from_slice(heap, &[1, 2]).ok()?;
    let mut front = whole.into_shared().ok()?;
    front.check_split_off(1).ok()?;
    let mut pass = front.pass();
    let back = front.try_split_off_as(rt, 1, &mut pass).ok()?;
    let first = back.into_unique_if_last_as(&mut pass).ok()?;
    let (mut sole, mut next) = front.into_unique_if_last_as(&mut pass).ok()??;
    let has_own = sole.as_slice() == [1].as_slice() && sole.capacity() == 1;
    heap.refuse(1);
    let is_pushed = sole.try_push_as(3, &mut next).is_ok();
    Some([
        first.is_none(),
        has_own,
        is_pushed && sole.as_slice() == [1, 3].as_slice(),
    ])
}

/// Whether windows come back that stand on nothing of the sort: on static data, on a native block,
/// and one of several writers on a vector.
fn no_last(alloc: Global) -> Option<[bool; 5]> {
    let fixed = Reader::from_static(alloc, b"ab");
    let back = fixed.into_vec_if_last().err()?;
    let back = back.into_boxed_if_last().err()?;
    let back = back.into_buffer_if_last().err()?;
    let back = back.into_raw_buffer_if_last().err()?;
    let is_fixed = back.as_slice() == b"ab".as_slice();
    let native = Reader::try_from_slice(alloc, &[1, 2]).ok()?;
    let back = native.into_vec_if_last().err()?;
    let is_native = back.as_slice() == [1, 2].as_slice() && back.is_unique();
    let spare = Vec::with_capacity(alloc, 2).ok()?;
    let is_spare = Reader::try_from_vec(alloc, spare)
        .ok()?
        .into_boxed_if_last()
        .is_err();
    let writer = shared_vector(alloc)?.into_unique_if_last().err()?;
    let is_writer = writer.as_slice() == [1, 2].as_slice();
    Some([
        is_fixed,
        is_native,
        is_spare,
        is_writer,
        writer.try_into_unique().is_ok(),
    ])
}

#[test]
fn last_with_a_pass(rt: HostRuntime) -> Result<(), Fail> {
    let heap = CountingHeap::new(rt.alloc());
    assert!(rt; last_vector(&rt, &heap) == Some([true; 2]));
    assert!(rt; last_box(&rt, &heap) == Some([true; 2]));
    assert!(rt; last_buffer(&rt, &heap) == Some([true; 2]));
    assert!(rt; last_arc(&rt, &heap) == Some([true; 2]));
    assert!(rt; last_writer(&rt, &heap) == Some([true; 3]));
    assert!(rt; heap.pieces() == 0);
    assert!(rt; no_last(rt.alloc()) == Some([true; 5]));
    Ok(())
}
