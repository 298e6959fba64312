//! An `Arc` that is a block by itself, and windows that go to other layouts.
use arc_block::layout::{ArcLayout, DefaultLayout, DefaultLayoutMut, RawLayout, VecLayout};
use arc_buffer::kinds::{Owned, Plain};
use arc_read::slice::ArcSlice;
use arc_write::slice_mut::{ArcBytesMut, IntoMut};
use counting_heap::CountingHeap;
use std::alloc::Global;
use std::sync::{Arc, Wait};
use std::test::Fail;

/// A heap that counts.
type Heap<'a> = &'a CountingHeap<Global>;

/// Bytes on an `Arc` that is a block by itself.
type Bytes<'a> = ArcSlice<Plain<u8>, RawLayout, Vec<u8>, (), Heap<'a>>;

/// A window on an `Arc` by itself: whether it is alone beside a clone, whether that asked for no
/// memory, whether all bytes come back then, and whether the clone reads on once these are dropped.
fn beside_a_clone(rt: &impl Wait, heap: Heap<'_>, window: Bytes<'_>) -> Option<[bool; 4]> {
    let before = heap.requests();
    let clone = window.try_clone(rt).ok()?;
    let (is_alone, is_free) = (window.is_unique(), heap.requests() == before);
    let shared = window.try_into_raw_buffer().ok()?;
    let is_whole = shared.as_slice() == [1u8, 2, 3].as_slice();
    drop(shared);
    let is_read = clone.as_slice() == [1u8, 2, 3].as_slice();
    Some([is_alone, is_free, is_whole, is_read])
}

/// An `Arc` that is a block by itself is never alone, and comes back whole beside a clone, which
/// reads on.
fn by_itself(rt: &impl Wait, alloc: Global, heap: Heap<'_>) -> Option<[bool; 4]> {
    let bytes = Vec::from_slice(alloc, &[1, 2, 3]).ok()?;
    let shared = Arc::new(heap, bytes).ok()?;
    beside_a_clone(rt, heap, Bytes::try_from_raw_buffer(heap, shared).ok()?)
}

/// However the windows on an `Arc` end, all is given back with the last one.
#[test]
fn arcs_by_themselves(rt: HostRuntime) -> Result<(), Fail> {
    let heap = CountingHeap::new(rt.alloc());
    assert!(rt; by_itself(&rt, rt.alloc(), &heap) == Some([false, true, true, true]));
    assert!(rt; heap.pieces() == 0);
    Ok(())
}

/// Whether static data comes back from a layout that has none.
fn handed_back(alloc: Global) -> Option<bool> {
    let window: ArcSlice<Plain<u8>> = ArcSlice::from_static(alloc, b"abcd");
    let window = window.try_with_layout::<ArcLayout<true, false>>().err()?;
    Some(window.eq_slice(b"abcd"))
}

/// Items in a buffer behind an `Arc`.
type Items<'a, L> = ArcSlice<Owned<Arc<u8>>, L, Vec<Arc<u8>>, (), Heap<'a>>;

/// Whether a clone of a counted window and its leave of the count ask for no memory; and how many
/// of an item there are once it has ended, and the window on the `Arc` from which it came, beside
/// the one that left the count.
fn beside_the_last<'a>(
    rt: &impl Wait,
    heap: Heap<'a>,
    window: Items<'a, RawLayout>,
    item: &Arc<u8>,
) -> Option<(bool, usize, usize)> {
    let clone = window.try_clone(rt).ok()?;
    let counted = window.try_with_layout::<DefaultLayout>().ok()?;
    let before = heap.requests();
    let other = counted.try_clone(rt).ok()?;
    let left = counted.try_with_layout::<RawLayout>().ok()?;
    let is_free = heap.requests() == before;
    drop(other);
    drop(clone);
    Some((is_free, Arc::strong_count(item), left.len()))
}

/// The same of a buffer of one item, and how many of it there are at the end.
fn items_dropped(
    rt: &impl Wait,
    alloc: Global,
    heap: Heap<'_>,
) -> Option<((bool, usize, usize), usize)> {
    let item = Arc::new(alloc, 7u8).ok()?;
    let items = Vec::from_array(alloc, [Arc::try_clone(&item).ok()?]).ok()?;
    let shared = Arc::new(heap, items).ok()?;
    let window = Items::<RawLayout>::try_from_raw_buffer(heap, shared).ok()?;
    let beside = beside_the_last(rt, heap, window, &item)?;
    Some((beside, Arc::strong_count(&item)))
}

/// Static data goes where it is held, and else comes back. The buffer behind an `Arc` is dropped
/// once, by whoever ends last.
#[test]
fn held_or_handed_back(rt: HostRuntime) -> Result<(), Fail> {
    assert!(rt; handed_back(rt.alloc()) == Some(true));
    let heap = CountingHeap::new(rt.alloc());
    let told = items_dropped(&rt, rt.alloc(), &heap);
    assert!(rt; told == Some(((true, 2, 1), 1)));
    assert!(rt; heap.pieces() == 0);
    Ok(())
}

/// How many items a window on nothing has under a layout that has no static data, and whether it is
/// alone there.
fn from_nothing(alloc: Global) -> Option<(usize, bool)> {
    let window: ArcSlice<Plain<u8>> = ArcSlice::new(alloc);
    let window = window.try_with_layout::<ArcLayout<true, false>>().ok()?;
    Some((window.len(), window.is_unique()))
}

/// A layout of native blocks.
type Native = ArcLayout<false, true>;

/// Whether a window of a vector comes back with its bytes from a layout that holds none, to which
/// it goes to be written; and whether one of a list of them doesn't.
fn not_written(alloc: Global, bytes: &[u8]) -> Option<[bool; 2]> {
    let items = Vec::from_slice(alloc, bytes).ok()?;
    let window: ArcSlice<Plain<u8>> = ArcSlice::try_from_vec(alloc, items).ok()?;
    let back = window.try_into_mut::<Native>().err()?;
    let is_back = back.eq_slice(bytes);
    drop(back);
    let window: ArcSlice<Plain<u8>> = ArcSlice::try_from_slice(alloc, bytes).ok()?;
    let writer = window.try_into_mut::<Native>().ok()?;
    Some([is_back, writer.eq_slice(bytes)])
}

/// The same of a writer that goes to be read.
fn not_read(alloc: Global, bytes: &[u8]) -> Option<[bool; 2]> {
    let items = Vec::from_slice(alloc, bytes).ok()?;
    let writer = ArcBytesMut::<DefaultLayoutMut>::try_from_vec(alloc, items).ok()?;
    let back = writer.try_freeze::<Native>().err()?;
    let is_back = back.eq_slice(bytes);
    drop(back);
    let writer = ArcBytesMut::<DefaultLayoutMut>::try_from_slice(alloc, bytes).ok()?;
    let window = writer.try_freeze::<Native>().ok()?;
    Some([is_back, window.eq_slice(bytes)])
}

/// Writers over a vector as a caller's buffer, with a number.
type Over<L> = ArcBytesMut<L, Vec<u8>, u8>;

/// Whether a writer over a buffer of four places has these bytes under another layout, and how many
/// places and what metadata it has under the first one and under that.
fn over_buffer(alloc: Global, bytes: &[u8]) -> Option<(bool, [usize; 2], [Option<u8>; 2])> {
    let mut buffer = Vec::with_capacity(alloc, 4).ok()?;
    buffer.extend_from_slice(bytes).ok()?;
    let window = Over::<DefaultLayoutMut>::try_from_buffer_with_metadata(alloc, buffer, 9).ok()?;
    let (places, metadata) = (window.capacity(), window.metadata().copied());
    let window = window.try_with_layout::<VecLayout>().ok()?;
    let is_same = window.as_slice() == bytes;
    let all_places = [places, window.capacity()];
    Some((is_same, all_places, [metadata, window.metadata().copied()]))
}

/// A window goes where the layout holds what it stands on, or makes a block for it, with all that
/// it has. Else it comes back.
#[test]
fn moved_or_handed_back(rt: HostRuntime) -> Result<(), Fail> {
    assert!(rt; from_nothing(rt.alloc()) == Some((0, true)));
    assert!(rt; not_written(rt.alloc(), &[1, 2, 3]) == Some([true; 2]));
    assert!(rt; not_read(rt.alloc(), &[1, 2, 3]) == Some([true; 2]));
    let told = over_buffer(rt.alloc(), &[1, 2]);
    assert!(rt; told == Some((true, [4; 2], [Some(9); 2])));
    Ok(())
}
