//! Windows under `Whole` stay owners for good, whatever they stand on. A caller's buffer's metadata
//! is dropped once under each layout.
use crate::living::{Values, first_three, living, values};
use crate::shelf::{Shelf, filled};
use arc_block::layout::{
    AnyBufferLayout, ArcLayout, BoxedSliceLayout, DefaultLayout, DefaultLayoutMut, RawLayout,
    VecLayout,
};
use arc_buffer::buffer::AsMutBuffer;
use arc_buffer::kinds::{Owned, Plain};
use arc_owners::mark::Whole;
use arc_owners::owners::Pass;
use arc_read::slice::ArcSlice;
use arc_write::slice_mut::{ArcBytesMut, ArcSliceMut};
use counting_heap::CountingHeap;
use std::alloc::Global;
use std::sync::{Arc, Wait};
use std::test::Fail;

type Reader = ArcSlice<Owned<Arc<u8>>, DefaultLayout, AsMutBuffer<Shelf>, Arc<u8>, Global, Whole>;

type Writer = ArcSliceMut<
    Owned<Arc<u8>>,
    DefaultLayoutMut,
    1,
    AsMutBuffer<Shelf>,
    Arc<u8>,
    Global,
    Whole,
>;

/// Whether a reader was made under `Whole`, which is then dropped.
fn reader_forgotten(alloc: Global, values: &Values) -> Option<bool> {
    let (buffer, metadata) = filled(alloc, values)?;
    let mut pass = Pass::none();
    let made = Reader::try_from_buffer_with_metadata_as(alloc, buffer, metadata, &mut pass);
    Some(made.is_ok())
}

/// The same of a writer.
fn writer_forgotten(alloc: Global, values: &Values) -> Option<bool> {
    let (buffer, metadata) = filled(alloc, values)?;
    let mut pass = Pass::none();
    let made = Writer::try_from_buffer_with_metadata_as(alloc, buffer, metadata, &mut pass);
    Some(made.is_ok())
}

/// How many there are after both.
fn forgotten(alloc: Global) -> Option<([bool; 2], [usize; 5])> {
    let values = values(alloc)?;
    let made = [
        reader_forgotten(alloc, &values)?,
        writer_forgotten(alloc, &values)?,
    ];
    Some((made, living(&values)))
}

/// Dropped under `Whole` a window stays the owner of its block, so nothing of the buffer is
/// dropped, nor is its metadata.
#[test]
fn kept_by_forgotten_owners(rt: HostRuntime) -> Result<(), Fail> {
    assert!(rt; forgotten(rt.alloc()) == Some(([true; 2], [3; 5])));
    Ok(())
}

/// Whether a reader of a vector of the first three values was made under `Whole`, which is then
/// dropped.
fn vector_forgotten(alloc: Global, values: &Values) -> Option<bool> {
    let items = Vec::from_array(alloc, first_three(values)?).ok()?;
    let mut pass = Pass::none();
    Some(Reader::try_from_vec_as(alloc, items, &mut pass).is_ok())
}

/// The same of a writer.
fn written_vector_forgotten(alloc: Global, values: &Values) -> Option<bool> {
    let items = Vec::from_array(alloc, first_three(values)?).ok()?;
    let mut pass = Pass::none();
    Some(Writer::try_from_vec_as(alloc, items, &mut pass).is_ok())
}

/// The same of a reader of a buffer of the first four behind an `Arc`, which is counted once more.
fn arc_forgotten(alloc: Global, values: &Values) -> Option<bool> {
    let (buffer, metadata) = filled(alloc, values)?;
    drop(metadata);
    let shared = Arc::new(alloc, buffer).ok()?;
    let mut pass = Pass::none();
    Some(Reader::try_from_raw_buffer_as(alloc, shared, &mut pass).is_ok())
}

/// How many there are after both of vectors, and then after that of an `Arc`.
fn others_forgotten(alloc: Global) -> Option<([bool; 3], [[usize; 5]; 2])> {
    let values = values(alloc)?;
    let read = vector_forgotten(alloc, &values)?;
    let written = written_vector_forgotten(alloc, &values)?;
    let after = living(&values);
    let is_shared = arc_forgotten(alloc, &values)?;
    Some(([read, written, is_shared], [after, living(&values)]))
}

/// The same of vectors, and of a buffer behind an `Arc`.
#[test]
fn kept_on_vectors_and_arcs(rt: HostRuntime) -> Result<(), Fail> {
    let after = [[3, 3, 3, 1, 1], [4, 4, 4, 2, 1]];
    assert!(rt; others_forgotten(rt.alloc()) == Some(([true; 3], after)));
    Ok(())
}

/// A heap that counts.
type Heap<'a> = &'a CountingHeap<Global>;

/// A writer of bytes under `Whole`.
type Bytes<'a> = ArcBytesMut<DefaultLayoutMut, Vec<u8>, (), Heap<'a>, Whole>;

/// Whether two of several writers were split under `Whole`, which are then dropped.
fn several_forgotten(rt: &impl Wait, heap: Heap<'_>) -> Option<bool> {
    let mut pass = Pass::none();
    let Ok(window) = Bytes::try_from_slice_as(heap, &[1, 2, 3, 4], &mut pass) else {
        return None;
    };
    let Ok(mut front) = window.into_shared() else {
        return None;
    };
    if front.check_split_off(2).is_err() {
        return None;
    }
    Some(front.try_split_off_as(rt, 2, &mut pass).is_ok())
}

/// One of several writers stays an owner too, and keeps the block's memory.
#[test]
fn kept_by_several(rt: HostRuntime) -> Result<(), Fail> {
    let heap = CountingHeap::new(rt.alloc());
    let split = several_forgotten(&rt, &heap);
    assert!(rt; (split, heap.pieces()) == (Some(true), 1));
    Ok(())
}

/// Bytes in a buffer, with a value as metadata.
type Named<L> = ArcSlice<Plain<u8>, L, Vec<u8>, Arc<u8>>;

/// Whether a window and its clone have metadata; how many owners of it there are beside both,
/// beside the clone alone, and beside neither.
fn of_both<L: AnyBufferLayout>(
    rt: &impl Wait,
    window: Named<L>,
    metadata: &Arc<u8>,
) -> Option<([bool; 2], [usize; 3])> {
    let clone = window.try_clone(rt).ok()?;
    let have = [window.metadata().is_some(), clone.metadata().is_some()];
    let both = Arc::strong_count(metadata);
    drop(window);
    let one = Arc::strong_count(metadata);
    drop(clone);
    Some((have, [both, one, Arc::strong_count(metadata)]))
}

/// What is told of a buffer of a byte under a layout.
fn metadata_under<L: AnyBufferLayout>(
    rt: &impl Wait,
    alloc: Global,
) -> Option<([bool; 2], [usize; 3])> {
    let metadata = Arc::new(alloc, 7u8).ok()?;
    let buffer = Vec::from_slice(alloc, &[42]).ok()?;
    let other = Arc::try_clone(&metadata).ok()?;
    let window = Named::<L>::try_from_buffer_with_metadata(alloc, buffer, other).ok()?;
    of_both(rt, window, &metadata)
}

/// Under each layout that holds buffers a clone has the same metadata, which is dropped once, after
/// both.
#[test]
fn metadata_dropped_once(rt: HostRuntime) -> Result<(), Fail> {
    let told = [
        metadata_under::<DefaultLayout>(&rt, rt.alloc()),
        metadata_under::<ArcLayout<true, false>>(&rt, rt.alloc()),
        metadata_under::<BoxedSliceLayout>(&rt, rt.alloc()),
        metadata_under::<VecLayout>(&rt, rt.alloc()),
        metadata_under::<RawLayout>(&rt, rt.alloc()),
    ];
    assert!(rt; told == [Some(([true; 2], [2, 2, 1])); 5]);
    Ok(())
}
